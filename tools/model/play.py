"""Play scripts, one agent after the other, and write their reports."""

from typing import NamedTuple

import jsontext
from journal import Clashed, Event, Fire, Full, History, Read, Stale, Storage, Values
from moves import Clash, LargeAmount, ManyInstructions
from script import NoTerm, Script, Step, reads, step_move
from values import Location, State, location_json, pairs_json


class SeveralAgents(Exception):
    """The output may depend on the order in which the agents' moves are fired."""


class Played(NamedTuple):
    history: History
    final: State
    # The lines of the steps that didn't fire, and where and why a term of one had no value.
    lines: list[str]
    term_lines: list[str]


def play(script: Script, capacity: int, is_journal: bool) -> Played:
    """Play the script, if its output is the same in every order of the agents' moves."""
    playing = [steps for steps in script.agents if steps]
    if len(playing) > 1 and (is_journal or not _may_interleave(playing, capacity)):
        raise SeveralAgents
    storage = Storage(script.init, capacity)
    history = History(script.init, capacity, len(script.agents))
    lines: list[str] = []
    term_lines: list[str] = []
    for agent, steps in enumerate(script.agents):
        for number, step in enumerate(steps):
            name = f"agent {agent} step {number}"
            outcome, why = _play_step(storage, history, agent, step)
            if outcome:
                lines.append(f"{name} {outcome}")
            if why:
                term_lines.append(f"{name} {why}")
    return Played(history, storage.state, lines, term_lines)


def report(played: Played, has_terms: bool) -> bytes:
    """Return the report, followed by the report on terms, if that is asked for."""
    pairs = [jsontext.write(pair) for pair in pairs_json(played.final)]
    lines = [*pairs, f"moves {played.history.moves()}", *played.lines, *(played.term_lines if has_terms else [])]
    return "".join(line + "\n" for line in lines).encode()


def step_fault(step: Step, reading: State) -> str | Fire:
    """Return the move that the step fires on what was read, or the outcome before it.

    The move names nothing.
    """
    try:
        return Fire(step_move(step, reading), [])
    except NoTerm:
        return "term"
    except Clash as clash:
        return clash_line(clash.at, clash.cause)
    except LargeAmount as large:
        return f"large {jsontext.write(location_json(large.at))}"
    except ManyInstructions:
        return "many"


def clash_line(at: Location, cause: str) -> str:
    return f"clash {jsontext.write(location_json(at))} {cause}"


def _play_step(
    storage: Storage, history: History, agent: int, step: Step
) -> tuple[str | None, str | None]:
    """Return the outcome of a step that didn't fire, and the fault of a term.

    The fault says where and why a term has no value.

    No other agent moves meanwhile, so nothing is stale.
    """
    places = reads(step)
    reading: State = {}
    if places:
        answer = storage.reply(Read(places))
        assert isinstance(answer, Values)
        history.events.append(Event(agent, Read(places), answer))
        reading = dict(zip(places, answer.values))
    fire = step_fault(step, reading)
    if isinstance(fire, str):
        return fire, _why(step, reading) if fire == "term" else None
    call = Fire(fire.move, [(at, storage.number) for at in places])
    reply = storage.reply(call)
    history.events.append(Event(agent, call, reply))
    assert not isinstance(reply, Stale)
    if isinstance(reply, Clashed):
        return clash_line(reply.at, reply.cause), None
    return "full" if isinstance(reply, Full) else None, None


def _why(step: Step, reading: State) -> str:
    try:
        step_move(step, reading)
    except NoTerm as error:
        return str(error)
    raise AssertionError


def _may_interleave(playing: list[list[Step]], capacity: int) -> bool:
    """Check that no two agents touch one location, and that each step has room."""
    touched = [{at for step in steps for at in _locations_of(step)} for steps in playing]
    is_disjoint = sum(map(len, touched)) == len(set().union(*touched))
    return is_disjoint and sum(map(len, playing)) <= capacity


def _locations_of(step: Step) -> set[Location]:
    return {at for block in step for at, _ in block} | set(reads(step))
