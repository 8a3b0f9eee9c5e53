"""The rules of an abstract state machine, as objects that are played on a step.

A location is a tuple ("name", argument, ..), or prepared. A term is a value, or a function of `see`, which returns the value
of a location.
"""
import random
from collections.abc import Callable
from dataclasses import dataclass
from functools import partial, reduce
from typing import Any

from folugben import Agent, Location, Move, RunAgent, SharedAgent, Step

At = Location | tuple[Any, ...]


def value_of(term: Any, step: Step) -> Any:
    return term(step.__getitem__) if callable(term) else term


class Rule:
    """A rule; each kind of rule defines `updates` or `play`, and the other follows."""

    def __init__(self, *parts: "Rule") -> None:
        self.parts = parts

    def updates(self, step: Step) -> Move:
        """Return all its updates as one move. For that, a rule in sequence has a dry run."""
        step.push(Move())
        is_any, move = self.play(step), step.pop_move()
        return move if is_any else Move()

    def play(self, step: Step) -> bool:
        """Make its updates, visible to what is played next. Return whether there are any."""
        move = self.updates(step)
        step.extend(move)  # of what was pushed last: a sequence is one move deep
        return len(move) > 0


class Instruction(Rule):
    def __init__(self, word: str, at: At, term: Any) -> None:
        self.word, self.at, self.term = word, at if isinstance(at, Location) else Location(at), term

    def updates(self, step: Step) -> Move:
        move: Move = getattr(Move(), self.word)(self.at, value_of(self.term, step))
        return move


Update, Add, Remove = (partial(Instruction, word) for word in ("put", "add", "remove"))


class Par(Rule):
    def updates(self, step: Step) -> Move:
        return reduce(Move.unite, [part.updates(step) for part in self.parts], Move())


class Seq(Rule):
    def play(self, step: Step) -> bool:
        return any([part.play(step) for part in self.parts])


class Iterate(Rule):
    def play(self, step: Step) -> bool:
        rounds = iter(partial(Par(*self.parts).play, step), False)  # up to one that does nothing
        return any(list(rounds))


@dataclass
class Derived(Rule):
    rule_for: Callable[[Step], Rule]  # by what is seen

    def updates(self, step: Step) -> Move:
        return self.rule_for(step).updates(step)

    def play(self, step: Step) -> bool:
        return self.rule_for(step).play(step)


def If(condition: Any, then: Rule, otherwise: Rule = Par()) -> Rule:
    return Derived(lambda step: then if value_of(condition, step) else otherwise)


def While(condition: Any, body: Rule) -> Rule:
    return Iterate(If(condition, body))


def Let(term: Any, body: Callable[[Any], Rule]) -> Rule:
    return Derived(lambda step: body(value_of(term, step)))


def Choose(name: str, where: Callable[..., object], body: Callable[..., Rule], otherwise: Rule = Par()) -> Rule:
    return Derived(lambda step: random.choice([body(*pair) for pair in step.scan(name) if where(*pair)] or [otherwise]))


def Forall(name: str, where: Callable[..., object], body: Callable[..., Rule]) -> Rule:
    return Derived(lambda step: Par(*(body(*pair) for pair in step.scan(name) if where(*pair))))


# A rule that is played in step after step, and the condition under which its agent is done with it.
Program = tuple[Rule, Callable[[Agent | RunAgent | SharedAgent], bool]]
