"""Random scripts and histories, most of them good, for `fuzz.py`."""

from random import Random

from journal import Clashed, Event, Fire, Fired, Full, History, Read, Stale, Storage, Values
from jsontext import Json, write
from moves import Move, read_instruction
from values import MAX_ITEMS, MAX_LIST_DEPTH, Location, State, read_location, read_state, read_value

NUMBERS = [0, 1, 1, 2, 3, 7, 10, -1, -2, 2**63 - 1, -(2**63), 2**63 - 2, 2**31, 2**32]
TEXTS = ["", "a", "b", "B", "e", "é", "ÿ", "\U0001f600", "\ue000", '"\\/', "\n\t\x00\x1f\x7f", "x" * 70]
AMOUNTS = [1, 1, 1, 2, 3, 5, 2**31, 2**32 - 2, 2**32 - 1]
# The first letter of a location's name says what it mostly holds; x may hold anything.
KINDS = "sssbbbnnx"
CAUSES = ["Two", "Mixed", "Kind", "Both", "Against", "Short", "Large"]


class Maker:
    """Makes scripts over few locations and elements.

    So groups, clashes and stale reads are common.
    """

    def __init__(self, random: Random) -> None:
        self.random = random
        self.elements = [self.fresh_element() for _ in range(random.randint(2, 5))]
        ends = random.choices(["", "", "1", "_A9", 63 * "z"], k=random.randint(1, 4))
        self.names = [random.choice(KINDS) + end for end in ends]
        self.places = [self.place() for _ in range(random.randint(1, 7))]
        self.lines = random.choice([[0, 1], [0, 1, 1, 2, 2, 3, 6]])
        self.strange = random.choice([0.0, 0.0, 0.02, 0.1, 0.3])
        self.heavy = random.choice([0.1, 0.4, 0.9])
        # If it isn't 0, lists may be beyond their limits, and then whatever contains them is a wrong shape.
        self.beyond = 0

    def chance(self, part: float) -> bool:
        return self.random.random() < part

    def fresh_element(self, depth: int = 0) -> Json:
        """Make an element that is in as many lists as the depth."""
        if depth < MAX_LIST_DEPTH and self.chance(0.2):
            count = self.random.choice([0, 0, 1, 1, 2, 2, 3, 5])
            return {"list": [self.fresh_element(depth + 1) for _ in range(count)]}
        return self.flat_element()

    def flat_element(self) -> Json:
        pick = self.random.random()
        if pick < 0.45:
            return self.random.choice(NUMBERS)
        if pick < 0.85:
            return self.random.choice(TEXTS)
        return self.random.choice([None, True, False])

    def list_at_limit(self) -> Json:
        """Make a list that is as deep or as long as allowed, or nearly so, or just beyond."""
        if self.chance(0.5):
            return self.list_of_depth(MAX_LIST_DEPTH + self.random.randint(-1, self.beyond))
        filler = self.random.choice([None, 0, {"list": []}])
        count = MAX_ITEMS + self.random.randint(-1, self.beyond)
        return {"list": [self.flat_element(), *([filler] * (count - 2)), self.flat_element()]}

    def list_of_depth(self, depth: int) -> Json:
        listed: list[Json] = self.random.choice([[], [self.flat_element()]])
        for _ in range(depth - 1):
            inner: Json = {"list": listed}
            listed = self.random.choice([[inner], [inner, self.flat_element()], [self.flat_element(), inner]])
        return {"list": listed}

    def element(self) -> Json:
        return self.random.choice(self.elements)

    def place(self) -> list[Json]:
        name = self.random.choice(self.names)
        count = self.random.choice([0, 0, 0, 1, 1, 2, 8, 8])
        return [name, *(self.fresh_element() for _ in range(count))]

    def distinct(self, most: int) -> list[Json]:
        found: list[Json] = []
        for it in (self.element() for _ in range(self.random.randint(0, most))):
            if not any(write(it) == write(other) for other in found):
                found.append(it)
        return found

    def set(self) -> Json:
        return {"set": self.distinct(4)}

    def bag(self) -> Json:
        return {"bag": [[it, self.random.choice(AMOUNTS)] for it in self.distinct(3)]}

    def value_at(self, at: list[Json]) -> Json:
        kind = at[0][0] if not self.chance(self.strange) else self.random.choice("sbnx")
        if kind == "s":
            return self.set()
        if kind == "b":
            return self.bag()
        return self.random.choice(NUMBERS) if kind == "n" else self.element()

    def init(self) -> list[Json]:
        chosen = {str(it): it for it in self.places if self.chance(0.9)}
        return [[at, self.value_at(at)] for at in chosen.values()]

    def term(self, at: list[Json], depth: int = 0) -> Json:
        pick = self.random.random()
        if pick < 0.2 and (at[0][0] == "n" or self.chance(self.strange)) and depth < 3:
            return {"sum": [self.term(at, depth + 1), self.term(at, depth + 1)]}
        if pick < 0.45:
            alike = [it for it in self.places if it[0][0] == at[0][0]] or self.places
            return {"val": self.random.choice(alike)}
        return self.value_at(at)

    def part(self) -> Json:
        if self.chance(self.strange):
            return self.random.choice([self.term(["n"]), self.set(), {"val": self.random.choice(self.places)}])
        return self.element()

    def instruction(self) -> Json:
        at = self.random.choice(self.places)
        kind = at[0][0] if not self.chance(self.strange) else self.random.choice("sbnx")
        if kind == "s" and not self.chance(0.2):
            return [self.random.choice(["add", "add", "remove"]), at, self.part()]
        if kind == "b" and not self.chance(0.2):
            amount = self.random.choice(AMOUNTS) if self.chance(self.heavy) else 1
            return [self.random.choice(["bagadd", "bagadd", "bagremove"]), at, self.part(), amount]
        if kind == "n" and self.chance(0.5):
            number = self.random.choice(NUMBERS) if self.chance(self.heavy) else self.random.choice([1, -1])
            return ["inc", at, number]
        return ["put", at, self.term(at)]

    def block(self) -> Json:
        return [self.instruction() for _ in range(self.random.choice(self.lines))]

    def step(self) -> Json:
        count = self.random.choice([1, 1, 1, 2, 2, 3, 5])
        return [self.block() for _ in range(count)]

    def steps(self) -> Json:
        return [self.step() for _ in range(self.random.choice([0, 1, 1, 2, 3, 5, 9]))]

    def script(self) -> Json:
        """Make a script of one agent that moves, among others that don't."""
        if self.chance(0.05):
            self.beyond = self.random.choice([0, 0, 1])
            self.elements.append(self.list_at_limit())
            self.places.append(["x", self.random.choice(self.elements)])
        agents: list[Json] = [[] for _ in range(self.random.choice([0, 0, 0, 0, 1, 3]))]
        agents.insert(self.random.randint(0, len(agents)), self.steps())
        return {"init": self.init(), "agents": agents}

    def sequence(self) -> Json:
        """Make a script of steps of several blocks.

        They are mostly of partial updates with large amounts or numbers.
        """
        self.places, self.elements = [["b"], ["s"], ["n"]], self.elements[:2]
        self.strange, self.heavy, self.lines = 0.0, 0.9, [1, 1, 2]
        steps: list[Json] = []
        for _ in range(self.random.randint(1, 6)):
            steps.append([self.block() for _ in range(self.random.randint(1, 5))])
        return {"init": self.init(), "agents": [steps]}

    def blocks(self) -> Json:
        """Make a script of steps of one to five blocks.

        A block may repeat what it has up to a limit, or undo it.
        """
        self.places, self.elements = [["b"], ["s"], ["n"], ["x"]], self.elements[:2]
        self.strange, self.heavy, self.lines = 0.0, 0.1, [0, 1, 1, 2]
        steps: list[Json] = []
        for _ in range(self.random.randint(1, 3)):
            steps.append([self.repeat_or_undo(self.block()) for _ in range(self.random.randint(1, 5))])
        return {"init": self.init(), "agents": [steps]}

    def repeat_or_undo(self, block: list[Json]) -> list[Json]:
        """Make the block unchanged, or with a repeated or undone instruction.

        It repeats an instruction as often as a move may have one, or adds what undoes it.
        """
        pick = self.random.random()
        if not block or pick < 0.5:
            return block
        if pick < 0.55:
            return [*block, *[block[-1]] * (MAX_ITEMS - len(block) + self.random.choice([-1, 0, 0, 0, 0, 1]))]
        undone = {"inc": "inc", "add": "remove", "remove": "add", "bagadd": "bagremove", "bagremove": "bagadd"}
        others = [[undone[it[0]], *it[1:]] for it in block if it[0] in undone]
        return [*block, *([*it[:2], -it[2]] if it[0] == "inc" and it[2] != -(2**63) else it for it in others)]

    def independent(self) -> Json:
        """Make a script of several agents, no two of which touch one location."""
        init: list[Json] = []
        agents: list[Json] = []
        places = self.places
        for name in "CDEFGH"[: self.random.randint(2, 6)]:
            self.places = [[it[0][:63] + name, *it[1:]] for it in places]
            init += self.init()
            agents.append(self.steps())
        return {"init": init, "agents": agents}

    def large(self) -> Json:
        """Make a script at or beyond a limit."""
        near = self.random.choice([-1, 0, 1])
        many: list[Json] = [["put", ["n", it], it] for it in range(4096 + near)]
        reads: list[Json] = [["put", ["x"], {"val": ["n", it]}] for it in range(256 + near)]
        self.beyond = 1
        steps: list[Json] = self.random.choice(
            [
                [[[["put", ["x"], self.list_at_limit()], ["add", ["s", self.list_at_limit()], self.list_at_limit()]]]],
                [[many]],
                [[many[: 2048 + near], [["add", ["s", it], it] for it in range(2048)]]],
                [[many, [["put", ["n", 0], 9]]]],
                [self.near_the_limit(4096 + near)],
                [[reads], [[["put", ["x"], 1]]]],
                [[self.block() for _ in range(65 + near)]],
                [self.step() for _ in range(40)],
                [[]],
            ]
        )
        idle: list[Json] = [[] for _ in range(self.random.choice([0, 0, 0, 255 + near]))]
        return {"init": self.init(), "agents": [steps, *idle]}

    def near_the_limit(self, count: int) -> list[Json]:
        """Make a step with this many equal instructions in one of its blocks."""
        blocks: list[Json] = [self.block() for _ in range(self.random.randint(1, 4))]
        most = min(count, 4096)
        at = self.random.randrange(len(blocks) + 1)
        return [*blocks[:at], [self.instruction()] * self.random.choice([most, most - 1, most // 2]), *blocks[at:]]

    def contending(self) -> Json:
        """Make a script of several agents that touch three locations."""
        self.places = [["s"], ["b"], ["n"]]
        self.elements = [1, "e", {"list": [True]}]
        step: list[Json] = [[["put", ["n"], {"sum": [{"val": ["n"]}, 1]}]]]
        agents: list[Json] = []
        for _ in range(self.random.randint(2, 16)):
            count = self.random.randint(1, 50)
            agents.append([step if self.chance(0.3) else self.step() for _ in range(count)])
        return {"init": [[["s"], {"set": []}], [["b"], {"bag": []}], [["n"], 0]], "agents": agents}

    def history(self, init: State | None = None, wrong: float = 0.3) -> History:
        """Make a history of several agents with old reads, of calls that no script makes.

        One answer may be wrong.
        """
        if self.chance(0.02):
            self.elements.append(self.list_at_limit())
        agents = self.random.choice([1, 2, 3, 256])
        opening = read_state(self.init()) if init is None else init
        history = History(opening, self.random.choice([1, 3, 4096]), agents)
        storage = Storage(history.init, history.capacity)
        for _ in range(self.random.choice([0, 1, 2, 5, 12])):
            call = self.call(storage.number)
            event = Event(self.random.randrange(agents), call, storage.reply(call))
            history.events.append(event)
        if history.events and self.chance(wrong):
            at = self.random.randrange(len(history.events))
            event = history.events[at]
            history.events[at] = event._replace(reply=self.other_reply(event))
        return history

    def run(self) -> list[History]:
        """Make the parts of a run.

        Each mostly opens with the state at the end of the one before it.
        """
        parts = [self.history(wrong=0.1)]
        for _ in range(self.random.choice([0, 1, 1, 2, 4])):
            left = Storage(parts[-1].init, parts[-1].capacity)
            for event in parts[-1].events:
                left.reply(event.call)
            parts.append(self.history(None if self.chance(0.05) else left.state, wrong=0.1))
        return parts

    def call(self, number: int) -> Read | Fire:
        if self.chance(0.3):
            return Read([self.location() for _ in range(self.random.randint(0, 4))])
        late = self.random.choice([-1, 0, 0, 0, 1, 2, 5])
        named = [
            (self.location(), max(0, number - late))
            for _ in range(self.random.choice([0, 0, 1, 3, 6]))
        ]
        return Fire(self.move(), named)

    def move(self) -> Move:
        return [read_instruction(self.with_constant(self.instruction())) for _ in range(self.random.randint(0, 4))]

    def with_constant(self, line: Json) -> Json:
        """Put a value, or an element, in the place of an instruction's term."""
        if line[0] == "inc":
            return [*line[:2], self.random.choice(NUMBERS)]
        content = self.value_at(line[1]) if line[0] == "put" else self.element()
        return [*line[:2], content, *line[3:]]

    def location(self) -> Location:
        return read_location(self.random.choice(self.places))

    def other_reply(self, event: Event) -> Values | Fired | Stale | Clashed | Full:
        if isinstance(event.reply, Values):
            number = max(0, event.reply.number + self.random.choice([-1, 0, 1]))
            values = list(event.reply.values)
            if values:
                values[self.random.randrange(len(values))] = read_value(self.value_at(["x"]))
            return Values(number, values)
        number = self.random.randint(0, 3)
        clashed = Clashed(self.location(), self.random.choice(CAUSES))
        return self.random.choice([Fired(number), Stale(self.location()), clashed, Full()])
