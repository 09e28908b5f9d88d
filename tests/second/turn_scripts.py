"""Scripts for the program `drafts`, and what it must print for them.

The lines are told in outlets.md. They are the lists of calls of turn_samples.py, and some
more: over outlets of every small size, with terms that are refused, and with a draft that
is begun over an outlet that holds legs already. What a script cannot ask for is left out:
octets written over, numbers of a leg below 0, and calls that the turn does not have.
"""

from __future__ import annotations

from collections.abc import Iterator, Sequence
from dataclasses import replace
from itertools import product
from random import Random

from card import HEADER_LENGTH, KINDS, Leg, Point, Refusal
from curves import LIMIT, REDUCTIONS, least_tolerance
from curves_samples import by_turns
from outlets import Outlet
from trials import Exchange, leg_text, put_line, state_of
from turn_samples import (
    Answer,
    Call,
    ChangeBehind,
    KeepBehind,
    Lay,
    List,
    OwnCall,
    Play,
    PutBehind,
    Seal,
    Start,
    Strike,
    Tell,
    TurnList,
    WriteBehind,
    drawn_call,
    drawn_list,
    drawn_start,
)
from turns import Draft, Sealed, Span, begin

# --- What the program prints


def coordinates_text(points: Sequence[Point]) -> str:
    return "".join(f" {coordinate}" for point in points for coordinate in point)


def refusal_text(refusal: Refusal) -> str:
    point = "" if refusal.names is None else f" at point {refusal.names}"
    return f"refused {refusal.number}{point}"


def answer_text(call: OwnCall, answer: Answer) -> str:
    if isinstance(answer, Refusal):
        return refusal_text(answer)
    if isinstance(call, Tell):
        assert isinstance(answer, tuple)
        return f"value{coordinates_text([answer])}"
    if isinstance(call, List):
        return "nothing" if answer is None else f"leg {leg_text(answer)}"
    assert isinstance(answer, Draft | Sealed)
    return "accepted"


# --- Scripts


def line_of(call: OwnCall) -> str:
    if isinstance(call, Lay):
        points = coordinates_text(call.span.points)
        return f"lay {call.span.ticks} {call.work_points}{points}"
    if isinstance(call, Tell):
        return f"tell {call.tick}"
    if isinstance(call, List):
        return f"list {call.index}"
    return "strike" if isinstance(call, Strike) else "seal"


def is_had_by(turn: Draft | Sealed, call: Call) -> bool:
    """Whether the turn has such a call."""
    if isinstance(call, Tell | List):
        return isinstance(turn, Sealed)
    return not isinstance(call, OwnCall) or isinstance(turn, Draft)


def is_data(leg: Leg) -> bool:
    """Whether a line can give the leg's numbers, which have 32 bits and no sign."""
    numbers = (leg.from_, leg.ticks, leg.depth, leg.index, leg.degree)
    return all(0 <= number < 2**32 for number in numbers)


class Script:
    """The lines from one start of an outlet to the next. Each is told to the second turns
    at once."""

    def __init__(self, start: Start) -> None:
        self.start = start
        self.play = Play(start)
        self.exchanges: list[Exchange] = []
        self.calls = 0
        self.add(f"{start.word} {start.kind.name} {start.size}", "started")

    @property
    def outlet(self) -> Outlet:
        return self.play.outlet

    def add(self, line: str, *printed: str) -> None:
        self.exchanges.append(Exchange(line, (*printed, state_of(self.outlet))))

    def begin(self, tolerance: int, depth: int, end: int) -> None:
        draft = begin(self.start.kind, self.start.reduction, tolerance, depth, end)
        line = f"begin {self.start.reduction.name} {tolerance} {depth} {end}"
        if isinstance(draft, Refusal):
            self.add(line, refusal_text(draft))
        else:
            self.play.turn = draft
            self.add(line, "begun")
        self.calls += 1

    def begin_as_started(self) -> None:
        self.begin(self.start.tolerance, self.start.depth, self.start.end)

    def put(self, behind: PutBehind) -> None:
        if not is_data(behind.leg):
            return
        refused = self.outlet.put(behind.leg)
        self.add(put_line(behind.leg), "put" if refused is None else f"refused {refused}")

    def keep(self, behind: KeepBehind) -> None:
        self.outlet.keep(behind.kept)
        self.add(f"keep {behind.kept}", "kept")

    def make(self, call: OwnCall) -> None:
        printed = [answer_text(call, self.play.make(call))]
        if isinstance(call, Lay):
            printed.append(f"work{coordinates_text(self.play.work)}")
        self.add(line_of(call), *printed)
        self.calls += 1

    def say(self, call: Call) -> None:
        if isinstance(call, WriteBehind) or not is_had_by(self.play.turn, call):
            return
        if isinstance(call, PutBehind):
            self.put(call)
        elif isinstance(call, KeepBehind):
            self.keep(call)
        elif isinstance(call, ChangeBehind):
            self.keep(KeepBehind(max(0, self.outlet.count() - 1)))
            self.put(PutBehind(call.leg))
        else:
            self.make(call)

    def say_all(self, calls: Sequence[Call]) -> Script:
        for call in calls:
            self.say(call)
        return self


def script_of(start: Start, calls: Sequence[Call]) -> Script:
    script = Script(start)
    script.begin_as_started()
    return script.say_all(calls)


# --- The scripts

BEGUN_AGAIN = 0.3
LARGEST_SMALL_TABLE = 8
TERMS_AT_LIMITS = (
    (0, -1, 0),
    (0, 0, 1),
    (1, -1, 1),
    (1, 0, 0),
    (1, 11, 65_537),
    (1, 10, 65_537),
    (LIMIT + 1, 11, 0),
    (LIMIT, 11, 0),
    (LIMIT, 10, 0),
    (LIMIT + 1, 10, 65_536),
    (2**32 + 1, 2**32, 2**32 + 1),
    (1, 2**32, 2**32 + 1),
    (1, 0, 2**32 + 1),
    (-(2**63), 0, 1),
    (1, -(2**63), 1),
    (1, 0, -(2**63)),
    (2**63 - 1, 2**63 - 1, 2**63 - 1),
    (1, 2**63 - 1, 2**63 - 1),
    (1, 0, 2**63 - 1),
    (LIMIT, 10, 65_536),
    (1, 0, 1),
)


def begin_again(rng: Random, script: Script) -> None:
    """Another draft over the outlet, whatever that holds."""
    if rng.random() < 0.5:
        script.keep(KeepBehind(rng.choice((0, 0, script.outlet.count(), 1))))
    script.begin_as_started()
    for _ in range(rng.randint(1, 6)):
        script.make(drawn_call(rng, script.play))


def terms_scripts() -> Iterator[Script]:
    for word, kind, reduction in product(("table", "card"), KINDS, REDUCTIONS):
        for terms in TERMS_AT_LIMITS:
            script = Script(Start(word, 50, kind, reduction, 9, 1, 3))
            script.begin(*terms)
            script.begin_as_started()
            script.make(Seal())
            yield script


def deepest_scripts() -> Iterator[Script]:
    """Nine points at depth 10, with as many work points as any curve wants, fewer and more."""
    for kind, reduction in product(KINDS, REDUCTIONS):
        row = by_turns(kind, 9)
        enough = least_tolerance(kind, reduction, 10, row)
        for tolerance in (enough - 1, enough, LIMIT):
            start = Start("table", 2, kind, reduction, tolerance, 10, 4)
            yield script_of(start, [Lay(Span(row, 4), work) for work in (98, 99, 101)])


def small_starts(rng: Random) -> Iterator[Start]:
    """Tables and cards of every small size."""
    for kind, reduction in product(KINDS, REDUCTIONS):
        for size in range(LARGEST_SMALL_TABLE + 1):
            yield replace(drawn_start(rng, "table", kind, reduction), size=size)
        for size in range(HEADER_LENGTH + 3 * kind.record_length + 5):
            yield replace(drawn_start(rng, "card", kind, reduction), size=size)


def all_turn_scripts(seed: int, turn_lists: Sequence[TurnList]) -> list[Script]:
    """The lists as scripts and the scripts beside them, the same for the same seed, and in
    an order in which each sort of outlet takes the place of each."""
    rng = Random(seed)
    small = [drawn_list(rng, start, rng.random() < 0.5) for start in small_starts(rng)]
    scripts = [script_of(turn_list.start, turn_list.calls) for turn_list in (*turn_lists, *small)]
    for script in scripts:
        if rng.random() < BEGUN_AGAIN:
            begin_again(rng, script)
    scripts += terms_scripts()
    scripts += deepest_scripts()
    rng.shuffle(scripts)
    return scripts
