"""Lists of calls on a turn and its outlet, the same for the same seed.

Each call is made at once as it is drawn, so that the next can be chosen by what the
turn has come to. In some of the lists somebody else changes the outlet between two
calls, behind the draft's back.
"""

from __future__ import annotations

from collections.abc import Iterator
from dataclasses import dataclass, replace
from itertools import product
from random import Random

from card import HEADER_LENGTH, KINDS, Kind, Leg, Point, Refusal
from curves import CHORD, LIMIT, REDUCTIONS, Reduction, Row, least_tolerance, work_needed
from curves_samples import FAR, SORTS, degrees_of, drawn_row
from drafts import moved
from outlets import CardOutlet, Outlet
from trials import drawn_leg, started
from turns import Draft, Sealed, Span, begin, lay, listed, seal, strike, tell

# --- The calls


@dataclass(frozen=True)
class Lay:
    span: Span
    work_points: int


@dataclass(frozen=True)
class Strike:
    pass


@dataclass(frozen=True)
class Seal:
    pass


@dataclass(frozen=True)
class Tell:
    tick: int


@dataclass(frozen=True)
class List:
    index: int


@dataclass(frozen=True)
class PutBehind:
    """Somebody else puts a leg."""

    leg: Leg


@dataclass(frozen=True)
class KeepBehind:
    """Somebody else keeps some legs."""

    kept: int


@dataclass(frozen=True)
class WriteBehind:
    """Somebody else writes over octets of a card."""

    at: int
    octets: bytes


@dataclass(frozen=True)
class ChangeBehind:
    """Somebody else puts another leg in the place of the last one."""

    leg: Leg


OwnCall = Lay | Strike | Seal | Tell | List
ChangeByOther = PutBehind | KeepBehind | WriteBehind | ChangeBehind
Call = OwnCall | ChangeByOther
Answer = Draft | Sealed | Refusal | Point | Leg | None

# --- Making them

# What the work points hold that are lent: lay has to set them.
LENT_COORDINATE = -77


@dataclass(frozen=True)
class Start:
    """An outlet, as `trials.started` starts it, and the terms of a turn."""

    word: str
    size: int
    kind: Kind
    reduction: Reduction
    tolerance: int
    depth: int
    end: int

    def outlet(self) -> Outlet:
        return started(self.word, self.kind, self.size)

    def draft(self) -> Draft:
        draft = begin(self.kind, self.reduction, self.tolerance, self.depth, self.end)
        assert isinstance(draft, Draft), draft
        return draft


def change(outlet: Outlet, call: ChangeByOther) -> None:
    if isinstance(call, PutBehind):
        outlet.put(call.leg)
    elif isinstance(call, KeepBehind):
        outlet.keep(call.kept)
    elif isinstance(call, ChangeBehind):
        outlet.keep(outlet.count() - 1)
        outlet.put(call.leg)
    else:
        assert isinstance(outlet, CardOutlet), call
        outlet.octets[call.at : call.at + len(call.octets)] = call.octets


class Play:
    """A turn that is being made, with its outlet and the work points last lent."""

    def __init__(self, start: Start) -> None:
        self.outlet = start.outlet()
        self.turn: Draft | Sealed = start.draft()
        self.work: list[Point] = []

    def make(self, call: Call) -> Answer:
        if not isinstance(call, OwnCall):
            change(self.outlet, call)
            return None
        answer = self.answer(call)
        if isinstance(answer, Draft | Sealed):
            self.turn = answer
        return answer

    def answer(self, call: OwnCall) -> Answer:
        if isinstance(self.turn, Sealed):
            assert isinstance(call, Tell | List), "other calls do not build"
            if isinstance(call, Tell):
                return tell(self.turn, self.outlet, call.tick)
            return listed(self.turn, self.outlet, call.index)
        if isinstance(call, Lay):
            lent = (LENT_COORDINATE,) * self.outlet.kind.coordinates
            self.work = [lent] * call.work_points
            return lay(self.turn, self.outlet, call.span, self.work)
        assert isinstance(call, Strike | Seal), "other calls do not build"
        if isinstance(call, Strike):
            return strike(self.turn, self.outlet)
        return seal(self.turn, self.outlet)


# --- Spans to lay


def drawn_ticks(rng: Random, draft: Draft) -> int:
    left = draft.end - draft.laid_ticks
    if rng.random() < 0.08:
        return rng.choice((0, -1, 4_096, 4_097, left + 1, 2**63 - 1, -(2**63)))
    return max(1, min(4_096, rng.choice((left, left // 2, rng.randint(0, left)))))


QUIET_SORTS = ("tiny", "small", "walk", "long walk", "nearly straight", "ramp")


def drawn_points(rng: Random, draft: Draft) -> Row:
    """Points that most often begin where the last leg ends."""
    kind, reduction = draft.terms.kind, draft.terms.reduction
    degree = rng.choice(degrees_of(reduction))
    sort = rng.choice(QUIET_SORTS if rng.random() < 0.85 else list(SORTS))
    row = drawn_row(rng, kind, degree + 1, SORTS[sort])
    if draft.end_value is not None and rng.random() < 0.93:
        row = (draft.end_value, *row[1:])
    return row


def spoiled(rng: Random, kind: Kind, row: Row) -> Row:
    """The row with something that most often makes it no curve to lay."""
    way = rng.randrange(4)
    if way == 0:
        return row[: rng.randint(0, 2)]
    if way == 1:
        return row + row[-1:] * (10 - len(row))
    j = rng.randrange(len(row)) if way == 2 else 0
    which = rng.randrange(kind.coordinates)
    to = rng.choice(FAR) if way == 2 else row[j][which] + rng.choice((-1, 1))
    return (*row[:j], moved(row[j], which, to), *row[j + 1 :])


def drawn_lay(rng: Random, draft: Draft) -> Lay:
    row = drawn_points(rng, draft)
    if rng.random() < 0.1:
        row = spoiled(rng, draft.terms.kind, row)
    needed = work_needed(draft.terms.depth, len(row))
    work = needed + rng.choice((0, 0, 0, 0, 1, 5)) if rng.random() < 0.96 else max(0, needed - 1)
    return Lay(Span(row, drawn_ticks(rng, draft)), work)


# --- Changes by somebody else


def drawn_change(rng: Random, outlet: Outlet) -> ChangeByOther:
    count = outlet.count()
    ways = ["put", "keep"]
    if isinstance(outlet, CardOutlet) and len(outlet.octets) >= HEADER_LENGTH:
        ways += ["write"] * 4
    if count:
        ways += ["change"] * 4
    way = rng.choice(ways)
    if way == "put":
        return PutBehind(drawn_leg(rng, outlet.kind))
    if way == "keep":
        return KeepBehind(rng.randint(0, count))
    if way == "change":
        return ChangeBehind(changed_leg(rng, outlet.held(count - 1)))
    assert isinstance(outlet, CardOutlet)
    return drawn_writing(rng, outlet)


def changed_leg(rng: Random, leg: Leg) -> Leg:
    """Another leg, or nearly the same one. Some of them still end where the leg ends."""
    start, end = moved(leg.start, 0, leg.start[0] - 9), leg.from_ + leg.ticks
    return rng.choice(
        (
            replace(leg, ticks=leg.ticks % 4_096 + 1),
            replace(leg, depth=min(10, leg.depth + 1)),
            replace(leg, from_=max(0, leg.from_ - 1)),
            replace(leg, from_=end - 1, ticks=1),
            replace(leg, from_=max(0, end - 4_096), ticks=min(4_096, end)),
            replace(leg, end=moved(leg.end, 0, 5)),
            replace(leg, start=start, middle=start if leg.degree == 1 else leg.middle),
        )
    )


def drawn_writing(rng: Random, card: CardOutlet) -> WriteBehind:
    """Octets written over: most often some of the last record, or of the count."""
    size = len(card.octets)
    record = card.place(max(0, card.count() - 1))
    at = min(size - 1, record.start + rng.choice((0, 3, 4, 5, 6, 7, 8, 9, 10, rng.randrange(60))))
    at = rng.choice((at, at, at, rng.randrange(4), 7))
    return WriteBehind(at, bytes([rng.choice((0, 1, 2, 3, 10, 11, 255, rng.randrange(256)))]))


# --- The lists


@dataclass(frozen=True)
class TurnList:
    start: Start
    calls: tuple[Call, ...]

    def is_undisturbed(self) -> bool:
        """Whether nobody else changes the outlet."""
        return all(isinstance(call, OwnCall) for call in self.calls)


def drawn_tick(rng: Random, end: int) -> int:
    return rng.choice((0, 1, end - 1, end, end + 1, -1, 2**63 - 1, -(2**63), rng.randint(0, end)))


def drawn_call(rng: Random, play: Play) -> OwnCall:
    turn = play.turn
    if isinstance(turn, Sealed):
        if rng.random() < 0.75:
            return Tell(drawn_tick(rng, turn.end))
        return List(rng.choice((0, rng.randint(0, turn.count + 1), turn.count, 2**63)))
    shares = (80, 12, 8) if turn.laid_ticks < turn.end else (20, 35, 45)
    (way,) = rng.choices(("lay", "strike", "seal"), shares)
    if way == "lay":
        return drawn_lay(rng, turn)
    return Strike() if way == "strike" else Seal()


def drawn_start(rng: Random, word: str, kind: Kind, reduction: Reduction) -> Start:
    room = rng.choice((0, 1, 2, 3, 4, 5, 8, 12, 20, 40))
    octets = HEADER_LENGTH + room * kind.record_length + rng.choice((-1, 0, 0, 0, 1, 9))
    depth = rng.choice((0, 1, 2, 3, 4))
    row = drawn_row(rng, kind, rng.choice(degrees_of(reduction)) + 1, SORTS["of litres"])
    enough = least_tolerance(kind, reduction, depth, row)
    tolerance = rng.choice((5, 30, 500, 10_000, 2_000_000, LIMIT, max(1, min(LIMIT, enough))))
    end = rng.choice((1, 2, 4, 7, 20, 60, 5_000, 65_536))
    size = room if word == "table" else octets
    return Start(word, size, kind, reduction, tolerance, depth, end)


def drawn_list(rng: Random, start: Start, disturbed: bool) -> TurnList:
    play = Play(start)
    calls: list[Call] = []
    for _ in range(rng.randint(4, 16)):
        call: Call = drawn_call(rng, play)
        if disturbed and play.turn.count and rng.random() < 0.2:
            call = drawn_change(rng, play.outlet)
        play.make(call)
        calls.append(call)
    return TurnList(start, tuple(calls))


LISTS_OF_A_SORT = 40


def drawn_lists(rng: Random) -> Iterator[TurnList]:
    sorts = product(("table", "card"), KINDS, REDUCTIONS, (False, True))
    for word, kind, reduction, disturbed in sorts:
        for _ in range(LISTS_OF_A_SORT):
            yield drawn_list(rng, drawn_start(rng, word, kind, reduction), disturbed)


# --- Lists in which a changed outlet shows which legs a call looks at


def level(kind: Kind, ticks: int) -> Lay:
    """One leg: the same point all the time."""
    return Lay(Span(((7,) * kind.coordinates,) * 2, ticks), 2)


def level_leg(kind: Kind, from_: int, ticks: int) -> Leg:
    point = (7,) * kind.coordinates
    return Leg(from_, ticks, 0, 0, 1, point, point, point)


def odd_calls(kind: Kind) -> Iterator[tuple[Call, ...]]:
    two, one = level(kind, 2), level(kind, 1)
    # Nothing is left, and yet the laid ticks are not 0.
    late = ChangeBehind(level_leg(kind, 3, 1))
    yield (level(kind, 4), late, Strike(), Strike(), one, Seal(), Tell(2), Tell(3))
    # The last leg has the tick of the first span, with another span between them.
    early = ChangeBehind(level_leg(kind, 0, 4))
    yield (two, one, one, early, Strike(), Strike(), Strike(), Seal())
    yield (two, two, early, Strike(), Strike())
    # Two legs that meet tell different values.
    leg = level_leg(kind, 2, 2)
    other = moved(leg.start, 0, 90)
    apart = ChangeBehind(replace(leg, start=other, middle=other))
    yield (two, two, apart, Seal(), Tell(1), Tell(2), Tell(3), List(0), List(1), List(2))
    # A leg that covers every tick stands after another.
    yield (two, two, early, Seal(), *map(Tell, range(-1, 6)))


def odd_card_calls(kind: Kind) -> Iterator[tuple[Call, ...]]:
    two = level(kind, 2)
    last = HEADER_LENGTH + kind.record_length
    for at, octet in ((0, 1), (3, 9), (5, 0), (5, 3), (6, 1), (6, 200), (7, 0), (7, 3), (9, 1)):
        written = WriteBehind(last + at, bytes([octet]))
        yield (two, two, written, Seal(), Tell(1), Tell(2), Tell(3), Tell(4), List(1))
        yield (two, two, written, Strike(), Strike(), two, Strike())
    for octets in (b"\0\0\0\2", b"\0\0\0\3", b"\0\0\0\4", b"\xff\xff\xff\xff"):
        other, same = WriteBehind(4, octets), WriteBehind(4, b"\0\0\0\2")
        yield (two, two, other, two, same, Seal(), other, Tell(3), same, Tell(3))


def odd_lists() -> Iterator[TurnList]:
    for kind in KINDS:
        size = HEADER_LENGTH + 3 * kind.record_length
        terms = (kind, CHORD, 5, 0, 4)
        table, card = Start("table", 3, *terms), Start("card", size, *terms)
        for calls in odd_calls(kind):
            yield TurnList(table, calls)
            yield TurnList(card, calls)
        for calls in odd_card_calls(kind):
            yield TurnList(card, calls)


def all_turn_lists(seed: int) -> list[TurnList]:
    return [*drawn_lists(Random(seed)), *odd_lists()]
