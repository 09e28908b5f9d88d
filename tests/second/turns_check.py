"""Holds the second turns to docs/turns.md, and to what is promised of every list of
calls."""

from __future__ import annotations

from collections.abc import Iterator, Sequence
from dataclasses import dataclass
from fractions import Fraction
from math import floor
from random import Random

from card import BOX, FLOW, Kind, Leg, Point, Refusal, covers, is_chain, is_leg, last_tick
from curves import (
    CHORD,
    LIMIT,
    MATCHING,
    Fitted,
    Piece,
    Reduction,
    Row,
    Terms,
    fewest_cells,
    halves,
    value_at_moment,
)
from curves_check import flow_row, legs_fault
from outlets import Outlet
from trials import state_of
from turn_samples import (
    LENT_COORDINATE,
    Answer,
    Call,
    Lay,
    List,
    OwnCall,
    Play,
    Seal,
    Start,
    Strike,
    Tell,
    TurnList,
)
from turns import Draft, Sealed, Span, begin

# --- The ten worked turns

END = 4
WORK_ENOUGH = 99
ROOMS = (("table", 4), ("card", 8 + 4 * 60))


class Worked:
    """One span of 4 ticks, laid on an outlet with room enough, and sealed if it is
    accepted."""

    def __init__(
        self,
        terms: Terms,
        row: Row,
        room: tuple[str, int] = ROOMS[0],
        work_points: int = WORK_ENOUGH,
    ) -> None:
        word, size = room
        start = Start(word, size, terms.kind, terms.reduction, terms.tolerance, terms.depth, END)
        self.play = Play(start)
        self.laid = self.play.make(Lay(Span(row, END), work_points))
        if isinstance(self.laid, Draft):
            self.play.make(Seal())

    def legs(self) -> list[tuple[int, int, Point, Point, Point]]:
        return [
            (leg.depth, leg.index, leg.start, leg.middle, leg.end)
            for leg in self.play.outlet.legs()
        ]

    def told(self, *ticks: int) -> list[Answer]:
        return [self.play.make(Tell(tick)) for tick in ticks]


def flow_terms(reduction: Reduction, tolerance: int, depth: int) -> Terms:
    return Terms(FLOW, reduction, tolerance, depth)


# The reduction, tolerance and depth, the points, the legs, and the values at the ticks.
WORKED_FLOWS = {
    1: (
        flow_terms(MATCHING, 10, 1),
        flow_row(0, 0, 0, 64),
        [(1, 0, (0,), (-2,), (8,)), (1, 1, (8,), (18,), (64,))],
        flow_row(0, 1, 8, 27, 64),
    ),
    2: (
        flow_terms(MATCHING, 11, 1),
        flow_row(0, 0, 0, 64),
        [(0, 0, (0,), (-16,), (64,))],
        flow_row(0, -2, 8, 30, 64),
    ),
    3: (
        flow_terms(CHORD, 17, 1),
        flow_row(0, 64, 0),
        [(1, 0, (0,), (0,), (32,)), (1, 1, (32,), (32,), (0,))],
        flow_row(0, 16, 32, 16, 0),
    ),
    5: (
        flow_terms(CHORD, 16, 2),
        flow_row(0, 64, 0),
        [
            (2, 0, (0,), (0,), (24,)),
            (2, 1, (24,), (24,), (32,)),
            (2, 2, (32,), (32,), (24,)),
            (2, 3, (24,), (24,), (0,)),
        ],
        flow_row(0, 24, 32, 24, 0),
    ),
    6: (
        flow_terms(MATCHING, 1, 0),
        flow_row(0, 64, 0),
        [(0, 0, (0,), (64,), (0,))],
        flow_row(0, 24, 32, 24, 0),
    ),
    7: (
        flow_terms(MATCHING, 1, 0),
        flow_row(0, 0, 0, 1),
        [(0, 0, (0,), (-1,), (1,))],
        flow_row(0, -1, -1, 0, 1),
    ),
}


def worked_flow_claims(room: tuple[str, int]) -> Iterator[tuple[str, bool]]:
    for number, (terms, row, legs, values) in WORKED_FLOWS.items():
        worked = Worked(terms, row, room)
        yield f"turns.md: legs of worked turn {number}", worked.legs() == legs
        yield f"turns.md: values of worked turn {number}", worked.told(0, 1, 2, 3, 4) == [*values]
    terms, row, *_ = WORKED_FLOWS[1]
    past = Worked(terms, row, room).told(5, -1)
    yield "turns.md: ticks outside worked turn 1", past == [Refusal(16), Refusal(17)]
    few, enough = (Worked(terms, row, room, number).laid for number in (7, 8))
    yield "turns.md: work points", few == Refusal(10) and isinstance(enough, Draft)


def bent_claims(room: tuple[str, int]) -> Iterator[tuple[str, bool]]:
    bent = Worked(flow_terms(CHORD, 16, 1), flow_row(0, 64, 0), room)
    answers = bent.laid, bent.play.make(Strike()), bent.play.make(Seal())
    yield "turns.md: worked turn 4", answers == (Refusal(11), Refusal(13), Refusal(15))
    yield "turns.md: nothing laid by worked turn 4", bent.legs() == []


def box_claims(room: tuple[str, int]) -> Iterator[tuple[str, bool]]:
    row = ((0, 0), (64, 64), (0, 0))
    enough, too_small = (Worked(Terms(BOX, CHORD, t, 0), row, room) for t in (128, 127))
    zero = (0, 0)
    yield "turns.md: legs of worked turn 8", enough.legs() == [(0, 0, zero, zero, zero)]
    yield "turns.md: values of worked turn 8", enough.told(*range(5)) == [zero] * 5
    yield "turns.md: worked turn 8 refused", too_small.laid == Refusal(11)


def limit_claims(room: tuple[str, int]) -> Iterator[tuple[str, bool]]:
    largest, beyond = (
        Worked(flow_terms(CHORD, 1, 0), flow_row(0, last), room) for last in (LIMIT, LIMIT + 1)
    )
    yield "turns.md: worked turn 10", largest.legs() == [(0, 0, (0,), (0,), (LIMIT,))]
    yield "turns.md: worked turn 10 refused", beyond.laid == Refusal(6, 1)


def begin_claims() -> Iterator[tuple[str, bool]]:
    wrong, right = (0, LIMIT + 1), (1, LIMIT)
    for tolerance in (*wrong, *right):
        for depth in (-1, 0, 10, 11):
            for end in (0, 1, 65_536, 65_537):
                answer = begin(BOX, CHORD, tolerance, depth, end)
                reasons = [tolerance in wrong, depth in (-1, 11), end in (0, 65_537)]
                meant = reasons.index(True) + 1 if True in reasons else None
                came = answer.number if isinstance(answer, Refusal) else None
                yield f"turns.md: begin {tolerance} {depth} {end}", came == meant


def turn_claims() -> Iterator[tuple[str, bool]]:
    """What turns.md says, each with whether it is so here."""
    for room in ROOMS:
        yield from worked_flow_claims(room)
        yield from bent_claims(room)
        yield from box_claims(room)
        yield from limit_claims(room)
    left, _ = halves(flow_row(-1, 0))
    yield "turns.md: worked turn 9", left == flow_row(-1, -1)
    yield from begin_claims()


# --- Each refusal, by all the reasons of a call

Reasons = Iterator[tuple[int, bool]]


def reasons_of_lay(draft: Draft, outlet: Outlet, call: Lay) -> Reasons:
    terms, points, ticks = draft.terms, call.span.points, call.span.ticks
    coordinates = [coordinate for point in points for coordinate in point]
    yield 4, outlet.count() != draft.count
    yield 5, len(points) not in range(terms.reduction.degree + 1, 10)
    yield 6, any(abs(coordinate) > LIMIT for coordinate in coordinates)
    yield 7, ticks not in range(1, 4_097)
    yield 8, draft.laid_ticks + ticks > draft.end
    yield 9, draft.count > 0 and points[0] != draft.end_value
    yield 10, call.work_points < (terms.depth + 1) * len(points)
    fewest = fewest_cells(terms, points)
    yield 11, fewest is None
    yield 12, fewest is not None and fewest > outlet.capacity - outlet.count()


def reasons_of_strike(draft: Draft, outlet: Outlet) -> Reasons:
    yield 4, outlet.count() != draft.count
    yield 13, draft.count == 0
    last = outlet.held(draft.count - 1)
    ends = last.from_ + last.ticks
    yield 14, (ends, last.index) != (draft.laid_ticks, 2**last.depth - 1)


def reasons_of_seal(draft: Draft, outlet: Outlet) -> Reasons:
    yield 4, outlet.count() != draft.count
    yield 15, draft.laid_ticks < draft.end


def reasons_of_tell(sealed: Sealed, outlet: Outlet, tick: int) -> Reasons:
    yield 4, outlet.count() != sealed.count
    yield 16, tick > sealed.end
    yield 17, first_covering(outlet, tick) is None


def first_covering(outlet: Outlet, tick: int) -> Leg | None:
    legs = [leg for leg in outlet.legs() if is_leg(outlet.kind, leg)]
    return next((leg for leg in legs if covers(leg, tick)), None)


def value_of(leg: Leg, tick: int) -> Point:
    """The leg's value at a tick that it covers, as a Bézier curve's, rounded down."""
    local = 2**leg.depth * Fraction(tick - leg.from_, leg.ticks) - leg.index
    points = [leg.start, leg.end] if leg.degree == 1 else [leg.start, leg.middle, leg.end]
    return tuple(map(floor, value_at_moment(points, local)))


def answer_fault(play: Play, call: OwnCall, answer: Answer) -> str | None:
    """What is wrong with the answer to a tell or a list that is accepted."""
    if isinstance(call, Tell):
        leg = first_covering(play.outlet, call.tick)
        return None if leg and answer == value_of(leg, call.tick) else f"tells {answer}"
    if isinstance(call, List):
        legs = play.outlet.legs()
        right = legs[call.index] if call.index < len(legs) else None
        return None if answer == right else f"lists {answer}"
    return None


def reasons(play: Play, call: OwnCall) -> Reasons:
    turn, outlet = play.turn, play.outlet
    if isinstance(turn, Sealed):
        if isinstance(call, Tell):
            return reasons_of_tell(turn, outlet, call.tick)
        return iter([(4, outlet.count() != turn.count)])
    if isinstance(call, Lay):
        return reasons_of_lay(turn, outlet, call)
    return reasons_of_strike(turn, outlet) if call == Strike() else reasons_of_seal(turn, outlet)


# --- What is left by a call


def work_fault(play: Play, call: Lay, refused: int | None) -> str | None:
    """What is wrong with the work points that a lay leaves."""
    kind: Kind = play.outlet.kind
    used = 0
    if refused in (None, 11, 12):
        used = (play.turn.terms.depth + 1) * len(call.span.points)
    zero, lent = (0,) * kind.coordinates, (LENT_COORDINATE,) * kind.coordinates
    right = [zero] * used + [lent] * (call.work_points - used)
    return None if play.work == right else f"leaves the work points {play.work}"


@dataclass(frozen=True)
class State:
    """A turn, and the legs in its outlet."""

    turn: Draft | Sealed
    legs: list[Leg]


def state_of_play(play: Play) -> State:
    return State(play.turn, play.outlet.legs())


def is_laid(before: State, after: State, call: Lay) -> bool:
    """Whether this is what a lay that is accepted leaves."""
    turn, kept = before.turn, len(before.legs)
    new = after.legs[kept:]
    count, laid_ticks = turn.count + len(new), turn.laid_ticks + call.span.ticks
    draft = Draft(turn.terms, turn.end, count, laid_ticks, call.span.points[-1])
    places = {(leg.from_, leg.ticks) for leg in new}
    return (
        after.turn == draft
        and after.legs[:kept] == before.legs
        and places == {(turn.laid_ticks, call.span.ticks)}
    )


def is_struck(before: State, after: State) -> bool:
    """Whether this is what a strike that is accepted leaves."""
    turn, kept = before.turn, after.legs
    froms = {leg.from_ for leg in before.legs[len(kept) :]}
    if len(froms) != 1:
        return False
    (from_,) = froms
    draft = Draft(turn.terms, turn.end, len(kept), from_, kept[-1].end if kept else None)
    return (
        after.turn == draft
        and before.legs[: len(kept)] == kept
        and (not kept or kept[-1].from_ != from_)
    )


def is_left(before: State, after: State, call: OwnCall) -> bool:
    """Whether this is what a call that is accepted leaves."""
    if isinstance(call, Lay):
        return is_laid(before, after, call)
    if isinstance(call, Strike):
        return is_struck(before, after)
    turn = before.turn
    if isinstance(call, Seal):
        turn = Sealed(turn.terms, turn.end, turn.count, turn.laid_ticks, turn.end_value)
    return after == State(turn, before.legs)


# --- The promise


def fitted_of(legs: Sequence[Leg]) -> Fitted:
    """The legs of a span as what was fitted to its curve."""
    pieces = [Piece((leg.depth, leg.index), leg.start, leg.middle, leg.end) for leg in legs]
    return Fitted(tuple(pieces), 2 * len(pieces) - 1)


def starts(standing: Sequence[Span]) -> list[int]:
    """The ticks at which the standing spans start, and the one at which the last ends."""
    ticks = [0]
    for span in standing:
        ticks.append(ticks[-1] + span.ticks)
    return ticks


def span_fault(rng: Random, terms: Terms, span: Span, legs: Sequence[Leg]) -> str | None:
    if any(leg.ticks != span.ticks or leg.degree != terms.reduction.degree for leg in legs):
        return "legs unlike their span"
    if len(legs) != fewest_cells(terms, span.points):
        return "legs that are not the fewest"
    return legs_fault(rng, terms, span.points, fitted_of(legs))


def spans_fault(rng: Random, play: Play, standing: Sequence[Span], which: range) -> str | None:
    """What is wrong with the legs of some of the standing spans."""
    froms = starts(standing)
    for i in which:
        legs = [leg for leg in play.outlet.legs() if leg.from_ == froms[i]]
        fault = span_fault(rng, play.turn.terms, standing[i], legs)
        if fault:
            return f"span {i} {fault}"
    return None


def whole_fault(play: Play, standing: Sequence[Span]) -> str | None:
    """What is not as promised, but for what is promised of the spans' own legs."""
    legs, end, turn = play.outlet.legs(), starts(standing)[-1], play.turn
    if not is_chain(legs) or last_tick(legs) != end:
        return "the legs do not cover the standing spans"
    if {leg.from_ for leg in legs} != set(starts(standing)[:-1]):
        return "the legs are not those of the standing spans"
    end_value = legs[-1].end if legs else None
    if (turn.count, turn.laid_ticks, turn.end_value) != (len(legs), end, end_value):
        return "the turn does not say what its legs are"
    if isinstance(turn, Sealed) and end != turn.end:
        return "it was sealed before its end"
    return None


def value_fault(play: Play, standing: Sequence[Span], tick: int, told: Point) -> str | None:
    """What is wrong with a value that is told of a whole turn."""
    froms = starts(standing)
    i = next(i for i, end in enumerate(froms[1:]) if tick <= end)
    drawn = value_at_moment(standing[i].points, Fraction(tick - froms[i], standing[i].ticks))
    t = play.turn.terms.tolerance
    if all(-t <= exact - value < t + 1 for exact, value in zip(drawn, told)):
        return None
    return f"tells {told}, where {drawn} is drawn"


# --- Lists of calls


class Checked:
    """A list of calls that is made again, with everything looked at after each call."""

    def __init__(self, turn_list: TurnList) -> None:
        self.rng = Random(len(turn_list.calls))
        self.play = Play(turn_list.start)
        self.standing: list[Span] = []
        self.undisturbed = True

    def call_fault(self, call: Call) -> str | None:
        if not isinstance(call, OwnCall):
            self.play.make(call)
            self.undisturbed = False
            return None
        return self.own_call_fault(call)

    def own_call_fault(self, call: OwnCall) -> str | None:
        play = self.play
        meant = next((number for number, holds in reasons(play, call) if holds), None)
        before, outlet_before = state_of_play(play), state_of(play.outlet)
        answer = play.make(call)
        after, outlet_after = state_of_play(play), state_of(play.outlet)
        came = answer.number if isinstance(answer, Refusal) else None
        if came != meant:
            return f"gives {answer}, meant to give {meant}"
        if isinstance(call, Lay) and (fault := work_fault(play, call, came)):
            return fault
        changes_outlet = isinstance(call, Lay | Strike) and came is None
        if outlet_after != outlet_before and not changes_outlet:
            return "changes the outlet"
        if came is not None:
            return None if after == before else f"is refused, and leaves {after}"
        if not is_left(before, after, call):
            return f"leaves {after}"
        fault = answer_fault(play, call, answer)
        if fault is None and self.undisturbed:
            fault = self.promise_fault(call, answer)
        return fault

    def promise_fault(self, call: OwnCall, answer: Answer) -> str | None:
        """What is not as promised after a call that was accepted."""
        if isinstance(call, Lay):
            self.standing.append(call.span)
        if isinstance(call, Strike):
            self.standing.pop()
        fault = whole_fault(self.play, self.standing)
        if fault is None and isinstance(call, Lay):
            last = len(self.standing) - 1
            fault = spans_fault(self.rng, self.play, self.standing, range(last, last + 1))
        if fault is None and isinstance(call, Tell):
            assert isinstance(answer, tuple), answer
            fault = value_fault(self.play, self.standing, call.tick, answer)
        return fault

    def end_fault(self) -> str | None:
        if not self.undisturbed:
            return None
        return spans_fault(self.rng, self.play, self.standing, range(len(self.standing)))


def turn_list_fault(turn_list: TurnList) -> str | None:
    checked = Checked(turn_list)
    for i, call in enumerate(turn_list.calls):
        fault = checked.call_fault(call)
        if fault is not None:
            return f"{turn_list.start}: call {i} of {turn_list.calls[: i + 1]} {fault}"
    fault = checked.end_fault()
    return None if fault is None else f"{turn_list}: {fault}"
