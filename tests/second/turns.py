"""The second turns.

Written from turns.md alone and meant to be held beside it, over the second
outlets. Each call looks for its refusals in the order of its table.
"""

from __future__ import annotations

from collections.abc import Sequence
from dataclasses import dataclass, replace

from card import Kind, Leg, Point, Refusal, covers, is_leg, leg_value
from curves import (
    Piece,
    Reduction,
    Row,
    Terms,
    divided,
    points_refusal,
    terms_refusal,
    work_needed,
)
from outlets import Outlet

# --- turns.md: the words


@dataclass(frozen=True)
class Draft:
    terms: Terms
    end: int
    count: int = 0
    laid_ticks: int = 0
    end_value: Point | None = None


@dataclass(frozen=True)
class Sealed:
    """A sealed turn."""

    terms: Terms
    end: int
    count: int
    laid_ticks: int
    end_value: Point | None


# --- turns.md: begin


def begin(
    kind: Kind, reduction: Reduction, tolerance: int, depth: int, end: int
) -> Draft | Refusal:
    refused = terms_refusal(tolerance, depth)
    if refused is not None:
        return refused
    if not 1 <= end <= 65_536:
        return Refusal(3)
    return Draft(Terms(kind, reduction, tolerance, depth), end)


# --- turns.md: lay


@dataclass(frozen=True)
class Span:
    """A drawn curve, and the ticks that it lasts."""

    points: Row
    ticks: int


def is_other(outlet: Outlet, turn: Draft | Sealed) -> bool:
    """Whether the outlet's count is not that of the draft or sealed turn."""
    return outlet.count() != turn.count


def lay_refusal(draft: Draft, outlet: Outlet, span: Span, work: Sequence[Point]) -> Refusal | None:
    """The refusals that come before the curve is halved."""
    if is_other(outlet, draft):
        return Refusal(4)
    refused = points_refusal(draft.terms.reduction, span.points)
    if refused is not None:
        return refused
    if not 1 <= span.ticks <= 4_096:
        return Refusal(7)
    if draft.laid_ticks + span.ticks > draft.end:
        return Refusal(8)
    if draft.count > 0 and span.points[0] != draft.end_value:
        return Refusal(9)
    if len(work) < work_needed(draft.terms.depth, len(span.points)):
        return Refusal(10)
    return None


def leg_of_piece(draft: Draft, ticks: int, piece: Piece) -> Leg:
    depth, index = piece.cell
    degree = draft.terms.reduction.degree
    points = (piece.start, piece.middle, piece.end)
    return Leg(draft.laid_ticks, ticks, depth, index, degree, *points)


def lay(draft: Draft, outlet: Outlet, span: Span, work: list[Point]) -> Draft | Refusal:
    """`work` is the work points lent, which are written over."""
    refused = lay_refusal(draft, outlet, span, work)
    if refused is not None:
        return refused
    needed = work_needed(draft.terms.depth, len(span.points))
    work[:needed] = [(0,) * draft.terms.kind.coordinates] * needed
    found = divided(draft.terms, span.points)
    if found is None:
        return Refusal(11)
    if len(found.pieces) > outlet.free():
        return Refusal(12)
    for piece in found.pieces:
        put = outlet.put(leg_of_piece(draft, span.ticks, piece))
        assert put is None, f"what lay puts was refused: {put}"
    return replace(
        draft,
        count=draft.count + len(found.pieces),
        laid_ticks=draft.laid_ticks + span.ticks,
        end_value=span.points[-1],
    )


# --- turns.md: strike


def strike(draft: Draft, outlet: Outlet) -> Draft | Refusal:
    if is_other(outlet, draft):
        return Refusal(4)
    if draft.count == 0:
        return Refusal(13)
    legs = outlet.legs()
    last = legs[-1]
    if last.from_ + last.ticks != draft.laid_ticks or last.index + 1 != 2**last.depth:
        return Refusal(14)
    while legs and legs[-1].from_ == last.from_:
        legs.pop()
    outlet.keep(len(legs))
    end_value = legs[-1].end if legs else None
    return replace(draft, count=len(legs), laid_ticks=last.from_, end_value=end_value)


# --- turns.md: seal


def seal(draft: Draft, outlet: Outlet) -> Sealed | Refusal:
    if is_other(outlet, draft):
        return Refusal(4)
    if draft.laid_ticks < draft.end:
        return Refusal(15)
    return Sealed(draft.terms, draft.end, draft.count, draft.laid_ticks, draft.end_value)


# --- turns.md: tell


def tell(sealed: Sealed, outlet: Outlet, tick: int) -> Point | Refusal:
    if is_other(outlet, sealed):
        return Refusal(4)
    if tick > sealed.end:
        return Refusal(16)
    for leg in outlet.legs():
        if is_leg(outlet.kind, leg) and covers(leg, tick):
            return leg_value(leg, tick)
    return Refusal(17)


# --- turns.md: list


def listed(sealed: Sealed, outlet: Outlet, i: int) -> Leg | None | Refusal:
    if is_other(outlet, sealed):
        return Refusal(4)
    return outlet.get(i)
