"""Test cards whose records are all legs', but whose chain is broken."""

from __future__ import annotations

from collections.abc import Iterator
from dataclasses import replace
from fractions import Fraction
from itertools import product

from card import GREATEST_COORDINATE, LEAST_COORDINATE, Kind, Point
from damaged import HALVES, base, base_at, two_spans
from drafts import Cell, Draft, Place, Sample, Span, draft, moved


def restarted(whole: Draft, record: int, point: Point) -> Draft:
    """The draft with one leg starting elsewhere, and still a leg."""
    leg = whole.legs[record]
    middle = point if leg.degree == 1 else leg.middle
    return whole.with_leg(record, start=point, middle=middle)


def first_leg_breaks(kind: Kind) -> Iterator[Sample]:
    whole = two_spans(kind)
    for from_ in (1, 4, 256, 65_532):
        yield whole.with_leg(0, from_=from_).refused(f"first leg from {from_}", 25, 0)
    later = tuple(replace(leg, from_=leg.from_ + 1) for leg in whole.legs)
    yield draft(kind, later).refused("all legs a tick later", 25, 0)
    yield draft(kind, whole.legs[1:]).refused("first leg is a right half", 25, 0)
    yield draft(kind, whole.legs[2:]).refused("first span lost", 25, 0)
    for cell in ((1, 1), (2, 1), (2, 3), (10, 1), (10, 1_023)):
        yield with_cell(whole, 0, cell).refused(f"first leg's cell is {cell}", 25, 0)


def with_cell(whole: Draft, record: int, cell: Cell) -> Draft:
    return whole.with_leg(record, depth=cell[0], index=cell[1])


# Cells that are not adjacent to the one of the record before, for the records
# inside a span of `two_spans`. The cells there: 1 0, 1 1; then 2 0, 2 1, 1 1.
WRONG_CELLS: dict[int, dict[str, tuple[Cell, ...]]] = {
    1: {
        "gap": ((2, 3), (10, 513), (10, 1_023)),
        "overlap": ((0, 0), (2, 1), (10, 511)),
        "same cell": ((1, 0),),
        "index goes on, depth does not": ((2, 1), (10, 1)),
    },
    3: {
        "gap": ((2, 2), (2, 3), (1, 1), (3, 3), (10, 257)),
        "overlap": ((1, 0), (0, 0), (3, 1), (10, 255)),
        "same cell": ((2, 0),),
        "index goes on, depth does not": ((1, 1), (3, 1), (10, 1)),
    },
    4: {
        "gap": ((2, 3), (3, 5)),
        "overlap": ((1, 0), (0, 0), (3, 3)),
        "same cell": ((2, 1),),
        "index goes on, depth does not": ((3, 2), (10, 2)),
    },
}


def span_breaks(kind: Kind) -> Iterator[Sample]:
    """Breaks inside a span."""
    whole = two_spans(kind)
    for record in (1, 3, 4):
        leg = whole.legs[record]
        for from_ in sorted({0, leg.from_ + 1, leg.from_ + leg.ticks, 65_532} - {leg.from_}):
            broken = whole.with_leg(record, from_=from_)
            yield broken.refused(f"inside a span, from {from_}", 25, record)
        for ticks in (1, leg.ticks - 1, leg.ticks + 1, 4_096):
            broken = whole.with_leg(record, ticks=ticks)
            yield broken.refused(f"inside a span, ticks {ticks}", 25, record)
        for name, cells in WRONG_CELLS[record].items():
            for cell in cells:
                broken = with_cell(whole, record, cell)
                yield broken.refused(f"{name}, cell {cell}", 25, record)
    # A cell that goes on from the one before, but not to the one after.
    yield with_cell(whole, 3, (3, 2)).refused("gap after a smaller cell", 25, 4)
    yield with_cell(whole, 2, (3, 0)).refused("gap after a smaller first cell", 25, 3)
    yield with_cell(whole, 2, (1, 0)).refused("overlap after a larger first cell", 25, 3)
    yield with_cell(whole, 2, (0, 0)).refused("span goes on after its end", 25, 3)


def span_end_breaks(kind: Kind) -> Iterator[Sample]:
    """Breaks where a new span begins, at record 2 of `two_spans`."""
    whole = two_spans(kind)
    for from_ in (0, 1, 3, 5, 8, 260, 65_533):
        broken = whole.with_leg(2, from_=from_)
        yield broken.refused(f"after a span's end, from {from_}", 25, 2)
    for cell in ((1, 1), (2, 1), (2, 3), (10, 1), (10, 1_023)):
        yield with_cell(whole, 2, cell).refused(f"after a span's end, cell {cell}", 25, 2)
    yield whole.with_leg(2, from_=0, ticks=4).refused("span begins anew", 25, 2)
    lost = draft(kind, (*whole.legs[:2], *whole.legs[3:]))
    yield lost.refused("first leg of the second span lost", 25, 2)
    twice = draft(kind, (*whole.legs, *whole.legs[2:]))
    yield twice.refused("second span twice", 25, 5)


def point_breaks(kind: Kind) -> Iterator[Sample]:
    """Legs that start elsewhere than the one before ended, in each coordinate."""
    whole = two_spans(kind)
    for record in (1, 2, 3, 4):
        start = whole.legs[record].start
        for which, old in enumerate(start):
            for new in (old + 1, old - 1, old ^ 2**32, LEAST_COORDINATE, GREATEST_COORDINATE):
                broken = restarted(whole, record, moved(start, which, new))
                yield broken.refused(f"coordinate {which} starts at {new}", 25, record)
                broken = whole.with_leg(record - 1, end=moved(start, which, new))
                yield broken.refused(f"coordinate {which} ended at {new}", 25, record)


def open_ends(kind: Kind) -> Iterator[Sample]:
    """The last span left open: the refusal names the count."""
    whole = two_spans(kind)
    for kept in (1, 3, 4):
        for room in (0, 1, kind.record_length):
            opened = draft(kind, whole.legs[:kept], room)
            yield opened.refused(f"last span open, {kept} legs, room of {room}", 25, kept)
    for cell in ((2, 2), (3, 4), (10, 512)):
        yield with_cell(whole, 4, cell).refused(f"last leg's cell is {cell}", 25, 5)
    for cell in ((1, 0), (2, 0), (10, 0)):
        single = with_cell(base(kind, [Span(4, ((0, 0),))]), 0, cell)
        yield single.refused(f"single leg, cell {cell}", 25, 1)
    halved = base(kind, [Span(4_096, HALVES)] * 16)
    yield draft(kind, halved.legs[:-1]).refused("last half of a long turn lost", 25, 31)


# Beginnings of a chain: none, spans left open, and spans ended.
BEGINNINGS = (
    (),
    (Place(0, 4, (1, 0)),),
    (Place(0, 3, (2, 0)),),
    (Place(0, 4, (2, 0)), Place(0, 4, (2, 1))),
    (Place(0, 4, (0, 0)),),
    (Place(0, 3, (1, 0)), Place(0, 3, (1, 1))),
)


def fits(before: Place | None, place: Place) -> bool:
    """The rules for ticks and cells, by the moments at which cells begin and end."""
    depth, index = place.cell
    begins = Fraction(index, 2**depth)
    if before is None:
        return place.from_ == 0 and begins == 0
    depth, index = before.cell
    ends = Fraction(index + 1, 2**depth)
    if ends == 1:
        return place.from_ == before.from_ + before.ticks and begins == 0
    return (place.from_, place.ticks, begins) == (before.from_, before.ticks, ends)


def with_rest(place: Place) -> Iterator[Place]:
    """The place, and those that end its span."""
    depth, index = place.cell
    for later in range(index, 2**depth):
        yield replace(place, cell=(depth, later))


def junctions(kind: Kind) -> Iterator[Sample]:
    """Beginnings that go on at all sorts of places, and from there on rightly: where
    the chain is broken, there is no other fault."""
    cells = [(depth, index) for depth in range(3) for index in range(2**depth)]
    for begun in BEGINNINGS:
        before = begun[-1] if begun else None
        ticks = before.ticks if before else 4
        for from_, lasts, cell in product((0, 1, ticks, ticks + 1), (ticks, ticks + 1), cells):
            place = Place(from_, lasts, cell)
            joined = base_at(kind, (*begun, *with_rest(place)))
            name = f"{place} after {before}"
            if fits(before, place):
                yield joined.accepted(name)
            else:
                yield joined.refused(name, 25, len(begun))


def broken_samples(kind: Kind) -> Iterator[Sample]:
    yield from first_leg_breaks(kind)
    yield from span_breaks(kind)
    yield from span_end_breaks(kind)
    yield from point_breaks(kind)
    yield from open_ends(kind)
    yield from junctions(kind)
