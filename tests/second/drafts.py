"""Test cards, and the drafts that they are written from."""

from __future__ import annotations

from collections.abc import Callable, Iterable, Iterator, Sequence
from dataclasses import dataclass, field, replace
from typing import Any

from card import EDITION, SPARE, Card, Kind, Leg, Point, Refusal, header_octets, record_octets


@dataclass(frozen=True)
class Sample:
    """A test card, and what reading it is meant to give; None where only the
    readers can tell."""

    name: str
    octets: bytes
    meant: Card | Refusal | None


@dataclass(frozen=True)
class Draft:
    """The parts of a card. Any of them may be given a value that no card has:
    nothing is checked when the octets are written."""

    kind: Kind
    legs: tuple[Leg, ...]
    room: bytes
    kind_number: int
    edition: int
    record_length: int
    count: int
    spares: dict[int, bytes] = field(default_factory=dict)
    cut: int | None = None

    def octets(self) -> bytes:
        header = header_octets(self.kind_number, self.edition, self.record_length, self.count)
        records = b"".join(
            record_octets(leg, self.spares.get(i, SPARE)) for i, leg in enumerate(self.legs)
        )
        return (header + records + self.room)[: self.cut]

    def with_leg(self, record: int, **fields: Any) -> Draft:
        """The draft with other fields in one of its legs."""
        leg = replace(self.legs[record], **fields)
        return replace(self, legs=(*self.legs[:record], leg, *self.legs[record + 1 :]))

    def sample(self, name: str, meant: Card | Refusal | None) -> Sample:
        return Sample(f"{self.kind.name}: {name}", self.octets(), meant)

    def accepted(self, name: str) -> Sample:
        return self.sample(name, Card(self.kind, self.legs))

    def refused(self, name: str, number: int, record: int | None = None) -> Sample:
        return self.sample(name, Refusal(number, record))


def draft(kind: Kind, legs: Sequence[Leg], room: int = 0) -> Draft:
    """The undamaged draft of a list of legs, with some octets to spare."""
    return Draft(
        kind, tuple(legs), bytes(room), kind.number, EDITION, kind.record_length, len(legs)
    )


Cell = tuple[int, int]


@dataclass(frozen=True)
class Place:
    """Where a leg lies: its span and its cell."""

    from_: int
    ticks: int
    cell: Cell


@dataclass(frozen=True)
class Span:
    ticks: int
    cells: Sequence[Cell]


WHOLE: tuple[Cell, ...] = ((0, 0),)


def places(spans: Sequence[Span]) -> Iterator[Place]:
    """The places of the legs of spans that follow one another."""
    from_ = 0
    for span in spans:
        for cell in span.cells:
            yield Place(from_, span.ticks, cell)
        from_ += span.ticks


def legs_at(
    where: Iterable[Place], point: Callable[[], Point], degree: Callable[[], int]
) -> tuple[Leg, ...]:
    """Legs whose points are chained, at any places. Their points and degrees are
    drawn one after another."""
    legs = []
    start = point()
    for place in where:
        depth, index = place.cell
        drawn = degree()
        middle = start if drawn == 1 else point()
        end = point()
        legs.append(Leg(place.from_, place.ticks, depth, index, drawn, start, middle, end))
        start = end
    return tuple(legs)


def moved(point: Point, which: int, to: int) -> Point:
    """The point with another number as one of its coordinates."""
    return (*point[:which], to, *point[which + 1 :])
