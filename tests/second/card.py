"""The second reader of cards.

Written from docs/ alone and meant to be held beside it: each part below names
the page that it follows, and says the same in the same order. Everything is
exact: whole numbers of any size, and fractions.
"""

from __future__ import annotations

from collections.abc import Sequence
from dataclasses import dataclass
from fractions import Fraction
from math import floor

# --- legs.md: points

Point = tuple[int, ...]

LEAST_COORDINATE = -8_589_934_592
GREATEST_COORDINATE = 8_589_934_592


@dataclass(frozen=True)
class Kind:
    """A kind of ordinate."""

    name: str
    number: int
    coordinates: int
    record_length: int


FLOW = Kind(name="flow", number=1, coordinates=1, record_length=36)
BOX = Kind(name="box", number=2, coordinates=2, record_length=60)
KINDS = (FLOW, BOX)


def is_point(kind: Kind, point: Point) -> bool:
    """Whether a leg of this kind may have the point."""
    return len(point) == kind.coordinates and all(
        LEAST_COORDINATE <= coordinate <= GREATEST_COORDINATE for coordinate in point
    )


# --- legs.md: the octets of a coordinate

COORDINATE_LENGTH = 8


def coordinate_octets(coordinate: int) -> bytes:
    return coordinate.to_bytes(COORDINATE_LENGTH, "big", signed=True)


def point_octets(point: Point) -> bytes:
    return b"".join(coordinate_octets(coordinate) for coordinate in point)


def point_of(octets: bytes) -> Point:
    return tuple(
        int.from_bytes(octets[i : i + COORDINATE_LENGTH], "big", signed=True)
        for i in range(0, len(octets), COORDINATE_LENGTH)
    )


# --- legs.md: legs


@dataclass(frozen=True)
class Leg:
    """The fields of a leg. Whether they are a leg's, `is_leg` says."""

    from_: int
    ticks: int
    depth: int
    index: int
    degree: int
    start: Point
    middle: Point
    end: Point


def is_leg(kind: Kind, leg: Leg) -> bool:
    return (
        0 <= leg.from_ <= 65_535
        and 1 <= leg.ticks <= 4_096
        and leg.from_ + leg.ticks <= 65_536
        and 0 <= leg.depth <= 10
        and 0 <= leg.index <= 2**leg.depth - 1
        and leg.degree in (1, 2)
        and is_point(kind, leg.start)
        and is_point(kind, leg.middle)
        and (leg.degree != 1 or leg.middle == leg.start)
        and is_point(kind, leg.end)
    )


# --- legs.md: the chain


def ends_span(leg: Leg) -> bool:
    return leg.index + 1 == 2**leg.depth


def goes_on(before: Leg | None, leg: Leg) -> bool:
    """Whether the leg goes on the chain that ends with `before`, or begins one."""
    if before is None:
        return leg.from_ == 0 and leg.index == 0
    if leg.start != before.end:
        return False
    if ends_span(before):
        return leg.from_ == before.from_ + before.ticks and leg.index == 0
    return (
        leg.from_ == before.from_
        and leg.ticks == before.ticks
        and (before.index + 1) * 2**leg.depth == leg.index * 2**before.depth
    )


def is_chain(legs: Sequence[Leg]) -> bool:
    befores = [None, *legs[:-1]]
    return all(map(goes_on, befores, legs)) and (not legs or ends_span(legs[-1]))


def last_tick(legs: Sequence[Leg]) -> int:
    """The last tick of the turn, 0 where there is no leg."""
    return legs[-1].from_ + legs[-1].ticks if legs else 0


# --- legs.md: the value at a tick


def covers(leg: Leg, tick: int) -> bool:
    begins = leg.from_ + Fraction(leg.index * leg.ticks, 2**leg.depth)
    stops = leg.from_ + Fraction((leg.index + 1) * leg.ticks, 2**leg.depth)
    return begins <= tick <= stops


def exact_value(leg: Leg, tick: int, p: int, q: int, z: int) -> Fraction:
    """The leg's value in the coordinate in which it goes from p by q to z."""
    L = leg.ticks
    s = 2**leg.depth * (tick - leg.from_) - leg.index * L
    if leg.degree == 1:
        return Fraction((L - s) * p + s * z, L)
    return Fraction((L - s) ** 2 * p + 2 * s * (L - s) * q + s**2 * z, L**2)


def leg_value(leg: Leg, tick: int) -> Point:
    """The leg's value at a tick that it covers, rounded down."""
    return tuple(
        floor(exact_value(leg, tick, p, q, z))
        for p, q, z in zip(leg.start, leg.middle, leg.end)
    )


def value_at(legs: Sequence[Leg], tick: int) -> Point | Refusal:
    for leg in legs:
        if covers(leg, tick):
            return leg_value(leg, tick)
    return Refusal(16)


# --- refusals.md

WORDS = {
    16: "the tick is past the last leg, or the card has no leg",
    18: "the result has fewer than eight octets",
    21: "the card has fewer than eight octets",
    22: "the kind, the edition or the record length is wrong",
    23: "the count is above the card's capacity",
    24: "a field that no leg has, or a spare octet that is not zero",
    25: "the chain of legs is broken",
    26: "an octet after the last record is not zero",
    31: "the outlet is full",
}


@dataclass(frozen=True)
class Refusal:
    """The number of a refusal, and the record, point or leg that it names, if any."""

    number: int
    names: int | None = None


# --- card.md: header and record


@dataclass(frozen=True)
class Card:
    kind: Kind
    legs: tuple[Leg, ...]


HEADER_LENGTH = 8
EDITION = 1
MOST_RECORDS = 67_108_864
SPARE = bytes(2)


def number_octets(number: int, length: int) -> bytes:
    return number.to_bytes(length, "big")


def number_of(octets: bytes) -> int:
    return int.from_bytes(octets, "big")


def capacity(kind: Kind, size: int) -> int:
    return min((size - HEADER_LENGTH) // kind.record_length, MOST_RECORDS)


def header_octets(kind_number: int, edition: int, record_length: int, count: int) -> bytes:
    """A header of any values; that they are a card's is not checked."""
    first = number_octets(kind_number, 1) + number_octets(edition, 1)
    return first + number_octets(record_length, 2) + number_octets(count, 4)


def record_octets(leg: Leg, spare: bytes = SPARE) -> bytes:
    """A record of any values; that they are a leg's is not checked."""
    span = number_octets(leg.from_, 4) + number_octets(leg.ticks, 2)
    piece = number_octets(leg.depth, 1) + number_octets(leg.degree, 1)
    index = number_octets(leg.index, 2)
    points = point_octets(leg.start) + point_octets(leg.middle) + point_octets(leg.end)
    return span + piece + index + spare + points


def record_fields(kind: Kind, record: bytes) -> tuple[Leg, bytes]:
    """The fields of a record, a leg's or not, and its spare octets."""
    point_length = kind.coordinates * COORDINATE_LENGTH
    middle_at = 12 + point_length
    end_at = middle_at + point_length
    leg = Leg(
        from_=number_of(record[0:4]),
        ticks=number_of(record[4:6]),
        depth=record[6],
        degree=record[7],
        index=number_of(record[8:10]),
        start=point_of(record[12:middle_at]),
        middle=point_of(record[middle_at:end_at]),
        end=point_of(record[end_at:]),
    )
    return leg, record[10:12]


def write(kind: Kind, legs: Sequence[Leg], size: int) -> bytes:
    """The card of a chained list of legs, of `size` octets."""
    if not all(is_leg(kind, leg) for leg in legs) or not is_chain(legs):
        raise ValueError("these are not the legs of a chain")
    if size < HEADER_LENGTH or len(legs) > capacity(kind, size):
        raise ValueError("the legs do not fit")
    header = header_octets(kind.number, EDITION, kind.record_length, len(legs))
    written = header + b"".join(record_octets(leg) for leg in legs)
    return written + bytes(size - len(written))


# --- card.md: reading


def read(octets: bytes, as_kind: Kind | None = None) -> Card | Refusal:
    """Reads a card of one given kind, or of any kind where none is given."""
    if len(octets) < HEADER_LENGTH:
        return Refusal(21)
    kind = next((kind for kind in KINDS if kind.number == octets[0]), None)
    if kind is None or (as_kind is not None and kind != as_kind):
        return Refusal(22)
    if octets[1] != EDITION or number_of(octets[2:4]) != kind.record_length:
        return Refusal(22)
    count = number_of(octets[4:8])
    if count > capacity(kind, len(octets)):
        return Refusal(23)
    legs: list[Leg] = []
    for i in range(count):
        at = HEADER_LENGTH + i * kind.record_length
        leg, spare = record_fields(kind, octets[at : at + kind.record_length])
        if not is_leg(kind, leg) or spare != SPARE:
            return Refusal(24, i)
        if not goes_on(legs[-1] if legs else None, leg):
            return Refusal(25, i)
        legs.append(leg)
    if legs and not ends_span(legs[-1]):
        return Refusal(25, count)
    if any(octets[HEADER_LENGTH + count * kind.record_length :]):
        return Refusal(26)
    return Card(kind, tuple(legs))


# --- c-calls.md

GREATEST_TICK = 2**32 - 1


def check_call(octets: bytes) -> int:
    """What zarhatch_card_check answers."""
    answer = read(octets)
    return answer.number if isinstance(answer, Refusal) else 0


def value_call(octets: bytes, tick: int, result: bytes) -> tuple[int, bytes]:
    """What zarhatch_card_value answers, and what is in `result` after it."""
    if len(result) < COORDINATE_LENGTH:
        return 18, result
    card = read(octets, FLOW)
    if isinstance(card, Refusal):
        return card.number, result
    value = value_at(card.legs, tick)
    if isinstance(value, Refusal):
        return value.number, result
    return 0, point_octets(value) + result[COORDINATE_LENGTH:]
