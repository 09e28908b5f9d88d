"""Test cards that are accepted."""

from __future__ import annotations

from collections.abc import Callable, Iterator
from itertools import product
from random import Random

from card import GREATEST_COORDINATE, LEAST_COORDINATE, Card, Kind, Leg, Point, write
from drafts import WHOLE, Cell, Sample, Span, legs_at, places

EXTREMES = (LEAST_COORDINATE, GREATEST_COORDINATE)
NEAR_LIMITS = (*EXTREMES, LEAST_COORDINATE + 1, GREATEST_COORDINATE - 1, -1, 0, 1)

COORDINATES: tuple[Callable[[Random], int], ...] = (
    lambda rng: rng.randint(-100, 100),
    lambda rng: rng.randint(0, 60 * 65_536),
    lambda rng: rng.randint(LEAST_COORDINATE, GREATEST_COORDINATE),
    lambda rng: rng.choice(NEAR_LIMITS),
)


def halved(rng: Random, most: int, likelihood: float, cell: Cell = (0, 0)) -> list[Cell]:
    """The cells of a span that is halved at random, to the depth `most` at most."""
    depth, index = cell
    if depth == most or rng.random() >= likelihood:
        return [cell]
    left = halved(rng, most, likelihood, (depth + 1, 2 * index))
    return left + halved(rng, most, likelihood, (depth + 1, 2 * index + 1))


def falling_stair(most: int) -> list[Cell]:
    """Cells that get ever smaller, the last two of depth `most`."""
    return [(d, 2**d - 2) for d in range(1, most + 1)] + [(most, 2**most - 1)]


def rising_stair(most: int) -> list[Cell]:
    """Cells that get ever larger, the first two of depth `most`."""
    return [(most, 0)] + [(d, 1) for d in range(most, 0, -1)]


def even(depth: int) -> list[Cell]:
    """All the cells of one depth."""
    return [(depth, index) for index in range(2**depth)]


def points(rng: Random, kind: Kind) -> Callable[[], Point]:
    """A source of points, all of one sort of coordinates."""
    coordinate = rng.choice(COORDINATES)
    return lambda: tuple(coordinate(rng) for _ in range(kind.coordinates))


def degrees(rng: Random) -> Callable[[], int]:
    among = rng.choice(((1,), (2,), (1, 2), (1, 2)))
    return lambda: rng.choice(among)


def drawn_chain(rng: Random, kind: Kind, spans: list[Span]) -> tuple[Leg, ...]:
    return legs_at(places(spans), points(rng, kind), degrees(rng))


def sample(kind: Kind, name: str, legs: tuple[Leg, ...], room: int = 0) -> Sample:
    size = 8 + len(legs) * kind.record_length + room
    return Sample(f"{kind.name}: {name}", write(kind, legs, size), Card(kind, legs))


def drawn_room(rng: Random, kind: Kind) -> int:
    length = kind.record_length
    return rng.choice((0, 0, 0, 1, length - 1, length, length + 1, rng.randrange(200)))


def drawn_spans(rng: Random) -> list[Span]:
    spans = []
    for _ in range(rng.choice((1, 1, 2, 3, 5))):
        ticks = rng.choice((1, 2, 3, 4, 7, 8, 16, rng.randint(1, 40), rng.randint(1, 4_096)))
        cells = halved(rng, rng.randint(0, 10), rng.choice((0.3, 0.5, 0.5, 0.6)))
        spans.append(Span(ticks, cells))
    return spans


def drawn_samples(rng: Random, kind: Kind, number: int) -> Iterator[Sample]:
    for i in range(number):
        legs = drawn_chain(rng, kind, drawn_spans(rng))
        yield sample(kind, f"drawn chain {i}", legs, drawn_room(rng, kind))


def spans_at_limits() -> dict[str, list[Span]]:
    """Lists of spans at the limits of what S, L, d and k may be."""
    full = Span(4_096, WHOLE)
    quarters = Span(4_096, even(2))
    return {
        "one tick": [Span(1, WHOLE)],
        "one tick, depth 10": [Span(1, falling_stair(10))],
        "spans of one tick": [Span(1, WHOLE)] * 40,
        "span of 4096 ticks": [full],
        "span of 4096 ticks, depth 10": [Span(4_096, rising_stair(10))],
        "span of 4095 ticks, halved": [Span(4_095, even(1))],
        "turn of 65536 ticks": [full] * 16,
        "turn of 65536 ticks, in quarters": [quarters] * 16,
        "last span from 65535": [full] * 15 + [Span(4_095, WHOLE), Span(1, WHOLE)],
        "turn of 65535 ticks": [full] * 15 + [Span(4_095, even(1))],
        "all cells of depth 10, 1024 ticks": [Span(1_024, even(10))],
        "all cells of depth 9, 3 ticks": [Span(3, even(9))],
        "all cells of depth 10, twice": [Span(1_000, even(10)), Span(24, even(10))],
        "falling stair, 1000 ticks": [Span(1_000, falling_stair(10))],
        "rising stair, 1023 ticks": [Span(1_023, rising_stair(10))],
        "stairs, down and up": [Span(60, falling_stair(6)), Span(50, rising_stair(7))],
    }


def limit_samples(rng: Random, kind: Kind) -> Iterator[Sample]:
    for name, spans in spans_at_limits().items():
        for _ in range(4):
            yield sample(kind, name, drawn_chain(rng, kind, spans), drawn_room(rng, kind))


def single_samples(rng: Random, kind: Kind, number: int) -> Iterator[Sample]:
    """Cards of a single leg, exactly full."""
    for i in range(number):
        ticks = rng.choice((1, 2, 3, 5, 10, 31, 64, 4_096))
        legs = drawn_chain(rng, kind, [Span(ticks, WHOLE)])
        yield sample(kind, f"single leg {i}", legs)


def value_samples(kind: Kind) -> Iterator[Sample]:
    """Single legs through all triples of values at the limits."""
    for triple in product((*EXTREMES, -1, 0, 1), repeat=3):
        start, middle, end = ((value,) * kind.coordinates for value in triple)
        legs = (Leg(0, 3, 0, 0, 2, start, middle, end),)
        yield sample(kind, f"single leg by {triple}", legs)


def room_samples(rng: Random, kind: Kind) -> Iterator[Sample]:
    """No legs and a few legs, each with every spare room up to two records."""
    few = drawn_chain(rng, kind, [Span(4, even(1))])
    for room in range(2 * kind.record_length + 2):
        yield sample(kind, f"no legs, room of {room}", (), room)
        yield sample(kind, f"two legs, room of {room}", few, room)


def valid_samples(rng: Random, kind: Kind) -> Iterator[Sample]:
    yield from drawn_samples(rng, kind, 300)
    yield from limit_samples(rng, kind)
    yield from single_samples(rng, kind, 60)
    yield from value_samples(kind)
    yield from room_samples(rng, kind)
