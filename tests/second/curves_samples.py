"""Curves to fit legs to, the same for the same seed."""

from __future__ import annotations

from collections.abc import Callable, Iterator
from dataclasses import dataclass
from itertools import product
from random import Random

from card import KINDS, Kind, Refusal
from curves import (
    CHORD,
    GREATEST_DEGREE,
    LIMIT,
    REDUCTIONS,
    Reduction,
    Row,
    Terms,
    least_tolerance,
    least_tolerance_of_cell,
    rows_to_depth,
)
from drafts import moved


@dataclass(frozen=True)
class Curve:
    """A curve, and the refusal that it is meant to give; None where it is to be halved."""

    name: str
    terms: Terms
    points: Row
    meant: Refusal | None = None


# --- Coordinates, one source for each sort of curve

Coordinates = Callable[[Random, int], list[int]]


def clamped(number: int) -> int:
    return max(-LIMIT, min(LIMIT, number))


def independent(least: int, greatest: int) -> Coordinates:
    return lambda rng, number: [rng.randint(least, greatest) for _ in range(number)]


def among(*choices: int) -> Coordinates:
    return lambda rng, number: rng.choices(choices, k=number)


def walk(step: int) -> Coordinates:
    """Each coordinate near the one before."""

    def drawn(rng: Random, number: int) -> list[int]:
        at = rng.randint(-100 * step, 100 * step)
        numbers = []
        for _ in range(number):
            numbers.append(clamped(at))
            at += rng.randint(-step, step)
        return numbers

    return drawn


def nearly_straight(stray: int) -> Coordinates:
    """Coordinates beside a straight line, where the allowance decides."""

    def drawn(rng: Random, number: int) -> list[int]:
        at, slope = rng.randint(-1_000, 1_000), rng.randint(-300, 300)
        return [at + i * slope + rng.randint(-stray, stray) for i in range(number)]

    return drawn


def ramp(rng: Random, number: int) -> list[int]:
    """A rise or a fall that begins and ends level."""
    low, high = rng.randint(0, 10 * 65_536), rng.randint(0, 60 * 65_536)
    return [low] * (number // 2) + [high] * (number - number // 2)


SORTS: dict[str, Coordinates] = {
    "tiny": independent(-3, 3),
    "small": independent(-100, 100),
    "of litres": independent(0, 60 * 65_536),
    "of any size": independent(-LIMIT, LIMIT),
    "at limits": among(-LIMIT, LIMIT),
    "near limits": among(-LIMIT, 1 - LIMIT, -1, 0, 1, LIMIT - 1, LIMIT),
    "walk": walk(40),
    "long walk": walk(20_000),
    "nearly straight": nearly_straight(3),
    "ramp": ramp,
}


def drawn_row(rng: Random, kind: Kind, number: int, sort: Coordinates) -> Row:
    return tuple(zip(*(sort(rng, number) for _ in range(kind.coordinates))))


# --- Tolerances and depths


def drawn_depth(rng: Random) -> int:
    return rng.choice((0, 1, 1, 2, 2, 3, 3, 4, 4, 5, 6))


def of_some_cell(rng: Random, kind: Kind, reduction: Reduction, depth: int, row: Row) -> int:
    """The least tolerance with which some cell passes."""
    (at, _), points = rng.choice(list(rows_to_depth(row, depth)))
    return least_tolerance_of_cell(kind, reduction, at, points)


def drawn_tolerance(rng: Random, kind: Kind, reduction: Reduction, depth: int, row: Row) -> int:
    """Most often one that is just enough for something, or just too small for it."""
    drawn = rng.random()
    if drawn < 0.2:
        return rng.choice((1, rng.randint(1, 20), rng.randint(1, 5_000), rng.randint(1, LIMIT)))
    if drawn < 0.6:
        enough = least_tolerance(kind, reduction, depth, row)
    else:
        enough = of_some_cell(rng, kind, reduction, depth, row)
    return max(1, min(LIMIT, enough - rng.choice((0, 0, 0, 1))))


# --- Curves to be halved

CURVES_OF_A_SORT = 6
DEEP_CURVES = 1


def degrees_of(reduction: Reduction) -> range:
    return range(reduction.lowest, GREATEST_DEGREE + 1)


def drawn_curve(
    rng: Random, kind: Kind, reduction: Reduction, degree: int, depth: int, sort: str
) -> Curve:
    row = drawn_row(rng, kind, degree + 1, SORTS[sort])
    tolerance = drawn_tolerance(rng, kind, reduction, depth, row)
    name = f"{sort}, degree {degree}"
    return Curve(name, Terms(kind, reduction, tolerance, depth), row)


def drawn_curves(rng: Random) -> Iterator[Curve]:
    for kind, reduction in product(KINDS, REDUCTIONS):
        for degree, sort in product(degrees_of(reduction), SORTS):
            for _ in range(CURVES_OF_A_SORT):
                yield drawn_curve(rng, kind, reduction, degree, drawn_depth(rng), sort)


def deep_curves(rng: Random) -> Iterator[Curve]:
    for kind, reduction, depth in product(KINDS, REDUCTIONS, (8, 10)):
        for _ in range(DEEP_CURVES):
            degree = rng.choice(degrees_of(reduction))
            yield drawn_curve(rng, kind, reduction, degree, depth, rng.choice(list(SORTS)))


def bent_alike(kind: Kind) -> Row:
    """Nine points of a parabola up to the limit: with chord each of its cells of a depth wants
    the same tolerance."""
    return tuple((i * (8 - i) * (LIMIT // 16),) * kind.coordinates for i in range(9))


def by_turns(kind: Kind, number: int) -> Row:
    """Points at the lower and the upper limit by turns."""
    return tuple(((-LIMIT, LIMIT)[i % 2],) * kind.coordinates for i in range(number))


def deepest_curves() -> Iterator[Curve]:
    """The most work points that a curve wants; with chord, the most legs that it comes to."""
    for kind, reduction in product(KINDS, REDUCTIONS):
        row = bent_alike(kind) if reduction == CHORD else by_turns(kind, 9)
        tolerance = least_tolerance(kind, reduction, 10, row)
        yield Curve("nine points, depth 10", Terms(kind, reduction, tolerance, 10), row)


def limit_curves() -> Iterator[Curve]:
    """Curves between the two limits, with the largest and the smallest tolerance."""
    for kind, reduction, tolerance in product(KINDS, REDUCTIONS, (1, LIMIT)):
        for degree in degrees_of(reduction):
            ends = ((-LIMIT,) * kind.coordinates, (LIMIT,) * kind.coordinates)
            terms = Terms(kind, reduction, tolerance, 3)
            yield Curve("between the limits by turns", terms, by_turns(kind, degree + 1))
            yield Curve("at the upper limit", terms, ends[1:] * (degree + 1))
            yield Curve("at the lower limit, but for its end", terms, ends[:1] * degree + ends[1:])


# --- Curves refused before any halving

BAD_TOLERANCES = (0, -1, -LIMIT, LIMIT + 1, 2**32 + 1, 2**63 - 1, -(2**63))
BAD_DEPTHS = (-1, 11, 16, 2**32, 2**63 - 1, -(2**63))
FAR = (LIMIT + 1, -LIMIT - 1, 2**32, -(2**32), 2**62, 2**63 - 1, -(2**63))


def some_row(kind: Kind, number: int) -> Row:
    return tuple((7 * i - 3,) * kind.coordinates for i in range(number))


def bad_terms(kind: Kind, reduction: Reduction) -> Iterator[Curve]:
    row = some_row(kind, 3)
    for tolerance in BAD_TOLERANCES:
        for depth in (3, -1):
            terms = Terms(kind, reduction, tolerance, depth)
            yield Curve(f"tolerance {tolerance}", terms, row, Refusal(1))
    for depth in BAD_DEPTHS:
        for tolerance in (1, LIMIT):
            terms = Terms(kind, reduction, tolerance, depth)
            for points in (row, (), ((LIMIT + 1,) * kind.coordinates,)):
                yield Curve(f"depth {depth}", terms, points, Refusal(2))


def bad_numbers(kind: Kind, reduction: Reduction) -> Iterator[Curve]:
    terms = Terms(kind, reduction, 5, 1)
    for number in (*range(reduction.lowest + 1), 10, 11, 20):
        yield Curve(f"{number} points", terms, some_row(kind, number), Refusal(5))
        far = some_row(kind, number)[1:] + ((LIMIT + 1,) * kind.coordinates,) * min(number, 1)
        yield Curve(f"{number} points, one beyond", terms, far, Refusal(5))


def far_points(kind: Kind, reduction: Reduction) -> Iterator[Curve]:
    terms = Terms(kind, reduction, 5, 1)
    for number in (reduction.lowest + 1, 9):
        row = some_row(kind, number)
        for j, which, far in product(range(number), range(kind.coordinates), FAR):
            beyond = (*row[:j], moved(row[j], which, far), *row[j + 1 :])
            yield Curve(f"point {j} at {far}", terms, beyond, Refusal(6, j))
        for j in range(number - 1):
            both = (*row[:j], *[(-LIMIT - 1,) * kind.coordinates] * (number - j))
            yield Curve(f"points beyond from {j} on", terms, both, Refusal(6, j))


def refused_curves() -> Iterator[Curve]:
    for kind, reduction in product(KINDS, REDUCTIONS):
        yield from bad_terms(kind, reduction)
        yield from bad_numbers(kind, reduction)
        yield from far_points(kind, reduction)


def all_curves(seed: int) -> list[Curve]:
    rng = Random(seed)
    drawn = [*drawn_curves(rng), *deep_curves(rng)]
    return [*drawn, *deepest_curves(), *limit_curves(), *refused_curves()]
