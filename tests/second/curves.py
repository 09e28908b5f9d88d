"""The second fitting of legs to a curve.

Written from curves.md alone and meant to be held beside it, like the second
reader. Everything is exact: whole numbers of any size, and fractions. The last
part finds the fewest cells and the tolerance again, in ways of its own.
"""

from __future__ import annotations

from collections.abc import Callable, Iterator, Sequence
from dataclasses import dataclass
from fractions import Fraction
from math import ceil

from card import BOX, FLOW, Kind, Point, Refusal
from drafts import Cell

# --- curves.md: kinds of ordinate, and how they are measured

LIMIT = 2_147_483_648
ALLOWANCES = {FLOW: 1, BOX: 2}

# A point, or one that is not rounded.
Vector = tuple[int, ...] | tuple[Fraction, ...]


def is_within(kind: Kind, vector: Vector, r: int | Fraction) -> bool:
    if kind == BOX:
        left, right = vector
        return abs(left) <= r and abs(right) <= r and abs(left + right) <= r
    (flow,) = vector
    return abs(flow) <= r


def is_drawn(point: Point) -> bool:
    """Whether the coordinates are those of a drawn point."""
    return all(-LIMIT <= coordinate <= LIMIT for coordinate in point)


# --- curves.md: halving two points


def halving(a: Point, b: Point) -> Point:
    return tuple((left + right) // 2 for left, right in zip(a, b))


# --- curves.md: the Bernstein form in whole numbers

GREATEST_DEGREE = 8

Row = tuple[Point, ...]


def next_binomials(row: Sequence[int]) -> list[int]:
    return [1, *(left + right for left, right in zip(row, row[1:])), 1]


def binomial_rows() -> list[list[int]]:
    rows = [[1]]
    while len(rows) <= GREATEST_DEGREE:
        rows.append(next_binomials(rows[-1]))
    return rows


BINOMIALS = binomial_rows()


def degree_of(row: Row) -> int:
    return len(row) - 1


def weighted_sum(weights: Sequence[int], points: Sequence[Point]) -> Point:
    return tuple(
        sum(weight * coordinate for weight, coordinate in zip(weights, coordinates))
        for coordinates in zip(*points)
    )


def bernstein(row: Row, u: int, v: int) -> Point:
    """F(u, v), where the row holds the drawn points."""
    n = degree_of(row)
    weights = [BINOMIALS[n][i] * (v - u) ** (n - i) * u**i for i in range(n + 1)]
    return weighted_sum(weights, row)


# --- curves.md: cells and their points


def next_round(row: Row) -> Row:
    return tuple(halving(point, neighbour) for point, neighbour in zip(row, row[1:]))


def halves(row: Row) -> tuple[Row, Row]:
    """The points of the left and the right half of a cell."""
    rounds = [row]
    while len(rounds[-1]) > 1:
        rounds.append(next_round(rounds[-1]))
    left = tuple(points[0] for points in rounds)
    right = tuple(points[-1] for points in reversed(rounds))
    return left, right


# --- curves.md: reductions


@dataclass(frozen=True)
class Reduction:
    name: str
    degree: int
    lowest: int
    middle: Callable[[Row], Point]


def matching_middle(row: Row) -> Point:
    n = degree_of(row)
    whole = weighted_sum(BINOMIALS[n], row)
    return tuple(
        (2 * S - 2 ** (n - 1) * (first + last)) // 2**n
        for S, first, last in zip(whole, row[0], row[-1])
    )


CHORD = Reduction(name="chord", degree=1, lowest=1, middle=lambda row: row[0])
MATCHING = Reduction(name="matching", degree=2, lowest=2, middle=matching_middle)
REDUCTIONS = (CHORD, MATCHING)


# --- curves.md: the control-point test


@dataclass(frozen=True)
class Terms:
    """What is agreed of the legs of a curve."""

    kind: Kind
    reduction: Reduction
    tolerance: int
    depth: int


def times(reduction: Reduction, n: int) -> int:
    """M, how many times all is taken for a curve of degree n."""
    return n if reduction.degree == 1 else n * (n - 1)


def elevated(reduction: Reduction, row: Row) -> list[Point]:
    """E0 to En."""
    n = degree_of(row)
    p, z = row[0], row[-1]
    if reduction.degree == 1:
        return [weighted_sum((n - j, j), (p, z)) for j in range(n + 1)]
    q = reduction.middle(row)
    weights = [((n - j) * (n - j - 1), 2 * j * (n - j), j * (j - 1)) for j in range(n + 1)]
    return [weighted_sum(each, (p, q, z)) for each in weights]


def tested_vectors(reduction: Reduction, row: Row) -> list[Point]:
    """The vectors that have to be within bounds, each 2(M pj - Ej)."""
    M = times(reduction, degree_of(row))
    pairs = zip(row, elevated(reduction, row))
    return [weighted_sum((2 * M, -2), (point, E)) for point, E in pairs]


def allowed(kind: Kind, n: int, depth: int) -> int:
    """A n d, what the halvings may have cost."""
    return ALLOWANCES[kind] * n * depth


def passes(terms: Terms, depth: int, row: Row) -> bool:
    """Whether a cell of this depth, with these points, passes."""
    n = degree_of(row)
    bound = 2 * terms.tolerance - allowed(terms.kind, n, depth)
    r = times(terms.reduction, n) * bound
    vectors = tested_vectors(terms.reduction, row)
    return all(is_within(terms.kind, vector, r) for vector in vectors)


# --- curves.md: divisions and the halving


@dataclass(frozen=True)
class Piece:
    """What a leg has from the curve."""

    cell: Cell
    start: Point
    middle: Point
    end: Point


@dataclass(frozen=True)
class Fitted:
    pieces: tuple[Piece, ...]
    cells_tested: int


def piece_of(reduction: Reduction, cell: Cell, row: Row) -> Piece:
    return Piece(cell, row[0], reduction.middle(row), row[-1])


WHOLE_CURVE: Cell = (0, 0)


def left_cell(cell: Cell) -> Cell:
    depth, index = cell
    return depth + 1, 2 * index


def right_cell(cell: Cell) -> Cell:
    depth, index = cell
    return depth + 1, 2 * index + 1


def divided(terms: Terms, row: Row, cell: Cell = WHOLE_CURVE) -> Fitted | None:
    """The halving of the curve, or of the part of it in a cell; None where that is
    too bent."""
    depth, _ = cell
    if passes(terms, depth, row):
        return Fitted((piece_of(terms.reduction, cell, row),), 1)
    if depth == terms.depth:
        return None
    left_row, right_row = halves(row)
    left = divided(terms, left_row, left_cell(cell))
    if left is None:
        return None
    right = divided(terms, right_row, right_cell(cell))
    if right is None:
        return None
    return Fitted(left.pieces + right.pieces, 1 + left.cells_tested + right.cells_tested)


# --- curves.md: work points


def work_needed(depth: int, points: int) -> int:
    return (depth + 1) * points


# --- curves.md: why a curve is refused


def terms_refusal(tolerance: int, depth: int) -> Refusal | None:
    if not 1 <= tolerance <= LIMIT:
        return Refusal(1)
    if not 0 <= depth <= 10:
        return Refusal(2)
    return None


def points_refusal(reduction: Reduction, row: Row) -> Refusal | None:
    if not reduction.lowest + 1 <= len(row) <= GREATEST_DEGREE + 1:
        return Refusal(5)
    for j, point in enumerate(row):
        if not is_drawn(point):
            return Refusal(6, j)
    return None


def fitted(terms: Terms, row: Row) -> Fitted | Refusal:
    """The legs of one curve by itself, with work points and room enough."""
    refused = terms_refusal(terms.tolerance, terms.depth) or points_refusal(terms.reduction, row)
    if refused is not None:
        return refused
    return divided(terms, row) or Refusal(11)


# --- The fewest cells, found without halving a cell because it fails


def rows_to_depth(row: Row, deepest: int) -> Iterator[tuple[Cell, Row]]:
    """Every cell down to a depth, and its points, depth by depth."""
    rows = [row]
    for depth in range(deepest + 1):
        for index, points in enumerate(rows):
            yield (depth, index), points
        rows = [half for points in rows for half in halves(points)]


def fewest_cells(terms: Terms, row: Row) -> int | None:
    """How many cells a division has at least, None where there is none. Any cells
    that pass are put together, in any way that covers the curve in order; moments
    are counted in cells of the largest depth."""
    lasting: dict[int, list[int]] = {}
    for (depth, index), points in rows_to_depth(row, terms.depth):
        if passes(terms, depth, points):
            length = 2 ** (terms.depth - depth)
            lasting.setdefault(index * length, []).append(length)
    end = 2**terms.depth
    fewest = {0: 0}
    for moment in range(end):
        if moment not in fewest:
            continue
        for length in lasting.get(moment, []):
            known = fewest.get(moment + length)
            cells = fewest[moment] + 1
            fewest[moment + length] = cells if known is None else min(known, cells)
    return fewest.get(end)


def size(kind: Kind, vector: Point) -> int:
    """The least r that the vector is within."""
    return max(map(abs, (*vector, sum(vector)) if kind == BOX else vector))


def least_tolerance_of_cell(kind: Kind, reduction: Reduction, depth: int, row: Row) -> int:
    """The least tolerance with which the cell passes, where it may be any number."""
    n = degree_of(row)
    largest = max(size(kind, vector) for vector in tested_vectors(reduction, row))
    bound = Fraction(largest, times(reduction, n))
    return ceil((bound + allowed(kind, n, depth)) / 2)


def least_tolerance(
    kind: Kind, reduction: Reduction, deepest: int, row: Row, depth: int = 0
) -> int:
    """The least tolerance with which the curve has a division, where it may be any
    number. At a depth, that of the part in a cell with these points."""
    alone = least_tolerance_of_cell(kind, reduction, depth, row)
    if depth == deepest:
        return alone
    in_halves = [least_tolerance(kind, reduction, deepest, half, depth + 1) for half in halves(row)]
    return min(alone, max(in_halves))


# --- The tolerance, by the drawn curve and the leg at a moment


def between(a: Vector, b: Vector, moment: Fraction) -> tuple[Fraction, ...]:
    return tuple((1 - moment) * left + moment * right for left, right in zip(a, b))


def value_at_moment(points: Sequence[Vector], moment: Fraction) -> Vector:
    """The Bézier curve with these points, by de Casteljau's scheme in exact fractions."""
    while len(points) > 1:
        points = [between(a, b, moment) for a, b in zip(points, points[1:])]
    return points[0]


def points_of_leg(reduction: Reduction, piece: Piece) -> list[Point]:
    if reduction.degree == 1:
        return [piece.start, piece.end]
    return [piece.start, piece.middle, piece.end]


def keeps_tolerance(terms: Terms, row: Row, piece: Piece, local: Fraction) -> bool:
    """Whether leg and drawn curve differ by no more than the tolerance at a local
    moment of the leg, from 0 to 1."""
    depth, index = piece.cell
    drawn = value_at_moment(row, (index + local) / 2**depth)
    stands = value_at_moment(points_of_leg(terms.reduction, piece), local)
    apart = tuple(a - b for a, b in zip(drawn, stands))
    return is_within(terms.kind, apart, terms.tolerance)
