"""Holds the second fitting to docs/curves.md, and to what is promised of it, by
searches and sums of another kind."""

from __future__ import annotations

from collections.abc import Iterator, Sequence
from fractions import Fraction
from itertools import product
from math import comb
from random import Random

from card import BOX, FLOW, KINDS, Leg, Refusal, is_leg
from curves import (
    ALLOWANCES,
    BINOMIALS,
    CHORD,
    GREATEST_DEGREE,
    LIMIT,
    REDUCTIONS,
    Fitted,
    Reduction,
    Row,
    Terms,
    bernstein,
    elevated,
    fewest_cells,
    fitted,
    halves,
    halving,
    is_drawn,
    is_within,
    keeps_tolerance,
    matching_middle,
    passes,
    points_of_leg,
    rows_to_depth,
    times,
    value_at_moment,
)
from curves_samples import Curve
from doc_examples import fit_examples
from drafts import Cell
from fit_text import arguments_of, asked, fit

# --- What curves.md says


def flow_row(*flows: int) -> Row:
    return tuple((flow,) for flow in flows)


def measure_claims() -> Iterator[tuple[str, bool]]:
    both, apart = (64, 64), (64, -64)
    yield "curves.md: a box counts both", is_within(BOX, both, 128) > is_within(BOX, both, 127)
    yield "curves.md: branches apart", is_within(BOX, apart, 64) > is_within(BOX, apart, 63)
    yield "curves.md: a negative bound", not is_within(FLOW, (0,), -1)
    yield "curves.md: the sign", is_within(FLOW, (-5,), 5) > is_within(FLOW, (-5,), 4)
    yield "curves.md: halving -1 and 0", halving((-1,), (0,)) == (-1,)
    yield "curves.md: halving 0 and 1", halving((0,), (1,)) == (0,)
    yield "curves.md: halving a box", halving((3, -4), (4, -1)) == (3, -3)
    for kind in KINDS:
        rounded = product((0, 1), repeat=kind.coordinates)
        claim = all(is_within(kind, point, ALLOWANCES[kind]) for point in rounded)
        yield f"curves.md: the allowance of a {kind.name}", claim


def middle_claims() -> Iterator[tuple[str, bool]]:
    yield "curves.md: the middle -16", matching_middle(flow_row(0, 0, 0, 64)) == (-16,)
    yield "curves.md: the middle -1", matching_middle(flow_row(0, 0, 0, 1)) == (-1,)
    yield "curves.md: the middle of degree 2", matching_middle(flow_row(5, -7, 9)) == (-7,)
    for n in range(2, GREATEST_DEGREE + 1):
        furthest = max(
            abs(coordinate)
            for signs in product((-1, 1), repeat=n + 1)
            for coordinate in matching_middle(flow_row(*(sign * LIMIT for sign in signs)))
        )
        yield f"curves.md: no middle beyond 3C, degree {n}", furthest <= 3 * LIMIT


def raised(points: Sequence[tuple[Fraction, ...]]) -> list[tuple[Fraction, ...]]:
    """The same curve by one point more, by the usual scheme of degree elevation."""
    n = len(points)
    row = [points[0]]
    for j in range(1, n):
        share = Fraction(j, n)
        pair = zip(points[j - 1], points[j])
        row.append(tuple(share * before + (1 - share) * after for before, after in pair))
    return [*row, points[-1]]


def raised_leg(reduction: Reduction, row: Row) -> list[tuple[Fraction, ...]]:
    """The leg of a cell, raised to the degree of the curve."""
    leg = [row[0], row[-1]] if reduction == CHORD else [row[0], matching_middle(row), row[-1]]
    points = [tuple(map(Fraction, point)) for point in leg]
    while len(points) < len(row):
        points = raised(points)
    return points


def is_elevation(reduction: Reduction, row: Row) -> bool:
    """Whether Ej/M is point j of the leg, raised to the degree of the curve."""
    M = times(reduction, len(row) - 1)
    points = [tuple(M * each for each in point) for point in raised_leg(reduction, row)]
    return elevated(reduction, row) == points


def form_claims() -> Iterator[tuple[str, bool]]:
    rng = Random(1)
    for n in range(1, GREATEST_DEGREE + 1):
        yield f"curves.md: binomials of {n}", BINOMIALS[n] == [comb(n, i) for i in range(n + 1)]
        row = flow_row(*(rng.randint(-99, 99) for _ in range(n + 1)))
        moments = [(u, v) for v in (1, 2, 5) for u in range(v + 1)]
        same = all(
            bernstein(row, u, v) == tuple(v**n * x for x in value_at_moment(row, Fraction(u, v)))
            for u, v in moments
        )
        yield f"curves.md: the Bernstein form of degree {n}", same
        for reduction in REDUCTIONS:
            if n >= reduction.lowest:
                claim = f"curves.md: {reduction.name}, raised to degree {n}"
                yield claim, is_elevation(reduction, row)


def fit_claims() -> Iterator[tuple[str, bool]]:
    examples = fit_examples()
    yield "curves.md: examples of fit", len(examples) >= 12
    for arguments, printed in examples:
        status = 1 if printed.startswith("refused") else 0
        yield f"curves.md: fit {' '.join(arguments)}", fit(arguments) == (printed, status)


def curve_claims() -> Iterator[tuple[str, bool]]:
    """What curves.md says, each with whether it is so here."""
    parts = flow_row(0, 32, 32, 24), flow_row(24, 16, 0, 0)
    yield "curves.md: halves", halves(flow_row(0, 64, 0, 0)) == parts
    yield from measure_claims()
    yield from middle_claims()
    yield from form_claims()
    yield from fit_claims()


# --- The control-point test, in fractions

TRIED_CELLS = 3


def passes_in_fractions(terms: Terms, depth: int, row: Row) -> bool:
    """Whether each point of the cell lies as near to the leg's as the test asks."""
    allowance = 2 if terms.kind == BOX else 1
    nearness = terms.tolerance - Fraction(allowance * (len(row) - 1) * depth, 2)
    for point, of_leg in zip(row, raised_leg(terms.reduction, row)):
        apart = [a - b for a, b in zip(point, of_leg)]
        if terms.kind == BOX:
            apart.append(apart[0] + apart[1])
        if any(not -nearness <= each <= nearness for each in apart):
            return False
    return True


def tries_right(rng: Random, terms: Terms, row: Row) -> bool:
    """Whether the test says the same of some cells, one in the other, in fractions."""
    deepest = rng.randint(0, terms.depth)
    for depth in range(deepest + 1):
        if deepest - depth < TRIED_CELLS:
            if passes(terms, depth, row) != passes_in_fractions(terms, depth, row):
                return False
        row = rng.choice(halves(row))
    return True


# --- What is promised of the legs of a curve

MOMENTS = 3


def covers_in_order(cells: Sequence[Cell]) -> bool:
    """Whether the cells cover the moments 0 to 1, without gap or overlap."""
    begins = [Fraction(index, 2**depth) for depth, index in cells]
    ends = [Fraction(index + 1, 2**depth) for depth, index in cells]
    return begins == [Fraction(0), *ends[:-1]] and ends[-1] == 1


def is_division(terms: Terms, row: Row, answer: Fitted) -> bool:
    """Whether the pieces are those of cells that pass, and that cover the curve."""
    deepest = max(piece.cell[0] for piece in answer.pieces)
    rows = dict(rows_to_depth(row, deepest))
    for piece in answer.pieces:
        points = rows[piece.cell]
        if not passes(terms, piece.cell[0], points):
            return False
        middle = terms.reduction.middle(points)
        if (piece.start, piece.middle, piece.end) != (points[0], middle, points[-1]):
            return False
    return deepest <= terms.depth and covers_in_order([piece.cell for piece in answer.pieces])


def may_be_legs(terms: Terms, answer: Fitted) -> bool:
    degree = terms.reduction.degree
    return all(
        is_drawn(piece.start)
        and is_drawn(piece.end)
        and is_leg(terms.kind, Leg(0, 1, *piece.cell, degree, piece.start, piece.middle, piece.end))
        for piece in answer.pieces
    )


def drawn_moment(rng: Random) -> Fraction:
    v = rng.choice((1, 2, 3, 10, rng.randint(1, 1_000), rng.randint(1, 10**9)))
    return Fraction(rng.randint(0, v), v)


def stays_near(rng: Random, terms: Terms, row: Row, answer: Fitted) -> bool:
    """Whether some legs keep the tolerance at moments drawn at random."""
    return all(
        keeps_tolerance(terms, row, piece, drawn_moment(rng))
        for piece in rng.choices(answer.pieces, k=MOMENTS)
    )


def is_one_formula(rng: Random, terms: Terms, row: Row, answer: Fitted) -> bool:
    """Whether the tolerance is kept as curves.md writes it, in whole numbers."""
    n, m = len(row) - 1, terms.reduction.degree
    piece = rng.choice(answer.pieces)
    depth, index = piece.cell
    local = drawn_moment(rng)
    moment = (index + local) / 2**depth
    u, v = moment.numerator, moment.denominator
    s = 2**depth * u - index * v
    leg = bernstein(tuple(points_of_leg(terms.reduction, piece)), s, v)
    drawn = bernstein(row, u, v)
    apart = tuple(a - v ** (n - m) * b for a, b in zip(drawn, leg))
    return is_within(terms.kind, apart, terms.tolerance * v**n)


def legs_fault(rng: Random, terms: Terms, row: Row, answer: Fitted) -> str | None:
    """What is wrong with the legs of an accepted curve, but for their number."""
    if not is_division(terms, row, answer):
        return "has legs that are no division"
    if answer.cells_tested != 2 * len(answer.pieces) - 1:
        return f"has {answer.cells_tested} cells tested for {len(answer.pieces)} legs"
    if not may_be_legs(terms, answer):
        return "has a leg that is none"
    if not stays_near(rng, terms, row, answer) or not is_one_formula(rng, terms, row, answer):
        return "has a leg that strays"
    return None


def answer_fault(rng: Random, curve: Curve) -> str | None:
    answer = fitted(curve.terms, curve.points)
    if curve.meant is not None:
        return None if answer == curve.meant else f"meant to give {curve.meant}, gives {answer}"
    if not tries_right(rng, curve.terms, curve.points):
        return "has a cell that is tested wrongly"
    fewest = fewest_cells(curve.terms, curve.points)
    if isinstance(answer, Refusal):
        return None if fewest is None and answer == Refusal(11) else f"gives {answer}"
    if fewest != len(answer.pieces):
        return f"has {len(answer.pieces)} legs, and {fewest} are enough"
    return legs_fault(rng, curve.terms, curve.points, answer)


def told_fault(curve: Curve) -> str | None:
    """The arguments that are made for fit ask for the curve itself."""
    as_asked = asked(arguments_of(curve.terms, curve.points))
    return None if as_asked == (curve.terms, curve.points) else "is not what is asked of fit"


def curve_fault(rng: Random, curve: Curve) -> str | None:
    fault = answer_fault(rng, curve) or told_fault(curve)
    return None if fault is None else f"{curve}: {fault}"
