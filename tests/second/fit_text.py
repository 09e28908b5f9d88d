"""What fit prints, by curves.md."""

from __future__ import annotations

import re
from collections.abc import Sequence

from card import BOX, KINDS, Kind, Refusal
from curves import REDUCTIONS, Fitted, Piece, Reduction, Row, Terms, fitted
from gate_text import point_text

WORDS = {
    1: "the tolerance is not from 1 to the limit",
    2: "the depth is not from 0 to 10",
    5: "too few points for the reduction, or more than nine",
    6: "point {} lies beyond the limit",
    11: "the curve is too bent",
}
NUMBER = re.compile(r"[+-]?[0-9]+")


class WrongUse(Exception):
    """fit is given wrong arguments; it says so on standard error."""


# --- The arguments


def number_of_argument(argument: str) -> int:
    if not NUMBER.fullmatch(argument):
        raise WrongUse(f"{argument} is no number")
    number = int(argument)
    if not -(2**63) <= number < 2**63:
        raise WrongUse(f"{argument} is no number of 64 bits")
    return number


def kind_named(name: str) -> Kind:
    for kind in KINDS:
        if kind.name == name:
            return kind
    raise WrongUse(f"there is no kind {name}")


def reduction_named(name: str) -> Reduction:
    for reduction in REDUCTIONS:
        if reduction.name == name:
            return reduction
    raise WrongUse(f"there is no reduction {name}")


def row_of(kind: Kind, coordinates: Sequence[int]) -> Row:
    if kind != BOX:
        return tuple((flow,) for flow in coordinates)
    if len(coordinates) % 2:
        raise WrongUse("a box has two coordinates a point")
    return tuple(zip(coordinates[0::2], coordinates[1::2]))


def asked(arguments: Sequence[str]) -> tuple[Terms, Row]:
    if len(arguments) < 4:
        raise WrongUse("there are fewer than four arguments")
    kind, reduction = kind_named(arguments[0]), reduction_named(arguments[1])
    tolerance, depth, *coordinates = map(number_of_argument, arguments[2:])
    return Terms(kind, reduction, tolerance, depth), row_of(kind, coordinates)


def arguments_of(terms: Terms, row: Row) -> list[str]:
    """The arguments that ask for this."""
    numbers = [terms.tolerance, terms.depth]
    numbers += [coordinate for point in row for coordinate in point]
    return [terms.kind.name, terms.reduction.name, *map(str, numbers)]


# --- The answer


def points_text(reduction: Reduction, piece: Piece) -> str:
    start, middle, end = map(point_text, (piece.start, piece.middle, piece.end))
    if reduction.degree == 1:
        return f"{start} to {end}"
    return f"{start} by {middle} to {end}"


def piece_line(reduction: Reduction, piece: Piece) -> str:
    depth, index = piece.cell
    return f"cell {depth} {index}: degree {reduction.degree}, {points_text(reduction, piece)}"


def counted(number: int, what: str) -> str:
    return f"{number} {what}" if number == 1 else f"{number} {what}s"


def count_line(answer: Fitted) -> str:
    legs, cells = len(answer.pieces), answer.cells_tested
    return f"{counted(legs, 'leg')}, {counted(cells, 'cell')} tested"


def refusal_line(refusal: Refusal) -> str:
    return f"refused {refusal.number}: {WORDS[refusal.number].format(refusal.names)}"


def fit(arguments: Sequence[str]) -> tuple[str, int]:
    """What fit prints on standard output, and its exit status."""
    terms, row = asked(arguments)
    answer = fitted(terms, row)
    if isinstance(answer, Refusal):
        return refusal_line(answer) + "\n", 1
    lines = [piece_line(terms.reduction, piece) for piece in answer.pieces]
    return "\n".join([*lines, count_line(answer)]) + "\n", 0
