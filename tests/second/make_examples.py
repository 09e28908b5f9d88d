"""Writes the example cards, and beside each what gate prints of it."""

from __future__ import annotations

from dataclasses import replace
from fractions import Fraction
from pathlib import Path

from card import BOX, FLOW, Leg, Point, write
from drafts import Cell, Span, draft, legs_at, places
from gate_text import gate

EXAMPLES = Path(__file__).resolve().parents[2] / "examples"
GRAINS_OF_A_LITRE = 65_536

Litres = tuple[float, ...]
# A cell, the middle where the leg is quadratic, and the end.
Piece = tuple[Cell, Litres | None, Litres]

TWO_HALVES = (
    Leg(0, 4, 1, 0, 2, (0,), (-2,), (8,)),
    Leg(0, 4, 1, 1, 2, (8,), (18,), (64,)),
)

LONG_TURN: list[tuple[int, list[Piece]]] = [
    # The gate opens, to 30 litres a second.
    (12, [((2, 0), (0,), (6,)), ((2, 1), None, (18,)), ((1, 1), (30,), (30,))]),
    (16, [((0, 0), None, (30,))]),
    # A neighbour takes some of it for a while.
    (
        10,
        [
            ((2, 0), (30,), (27,)),
            ((3, 2), None, (24,)),
            ((3, 3), (22.5,), (22.5,)),
            ((3, 4), (22.5,), (24,)),
            ((3, 5), None, (27,)),
            ((2, 3), (30,), (30,)),
        ],
    ),
    # The canal sinks, and the gate closes.
    (8, [((0, 0), None, (25,))]),
    (9, [((1, 0), (25,), (15,)), ((2, 2), None, (5,)), ((2, 3), (0,), (0,))]),
]

BOX_TURN: list[tuple[int, list[Piece]]] = [
    (6, [((1, 0), (0, 0), (6, 3)), ((1, 1), (12, 6), (12, 6))]),
    # The larger share goes over from the left branch to the right one.
    (5, [((0, 0), None, (8, 10))]),
    (4, [((1, 0), (8, 10), (4, 5)), ((1, 1), (0, 0), (0, 0))]),
]


def grains(litres: Litres) -> Point:
    exact = [Fraction(coordinate) * GRAINS_OF_A_LITRE for coordinate in litres]
    assert all(coordinate.denominator == 1 for coordinate in exact)
    return tuple(int(coordinate) for coordinate in exact)


def turn(start: Litres, drawn: list[tuple[int, list[Piece]]]) -> tuple[Leg, ...]:
    spans = [Span(ticks, [cell for cell, _, _ in pieces]) for ticks, pieces in drawn]
    points, degrees = [start], []
    for _, pieces in drawn:
        for _, middle, end in pieces:
            degrees.append(1 if middle is None else 2)
            points += [end] if middle is None else [middle, end]
    in_grains = map(grains, points)
    each = iter(degrees)
    return legs_at(places(spans), lambda: next(in_grains), lambda: next(each))


def cards() -> dict[str, bytes]:
    two_halves = write(FLOW, TWO_HALVES, 80)
    long_turn = draft(FLOW, turn((0,), LONG_TURN), room=24)
    box_turn = turn((0, 0), BOX_TURN)
    elsewhere = grains((25,))
    return {
        "two-halves": two_halves,
        "long-turn": write(FLOW, long_turn.legs, len(long_turn.octets())),
        "box-turn": write(BOX, box_turn, 8 + 60 * len(box_turn)),
        "empty": write(FLOW, (), 80),
        "cut-short": two_halves[:-6],
        "broken-chain": long_turn.with_leg(5, start=elsewhere, middle=elsewhere).octets(),
        "trailing-octet": replace(draft(FLOW, TWO_HALVES), room=b"\0\0\0\1").octets(),
    }


def files() -> dict[str, bytes]:
    """The name and the content of every file."""
    written = {}
    for name, octets in cards().items():
        text, _ = gate(octets)
        written[f"{name}.card"] = octets
        written[f"{name}.txt"] = text.encode("ascii")
    return written


def main() -> None:
    EXAMPLES.mkdir(exist_ok=True)
    for name, content in files().items():
        (EXAMPLES / name).write_bytes(content)


if __name__ == "__main__":
    main()
