"""What gate prints, by gate.md."""

from __future__ import annotations

from collections.abc import Sequence

from card import FLOW, WORDS, Leg, Point, Refusal, last_tick, read, value_at


class WrongUse(Exception):
    """gate is asked for what it does not do; it says so on standard error."""


def point_text(point: Point) -> str:
    if len(point) == 1:
        return str(point[0])
    return "(" + ", ".join(map(str, point)) + ")"


def leg_line(i: int, leg: Leg) -> str:
    return (
        f"leg {i}: from {leg.from_}, ticks {leg.ticks}, "
        f"cell {leg.depth} {leg.index}, degree {leg.degree}, "
        f"start {point_text(leg.start)}, middle {point_text(leg.middle)}, "
        f"end {point_text(leg.end)}"
    )


def refusal_text(refusal: Refusal) -> str:
    place = "" if refusal.names is None else f" at record {refusal.names}"
    return f"refused {refusal.number}{place}: {WORDS[refusal.number]}"


def gate(octets: bytes, ticks: Sequence[int] = ()) -> tuple[str, int]:
    """What gate prints on standard output, and its exit status."""
    card = read(octets)
    if isinstance(card, Refusal):
        return refusal_text(card) + "\n", 1
    if card.kind != FLOW and ticks:
        raise WrongUse("values are told of flow cards alone")
    last = last_tick(card.legs)
    legs = "1 leg" if len(card.legs) == 1 else f"{len(card.legs)} legs"
    lines = [f"{card.kind.name} card, {legs}, ticks 0 to {last}"]
    lines += [leg_line(i, leg) for i, leg in enumerate(card.legs)]
    status = 0
    every_tick = range(last + 1) if card.kind == FLOW and card.legs else range(0)
    for tick in ticks or every_tick:
        value = value_at(card.legs, tick)
        if isinstance(value, Refusal):
            lines.append(f"tick {tick}: {refusal_text(value)}")
            status = 1
        else:
            lines.append(f"tick {tick}: {point_text(value)}")
    return "\n".join(lines) + "\n", status
