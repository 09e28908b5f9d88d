"""Holds the second implementation to itself, to what the test samples are meant to
give, to what is promised, and to the examples of docs/."""

from __future__ import annotations

import sys
from collections.abc import Iterator, Sequence
from dataclasses import dataclass
from random import Random

from card import (
    FLOW,
    Card,
    Leg,
    Refusal,
    check_call,
    coordinate_octets,
    covers,
    leg_value,
    read,
    value_call,
    write,
)
from cards import DEFAULT_SEED, all_samples
from curves_check import curve_claims, curve_fault
from curves_samples import Curve, all_curves
from drafts import Sample
from gate_text import gate, refusal_text
from make_examples import TWO_HALVES
from outlet_check import outlet_claims, script_fault, writing_fault
from text_samples import Text, all_texts
from texts_check import text_claims, text_fault
from trials import Script, all_scripts
from turn_samples import TurnList, all_turn_lists
from turns_check import turn_claims, turn_list_fault

# From card.md.
TWO_HALVES_OCTETS = bytes.fromhex(
    "01 01 00 24 00 00 00 02"
    "00 00 00 00 00 04 01 02 00 00 00 00"
    "00 00 00 00 00 00 00 00"
    "ff ff ff ff ff ff ff fe"
    "00 00 00 00 00 00 00 08"
    "00 00 00 00 00 04 01 02 00 01 00 00"
    "00 00 00 00 00 00 00 08"
    "00 00 00 00 00 00 00 12"
    "00 00 00 00 00 00 00 40"
)

# From gate.md.
TWO_HALVES_TEXT = """\
flow card, 2 legs, ticks 0 to 4
leg 0: from 0, ticks 4, cell 1 0, degree 2, start 0, middle -2, end 8
leg 1: from 0, ticks 4, cell 1 1, degree 2, start 8, middle 18, end 64
"""
TICK_LINES = "tick 0: 0\ntick 1: 1\ntick 2: 8\ntick 3: 27\ntick 4: 64\n"
TICK_5_LINE = "tick 5: refused 16: the tick is past the last leg, or the card has no leg\n"
REFUSAL_LINES = {
    Refusal(24, 3): "refused 24 at record 3: a field that no leg has,"
    " or a spare octet that is not zero",
    Refusal(21): "refused 21: the card has fewer than eight octets",
}

# From legs.md.
COORDINATE_OCTETS = {
    0: "00 00 00 00 00 00 00 00",
    1: "00 00 00 00 00 00 00 01",
    -1: "ff ff ff ff ff ff ff ff",
    -2: "ff ff ff ff ff ff ff fe",
    8_589_934_592: "00 00 00 02 00 00 00 00",
    -8_589_934_592: "ff ff ff fe 00 00 00 00",
}


def told(octets: bytes, tick: int) -> int | str:
    """The value that the call for C puts into the result, or its refusal."""
    answer, result = value_call(octets, tick, bytes(8))
    return int.from_bytes(result, "big", signed=True) if answer == 0 else f"refused {answer}"


def doc_claims() -> Iterator[tuple[str, bool]]:
    """What docs/ says, each with whether it is so here."""
    card = TWO_HALVES_OCTETS
    yield "card.md: the example", write(FLOW, TWO_HALVES, 80) == card
    yield "card.md: the example read", read(card) == Card(FLOW, TWO_HALVES)
    yield "c-calls.md: the example is accepted", check_call(card) == 0
    values = [told(card, tick) for tick in range(6)]
    yield "c-calls.md: the values", values == [0, 1, 8, 27, 64, "refused 16"]
    yield "c-calls.md: short result first", value_call(b"", 9, bytes(7)) == (18, bytes(7))
    yield "gate.md: the example", gate(card) == (TWO_HALVES_TEXT + TICK_LINES, 0)
    yield "gate.md: tick 5", gate(card, [5]) == (TWO_HALVES_TEXT + TICK_5_LINE, 1)
    for refusal, line in REFUSAL_LINES.items():
        yield f"gate.md: refusal {refusal.number}", refusal_text(refusal) == line
    for coordinate, octets in COORDINATE_OCTETS.items():
        same = coordinate_octets(coordinate) == bytes.fromhex(octets)
        yield f"legs.md: octets of {coordinate}", same
    falling = Leg(0, 2, 0, 0, 1, (0,), (0,), (-1,))
    yield "legs.md: -1/2 becomes -1", leg_value(falling, 1) == (-1,)
    yield from outlet_claims()
    yield from curve_claims()
    yield from turn_claims()
    yield from text_claims()


def legs_meet(legs: Sequence[Leg]) -> bool:
    """Whether legs that meet at a whole tick tell the same there."""
    for leg, follower in zip(legs, legs[1:]):
        tick = leg.from_ + (leg.index + 1) * leg.ticks // 2**leg.depth
        if covers(leg, tick) and covers(follower, tick):
            if leg_value(leg, tick) != leg_value(follower, tick):
                return False
    return True


def sample_fault(sample: Sample) -> str | None:
    answer = read(sample.octets)
    if sample.meant is not None and answer != sample.meant:
        return f"meant to give {sample.meant}, but gives {answer}"
    if isinstance(answer, Refusal):
        return None
    if write(answer.kind, answer.legs, len(sample.octets)) != sample.octets:
        return "is not what writing its legs gives"
    if not legs_meet(answer.legs):
        return "has legs that meet and tell different values"
    return writing_fault(answer, sample.octets)


@dataclass(frozen=True)
class Samples:
    """All the test samples, the same for the same seed."""

    seed: int
    cards: list[Sample]
    scripts: list[Script]
    curves: list[Curve]
    turn_lists: list[TurnList]
    texts: list[Text]


def all_of(seed: int) -> Samples:
    return Samples(
        seed=seed,
        cards=all_samples(seed),
        scripts=all_scripts(seed),
        curves=all_curves(seed),
        turn_lists=all_turn_lists(seed),
        texts=all_texts(seed),
    )


def faults(samples: Samples) -> list[str]:
    found = [f"docs: not so: {claim}" for claim, holds in doc_claims() if not holds]
    for sample in samples.cards:
        fault = sample_fault(sample)
        if fault is not None:
            found.append(f"{sample.name} {fault}: {sample.octets.hex()}")
    rng = Random(samples.seed)
    found += filter(None, map(script_fault, samples.scripts))
    found += filter(None, (curve_fault(rng, curve) for curve in samples.curves))
    found += filter(None, map(turn_list_fault, samples.turn_lists))
    found += filter(None, map(text_fault, samples.texts))
    return found


def summary(samples: Samples) -> str:
    meant = sum(sample.meant is not None for sample in samples.cards)
    meant_texts = sum(text.meant is not None for text in samples.texts)
    return (
        f"second reader: {len(samples.cards)} test cards, {meant} of them with a known answer:"
        " all as meant, and as docs/ says\n"
        f"second outlets: {len(samples.scripts)} scripts: they hold the lists that they should,"
        " and accepted cards are written again octet for octet\n"
        f"second curves: {len(samples.curves)} curves: the fewest cells of any division, and the"
        " tolerance kept at moments drawn at random\n"
        f"second turns: {len(samples.turn_lists)} lists of calls: each answered by the first"
        " reason to refuse, and all that is promised after each\n"
        f"second plan texts: {len(samples.texts)} texts, {meant_texts} of them with known"
        " refusals: all as meant, as docs/ says, and the cards are those of the printed legs"
    )


def main() -> int:
    samples = all_of(DEFAULT_SEED)
    found = faults(samples)
    for fault in found[:5]:
        print(fault)
    if not found:
        print(summary(samples))
    return 1 if found else 0


if __name__ == "__main__":
    sys.exit(main())
