"""Holds the calls for C to the second reader."""

from __future__ import annotations

from collections.abc import Sequence
from dataclasses import dataclass
from random import Random

from card import (
    FLOW,
    GREATEST_TICK,
    Card,
    Refusal,
    check_call,
    last_tick,
    number_octets,
    read,
    value_call,
)
from differences import Differences, print_if_none, run
from drafts import Sample

CASES_IN_A_RUN = 1_000
# Above these, asking for every tick would take the second reader too long.
EVERY_TICK_UP_TO = 64
EVERY_TICK_LEGS = 40


@dataclass(frozen=True)
class Ask:
    tick: int
    result_length: int

    def octets(self) -> bytes:
        return number_octets(self.tick, 4) + number_octets(self.result_length, 1)


@dataclass(frozen=True)
class Case:
    sample: Sample
    asks: Sequence[Ask]

    def octets(self) -> bytes:
        card = self.sample.octets
        asks = b"".join(ask.octets() for ask in self.asks)
        return number_octets(len(card), 4) + card + number_octets(len(self.asks), 4) + asks

    def expected(self) -> list[str]:
        card = self.sample.octets
        lines = [f"check {check_call(card)}"]
        for ask in self.asks:
            pattern = bytes((0xA5 + i) % 256 for i in range(ask.result_length))
            answer, result = value_call(card, ask.tick, pattern)
            lines.append(f"value {answer} {result.hex() or '-'}")
        return lines


def asked_ticks(rng: Random, card: Card | Refusal) -> list[int]:
    if isinstance(card, Refusal) or card.kind != FLOW:
        return [0, rng.choice((1, GREATEST_TICK, rng.randrange(100)))]
    last = last_tick(card.legs)
    ends = [0, 1, last // 2, last - 1, last, last + 1, last + 2, GREATEST_TICK]
    drawn = [rng.randint(0, last), rng.randint(0, last), rng.randint(0, GREATEST_TICK)]
    # Past the turn, but tick 0 to a reader that works in 16 or in 32 bits.
    wrapped = [2**16, *(2 ** (32 - leg.depth) for leg in card.legs[:1])]
    every: Sequence[int] = ()
    if last <= EVERY_TICK_UP_TO and len(card.legs) <= EVERY_TICK_LEGS:
        every = range(last + 1)
    asked = {*ends, *drawn, *wrapped, *every}
    return sorted(tick for tick in asked if 0 <= tick <= GREATEST_TICK)


def case_of(rng: Random, sample: Sample) -> Case:
    lengths = (8, 8, 8, 8, 8, 8, 8, 9, 12, 7, 0)
    ticks = asked_ticks(rng, read(sample.octets))
    asks = [Ask(tick, 8) for tick in ticks]
    asks += [Ask(rng.choice(ticks), rng.choice(lengths)), Ask(rng.choice(ticks), 12)]
    asks.append(Ask(rng.choice(ticks), rng.choice((0, 7))))
    return Case(sample, asks)


def answers_of(program: str, cases: Sequence[Case], found: Differences) -> list[list[str]]:
    """The lines that the program prints for each case."""
    stream = b"".join(case.octets() for case in cases)
    out, status, error = run(program, [], stream)
    if status != 0:
        found.tell("how the calls ended", None, "status 0", f"status {status}\n{error}")
    answers: list[list[str]] = []
    for line in out.splitlines():
        if line.startswith("check ") or not answers:
            answers.append([])
        answers[-1].append(line)
    return answers


def compare_calls(program: str, samples: Sequence[Sample], rng: Random, found: Differences) -> None:
    values = 0
    for at in range(0, len(samples), CASES_IN_A_RUN):
        cases = [case_of(rng, sample) for sample in samples[at : at + CASES_IN_A_RUN]]
        answers = answers_of(program, cases, found)
        for i, case in enumerate(cases):
            came = answers[i] if i < len(answers) else []
            tell_case(case, came, found)
            values += len(case.asks)
    told = f"{len(samples)} cards, {values} values"
    print_if_none(found, f"calls: {told}: all as the second reader says")


def tell_case(case: Case, came: list[str], found: Differences) -> None:
    expected = case.expected()
    if came == expected:
        return
    calls = ["the check", *(str(ask) for ask in case.asks)]
    for call, right, line in zip(calls, expected, [*came, *["nothing"] * len(expected)]):
        if right != line:
            found.tell(f"{case.sample.name}, {call}", case.sample.octets, right, line)
            return
    found.tell(case.sample.name, case.sample.octets, "no more lines", str(came[len(expected) :]))
