"""The plan texts of the benchmark of texts, and what its programs print of them but for
their last line, by the comment at the head of tests/bench/plain_texts.rs.

    python3 tests/second/bench_plans.py texts >FILE
    python3 tests/second/bench_plans.py few >crates/bench_texts/stdin
    python3 tests/second/bench_plans.py lines <FILE

The texts are the same each time. Each is ended by a zero octet.
"""

from __future__ import annotations

import sys
from collections.abc import Sequence
from itertools import product
from random import Random

from bench_text import CHECKSUM_MODULUS
from card import BOX, KINDS, Kind, Point
from curves import LIMIT, MATCHING, REDUCTIONS, Reduction, Row, Terms, divided, least_tolerance
from curves_samples import SORTS, degrees_of, drawn_row
from doc_examples import plan_examples
from plan_text import MOST_LEGS, MOST_OCTETS, plan
from text_samples import SEAL, STRIKE, sealed_text, span_text, turn_text, typed

SEED = 20_261
TEXTS_OF_A_SORT = 75

# --- Turns of some tens of spans

PLANNED_SORTS = ("small", "of litres", "walk", "long walk", "nearly straight", "ramp")
MOST_SPANS = 40
HELD, SLIPS, STRIKES = 0.25, 0.2, 0.25


def chained_rows(rng: Random, kind: Kind, reduction: Reduction) -> list[Row]:
    """Curves that go on from one another. Some are held."""
    sort = SORTS[rng.choice(PLANNED_SORTS)]
    rows: list[Row] = []
    for _ in range(rng.randint(5, MOST_SPANS)):
        row = drawn_row(rng, kind, rng.choice(degrees_of(reduction)) + 1, sort)
        begins = rows[-1][-1] if rows else row[0]
        rows.append((begins,) * 3 if rng.random() < HELD else (begins, *row[1:]))
    return rows


def rows_with_room(terms: Terms, rows: Sequence[Row]) -> list[Row]:
    """The first of the curves, as many as a turn has room for."""
    kept, legs = [], 0
    for row in rows:
        found = divided(terms, row)
        assert found is not None, "the tolerance is enough for each curve"
        legs += len(found.pieces)
        if legs > MOST_LEGS:
            break
        kept.append(row)
    return kept


def slip(rng: Random, terms: Terms, row: Row, turn: str) -> str:
    """A line that is refused, before a span with these points."""
    zeros = (0,) * terms.kind.coordinates
    far: Point = (LIMIT,) * terms.kind.coordinates
    low: Point = (-LIMIT,) * terms.kind.coordinates
    return rng.choice(
        (
            "",
            turn,
            SEAL,
            f"{span_text(1, row)} ",
            span_text(1, row)[:-1],
            span_text(1, [*row[:-1], (*row[-1], 0)[:3]]),
            span_text(0, row),
            span_text(4_097, row),
            span_text(1, row[:1]),
            span_text(1, [*row, *[zeros] * 9]),
            span_text(1, [row[0], *[(LIMIT + 1, *zeros[1:])] * 2]),
            span_text(1, [tuple(number + 1 for number in row[0]), *row[1:], zeros][:9]),
            span_text(1, [row[0], far, low, far, low, row[0]]),
        )
    )


def lines_of_turn(rng: Random, terms: Terms, rows: Sequence[Row]) -> list[str]:
    """The lines of a sealed turn, in some texts with lines that are refused, and in some
    with spans that are struck and laid again."""
    ticks = [rng.randint(1, rng.choice((9, 60, 1_600))) for _ in rows]
    turn = turn_text(terms.kind, terms.reduction, terms.tolerance, terms.depth, sum(ticks))
    slips, strikes = rng.random() < SLIPS, rng.random() < STRIKES
    lines = [turn]
    for row, lasts in zip(rows, ticks):
        if slips and rng.random() < 0.2:
            lines.append(slip(rng, terms, row, turn))
        span = span_text(lasts, row)
        lines += [span, STRIKE, span] if strikes and rng.random() < 0.2 else [span]
    return [*lines, SEAL]


def planned_text(rng: Random, kind: Kind, reduction: Reduction) -> bytes:
    rows = chained_rows(rng, kind, reduction)
    depth = rng.randint(1, 4)
    enough = max(least_tolerance(kind, reduction, depth, row) for row in rows)
    within = min(LIMIT, max(1, enough) * rng.choice((1, 1, 2)))
    terms = Terms(kind, reduction, within, depth)
    text = typed(*lines_of_turn(rng, terms, rows_with_room(terms, rows)))
    assert len(text) <= MOST_OCTETS, len(text)
    return text


def bench_texts() -> list[bytes]:
    rng = Random(SEED)
    return [
        planned_text(rng, kind, reduction)
        for _ in range(TEXTS_OF_A_SORT)
        for kind, reduction in product(KINDS, REDUCTIONS)
    ]


def few_texts() -> list[bytes]:
    """The texts of plan-text.md, and one more."""
    examples = [text for text, _ in plan_examples()]
    return [*examples, sealed_text(Random(SEED), BOX, MATCHING).octets]


# --- What is printed of them


def with_octets(checksum: int, octets: bytes) -> int:
    for octet in octets:
        checksum = (31 * checksum + octet) % CHECKSUM_MODULUS
    return checksum


def bench_lines(texts: Sequence[bytes]) -> str:
    octets = cards = checksum = 0
    for planned in map(plan, texts):
        octets += len(planned.printed)
        checksum = with_octets(checksum, planned.printed)
        if planned.card is not None:
            cards += 1
            checksum = with_octets(checksum, planned.card)
    return f"texts {len(texts)}\noctets printed {octets}\ncards {cards}\nchecksum {checksum}\n"


def main(asked: str) -> None:
    if asked == "lines":
        *texts, rest = sys.stdin.buffer.read().split(b"\0")
        assert not rest, "the last text is not ended by a zero octet"
        sys.stdout.write(bench_lines(texts))
        return
    texts = {"texts": bench_texts, "few": few_texts}[asked]()
    sys.stdout.buffer.write(b"".join(text + b"\0" for text in texts))


if __name__ == "__main__":
    main(sys.argv[1])
