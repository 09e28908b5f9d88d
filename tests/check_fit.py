"""Holds fit to the second fitting of curves."""

from __future__ import annotations

from collections.abc import Iterator, Sequence
from pathlib import Path
from random import Random

import make_plan_examples
from card import Refusal
from curves import fitted
from curves_samples import Curve
from differences import Differences, check_usage, print_if_none, run
from doc_examples import usage
from fit_text import WrongUse, arguments_of, fit

# Of each kind, reduction and degree, so many curves with legs and so many that are too
# bent; of each kind and number, so many that are refused before.
CURVES_WITH_LEGS = 5
CURVES_TOO_BENT = 2
CURVES_REFUSED = 6


# What curves have in common, of which some are chosen.
Sort = tuple[object, ...]


def compare_fit_run(program: str, arguments: Sequence[str], found: Differences) -> None:
    expected = fit(arguments)
    out, status, error = run(program, arguments)
    if (out, status) != expected:
        what = f"fit {' '.join(arguments)}"
        found.tell(what, None, str(expected), f"{(out, status)}, on standard error {error!r}")


def compare_folder(folder: Path, files: dict[str, bytes], found: Differences) -> None:
    """The files in the folder are what would be written now."""
    present = {path.name: path.read_bytes() for path in folder.iterdir()}
    for name in sorted(present.keys() | files.keys()):
        right, came = files.get(name), present.get(name)
        if right != came:
            found.tell(f"examples/{folder.name}/{name}", None, str(right), str(came))


def compare_examples(program: str, found: Differences) -> None:
    compare_folder(make_plan_examples.FITS, make_plan_examples.fit_files(), found)
    examples = make_plan_examples.fit_arguments()
    for arguments in examples.values():
        compare_fit_run(program, arguments, found)
    print_if_none(found, f"fit: {len(examples)} examples: all as written")


def by_sort(curves: Sequence[Curve]) -> tuple[dict[Sort, list[Curve]], ...]:
    """The curves with legs, those too bent, and those refused before, each by their sort."""
    legs: dict[Sort, list[Curve]] = {}
    bent: dict[Sort, list[Curve]] = {}
    refused: dict[Sort, list[Curve]] = {}
    for curve in curves:
        terms, points = curve.terms, len(curve.points)
        if curve.meant is not None:
            refused.setdefault((terms.kind, curve.meant.number), []).append(curve)
            continue
        is_bent = isinstance(fitted(terms, curve.points), Refusal)
        curves_like = bent if is_bent else legs
        curves_like.setdefault((terms.kind, terms.reduction, points), []).append(curve)
    return legs, bent, refused


def chosen_curves(rng: Random, curves: Sequence[Curve]) -> Iterator[Curve]:
    """The deep ones, and some of each sort: a run for every curve would take long."""
    yield from (curve for curve in curves if 7 <= curve.terms.depth <= 10)
    numbers = (CURVES_WITH_LEGS, CURVES_TOO_BENT, CURVES_REFUSED)
    for sorts, number in zip(by_sort(curves), numbers):
        for group in sorts.values():
            yield from rng.sample(group, min(number, len(group)))


def compare_curves(program: str, curves: Sequence[Curve], rng: Random, found: Differences) -> None:
    chosen = list(chosen_curves(rng, curves))
    for curve in chosen:
        compare_fit_run(program, arguments_of(curve.terms, curve.points), found)
    print_if_none(found, f"fit: {len(chosen)} curves: all as the second fitting says")


# Numbers that are no usual ones, but are taken.
NUMBERS = ("+5", "005", "+005", "-0", "+0", "00", "-00", "0" * 300 + "5", "-" + "0" * 300)
LARGE = (2**31, 2**31 + 1, 2**32, 2**53 + 1, 2**63 - 1, -(2**31), -(2**31) - 1, -(2**63))
NO_NUMBERS = ("", "+", "-", "x", "1x", "1.0", "1,0", "1e1", "0x1", "--1", "+-1", "1-", " 1", "1 ")
NO_NUMBERS += ("1_0", "\u0663", "\xb2", str(2**63), str(-(2**63) - 1), str(2**64 + 1), "9" * 300)


def number_arguments() -> Iterator[list[str]]:
    """Each such number as each argument."""
    for word in (*NUMBERS, *map(str, LARGE)):
        yield ["flow", "chord", word, "1", "0", "5"]
        yield ["flow", "matching", "10", word, "0", "5", "7"]
        yield ["flow", "chord", "10", "1", "0", word]


def wrong_arguments() -> Iterator[list[str]]:
    good = ["flow", "chord", "10", "1", "0", "5"]
    for number in range(4):
        yield good[:number]
    for kind in ("", "Flow", "FLOW", "flows", "flow ", " flow", "1", "canal", "chord"):
        yield [kind, *good[1:]]
    for reduction in ("", "Chord", "chords", "chord ", " chord", "arc", "1", "flow"):
        yield [good[0], reduction, *good[2:]]
    for i, word in enumerate(NO_NUMBERS):
        for at in (2 + i % 2, 4 + i % 2):
            yield [*good[:at], word, *good[at + 1 :]]
    for odd in (["3"], ["3", "4", "5"], [str(2**31 + 1)]):
        yield ["box", "chord", "10", "1", *odd]
        # Refused too, if it were not wrong use.
        yield ["box", "chord", "0", "11", *odd]


def is_wrong_use(arguments: Sequence[str]) -> bool:
    try:
        fit(arguments)
    except WrongUse:
        return True
    return False


def expect_wrong_use(program: str, arguments: Sequence[str], found: Differences) -> None:
    """Status 1, a message on standard error, and nothing printed."""
    assert is_wrong_use(arguments), arguments
    out, status, error = run(program, arguments)
    if (out, status) != ("", 1) or not error:
        came = f"{(out, status)}, on standard error {error!r}"
        found.tell(f"fit {arguments}", None, "status 1, and only a message on standard error", came)


def check_arguments(program: str, found: Differences) -> None:
    numbers = list(number_arguments())
    for arguments in numbers:
        compare_fit_run(program, arguments, found)
    wrong = list(wrong_arguments())
    for arguments in wrong:
        expect_wrong_use(program, arguments, found)
    check_usage(program, usage("curves.md", "fit"), found)
    told = f"{len(numbers)} uses of unusual numbers, {len(wrong)} wrong uses"
    print_if_none(found, f"fit: {told}: all as said")


def check_fit(program: str, curves: Sequence[Curve], rng: Random, found: Differences) -> None:
    compare_examples(program, found)
    compare_curves(program, curves, rng, found)
    check_arguments(program, found)
