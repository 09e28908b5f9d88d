"""Holds the real programs to the second implementation: the calls for C, gate, trial,
fit, drafts, plan, plan_card, bench_curves and bench_texts.

    python3 tests/compare.py [--calls PROGRAM] [--gate PROGRAM] [--trial PROGRAM]
        [--fit PROGRAM] [--drafts PROGRAM] [--plan PROGRAM] [--plan-card PROGRAM]
        [--bench PROGRAM] [--bench-texts PROGRAM] [--seed N]

Only the programs that are given are compared, and the last line names the others. The
program for --calls is tests/c/card_calls.c, linked with the library; the lines that
trial takes are told in tests/second/trials.py. Each group of checks prints a line; at
the first few differences all stops, with status 1.
"""

from __future__ import annotations

import argparse
import sys
from pathlib import Path
from random import Random

sys.path.insert(0, str(Path(__file__).resolve().parent / "second"))

import selfcheck
from cards import DEFAULT_SEED
from check_bench import check_bench, check_bench_texts
from check_calls import compare_calls
from check_drafts import compare_drafts
from check_fit import check_fit
from check_gate import check_gate
from check_plan import check_plan, check_plan_card
from check_trial import compare_trials
from differences import MOST_DIFFERENCES, Differences
from turn_scripts import all_turn_scripts


PROGRAMS = {
    "calls": "card_calls.c, linked with the library",
    "gate": "the program gate",
    "trial": "the program trial",
    "fit": "the program fit",
    "drafts": "the program drafts",
    "plan": "the program plan",
    "plan_card": "the program plan_card",
    "bench": "the program bench_curves",
    "bench_texts": "the program bench_texts",
}


def arguments() -> argparse.Namespace:
    parser = argparse.ArgumentParser(description="Holds the real programs to the second ones.")
    for name, what in PROGRAMS.items():
        parser.add_argument(f"--{name.replace('_', '-')}", metavar="PROGRAM", help=what)
    parser.add_argument("--seed", type=int, default=DEFAULT_SEED)
    given = parser.parse_args()
    for name in PROGRAMS:
        if getattr(given, name) is None:
            continue
        program = Path(getattr(given, name))
        if not program.is_file():
            parser.error(f"there is no program {program}")
        setattr(given, name, str(program.resolve()))
    if len(not_given(given)) == len(PROGRAMS):
        parser.error("no program is given")
    return given


def not_given(given: argparse.Namespace) -> list[str]:
    return [name for name in PROGRAMS if getattr(given, name) is None]


def compare(given: argparse.Namespace, samples: selfcheck.Samples, found: Differences) -> None:
    """Each program with samples of its own, whichever others are given."""
    if given.calls:
        compare_calls(given.calls, samples.cards, Random(given.seed), found)
    if given.gate:
        check_gate(given.gate, samples.cards, Random(given.seed), found)
    if given.trial:
        compare_trials(given.trial, samples.scripts, found)
    if given.fit:
        check_fit(given.fit, samples.curves, Random(given.seed), found)
    if given.drafts:
        compare_drafts(given.drafts, all_turn_scripts(given.seed, samples.turn_lists), found)
    if given.plan:
        check_plan(given.plan, samples.texts, found)
    if given.plan_card:
        check_plan_card(given.plan_card, samples.texts, Random(given.seed), found)
    if given.bench:
        check_bench(given.bench, found)
    if given.bench_texts:
        check_bench_texts(given.bench_texts, found)


def main() -> int:
    given = arguments()
    samples = selfcheck.all_of(given.seed)
    faults = selfcheck.faults(samples)
    if faults:
        print(*faults[:MOST_DIFFERENCES], sep="\n")
        return 1
    print(selfcheck.summary(samples), flush=True)
    found = Differences()
    compare(given, samples, found)
    if not_given(given):
        print(f"not compared, since not given: {', '.join(not_given(given))}")
    return 1 if found.number else 0


if __name__ == "__main__":
    sys.exit(main())
