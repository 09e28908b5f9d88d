"""Holds bench_curves to the second drawing of its curves, and the second fitting of them, and
bench_texts to the second answers of its texts."""

from __future__ import annotations

import re
import time
from collections.abc import Sequence

from bench_plans import bench_lines, few_texts
from bench_text import bench_text
from differences import Differences, print_if_none, run

# Some of them take long here. After 210 curves a checksum that kept the sign would be negative.
NUMBERS = (0, 1, 2, 3, 100, 210)
# So many that a run spends most of its time on them.
MANY_CURVES = 200_000
ROUNDS = (1, 3, 5_000)
# A program counts the time of less than its whole run, but not of so much less.
MOST_TIMES_FASTER = 30
NO_NUMBERS = ("", "x", "-1", "1.5", " 1", "1 ", "0x1", "\u0663", "--help", str(2**64))
TOO_MANY_WORDS = (["1", "1"], ["1", ""], ["1", "2", "3"])
NOT_ENDED = (b"", b"x", b"(seal)\n", b"(seal)\n\0(seal)\n", b"\0 ")


def rate_of(line: str, what: str) -> int | None:
    told = re.fullmatch(f"{what} a second ([0-9]+)\n", line)
    return int(told[1]) if told else None


def compare_bench_run(program: str, number: int, found: Differences) -> None:
    """The curves took no longer than the whole run, so as many a second were laid at least."""
    expected = bench_text(number)
    begun = time.monotonic()
    out, status, error = run(program, [str(number)])
    seconds = time.monotonic() - begun
    rate = rate_of(out.removeprefix(expected), "curves")
    fast_enough = rate is not None and rate >= int(number / seconds)
    if status != 0 or error or not out.startswith(expected) or not fast_enough:
        came = f"{out!r}, status {status}, {seconds} seconds, on standard error {error!r}"
        right = f"status 0, {expected!r} and the curves a second"
        found.tell(f"bench_curves {number}", None, right, came)


def likely_rate(rate: int | None, number: int, seconds: float) -> bool:
    """Whether so many things in a run that took so long make this number a second."""
    least = int(number / seconds)
    return rate is not None and least <= rate <= MOST_TIMES_FASTER * (least + 1)


def compare_long_run(program: str, found: Differences) -> None:
    """Of so many curves only the first line and the last are compared."""
    begun = time.monotonic()
    out, status, error = run(program, [str(MANY_CURVES)])
    seconds = time.monotonic() - begun
    last = out.splitlines(keepends=True)[-1] if out else ""
    right = out.startswith(f"curves {MANY_CURVES}\n") and status == 0 and not error
    if not right or not likely_rate(rate_of(last, "curves"), MANY_CURVES, seconds):
        came = f"{out!r}, status {status}, {seconds} seconds, on standard error {error!r}"
        found.tell(f"bench_curves {MANY_CURVES}", None, "the curves a second in so long", came)


def compare_refused(
    program: str, arguments: Sequence[str], given: bytes, message: str, found: Differences
) -> None:
    came = run(program, arguments, given)
    if came != ("", 1, message):
        right = f"status 1, and only {message!r}"
        found.tell(f"{arguments}, given {given!r}", None, right, str(came))


def check_wrong_words(
    program: str, name: str, what: str, words: Sequence[str], found: Differences
) -> None:
    for word in words:
        message = f"{name}: '{word}' is no number of {what}\n"
        compare_refused(program, [word], b"\0", message, found)
    usage = f"{name}: usage: {name} [NUMBER-OF-{what.upper()}]\n"
    for arguments in TOO_MANY_WORDS:
        compare_refused(program, arguments, b"\0", usage, found)
    wrong = len(words) + len(TOO_MANY_WORDS)
    print_if_none(found, f"{name}: {wrong} wrong uses: all told")


def check_bench(program: str, found: Differences) -> None:
    for number in NUMBERS:
        compare_bench_run(program, number, found)
    compare_long_run(program, found)
    runs = len(NUMBERS) + 1
    print_if_none(found, f"bench_curves: {runs} runs: all as the second drawing says")
    check_wrong_words(program, "bench_curves", "curves", NO_NUMBERS, found)


# --- bench_texts


def compare_texts_run(
    program: str, texts: Sequence[bytes], rounds: int, found: Differences
) -> None:
    """Where there are many rounds, most of the time goes to the answers."""
    expected = bench_lines(texts)
    given = b"".join(text + b"\0" for text in texts)
    begun = time.monotonic()
    out, status, error = run(program, [str(rounds)], given)
    seconds = time.monotonic() - begun
    rate = rate_of(out.removeprefix(expected), "texts")
    answered = len(texts) * rounds
    if rounds == max(ROUNDS):
        fits = likely_rate(rate, answered, seconds)
    else:
        fits = rate is not None and rate >= int(answered / seconds)
    if status != 0 or error or not out.startswith(expected) or not fits:
        came = f"{out!r}, status {status}, {seconds} seconds, on standard error {error!r}"
        right = f"status 0, {expected!r} and the texts a second"
        found.tell(f"bench_texts {rounds}, {len(texts)} texts", None, right, came)


def check_bench_texts(program: str, found: Differences) -> None:
    texts = few_texts()
    for rounds in ROUNDS:
        compare_texts_run(program, texts, rounds, found)
    compare_texts_run(program, [b""], 1, found)
    runs = len(ROUNDS) + 1
    print_if_none(found, f"bench_texts: {runs} runs: all as the second answers say")
    for given in NOT_ENDED:
        message = "bench_texts: the last text is not ended by a zero octet\n"
        compare_refused(program, [], given, message, found)
    print_if_none(found, f"bench_texts: {len(NOT_ENDED)} last texts that are not ended: all told")
    check_wrong_words(program, "bench_texts", "rounds", ("0", *NO_NUMBERS), found)
