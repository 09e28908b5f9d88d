"""Holds plan and plan_card to the second reader of plan texts."""

from __future__ import annotations

import os
import tempfile
from collections.abc import Iterator, Sequence
from pathlib import Path
from random import Random

import make_plan_examples
from check_fit import compare_folder
from differences import Differences, Ended, print_if_none, run, run_in_pieces, run_over
from plan_text import Planned, plan
from text_samples import Text

# So many texts that give a card, and as many that give none.
CARD_TEXTS = 80
CARD_FILE = "a.card"
# The names of files, from the folder in which the program runs.
FILE_NAMES = ("a.card", "./a.card", "card", "a-b.card", " a b.card ", "f\xfcr", "long" * 60)
OLD_FILE = b"what stood there before, and is longer than a short card: " + bytes(200)
# What is written to the one is gone, and writing to the other fails.
NOWHERE, FULL = Path(os.devnull), Path("/dev/full")


def shown(printed: bytes) -> str:
    return printed.decode(errors="replace")


def first_difference(expected: str, came: str) -> tuple[str, str]:
    """The first line that is not as expected, and the line that came there."""
    right, wrong = expected.splitlines(keepends=True), came.splitlines(keepends=True)
    for i, line in enumerate(right):
        if i >= len(wrong) or wrong[i] != line:
            return f"line {i}: {line!r}", repr(wrong[i]) if i < len(wrong) else "no more lines"
    return "no more lines", repr(wrong[len(right) :][:1])


# --- plan


def compare_plan_run(program: str, text: Text, found: Differences) -> None:
    expected = shown(plan(text.octets).printed)
    out, status, error = run(program, [], text.octets)
    if (out, status) == (expected, 0):
        return
    right, came = first_difference(expected, out)
    what = f"plan, {text.name}: {text.octets[:2_000]!r}"
    found.tell(what, None, f"status 0, {right}", f"status {status}, {came}, {error!r}")


def compare_examples(program: str, found: Differences) -> None:
    compare_folder(make_plan_examples.PLANS, make_plan_examples.plan_files(), found)
    texts = make_plan_examples.plan_texts()
    for name, octets in texts.items():
        compare_plan_run(program, Text(f"examples/plans/{name}.plan", octets), found)
    print_if_none(found, f"plan: {len(texts)} examples: all as written")


def expect_wrong_use(
    program: str, arguments: Sequence[str], given: bytes, folder: Path | None, found: Differences
) -> None:
    """Status 1 and a message. What is on standard output is not said."""
    out, status, error = run(program, arguments, given, folder)
    if status != 1 or not error:
        came = f"status {status}, {out!r}, on standard error {error!r}"
        what = f"{Path(program).name} {arguments}"
        found.tell(what, None, "status 1 and a message on standard error", came)


def check_help(name: str, program: str, given: bytes, found: Differences) -> None:
    """The usage, whose first line names the program, whatever text is given with it."""
    usage, status, _ = run(program, ["--help"])
    if status != 0 or name not in usage.partition("\n")[0].split():
        found.tell(f"{name} --help", None, "status 0 and the usage", f"status {status}, {usage!r}")
    with_text = run(program, ["--help"], given)
    if with_text[:2] != (usage, status):
        found.tell(f"{name} --help, with a text", None, str((usage, status)), str(with_text))


def check_streams(name: str, program: str, arguments: Sequence[str], found: Differences) -> None:
    """A text is read to its end, though its lines come one by one. Where reading fails,
    as it does from a folder, or printing, there is status 1 and a message."""
    file = make_plan_examples.PLANS / "two-halves.plan"
    text = file.read_bytes()
    right = run(program, arguments, text)
    line_by_line = run_in_pieces(program, arguments, text.splitlines(keepends=True))
    if line_by_line != right:
        found.tell(f"{name}, a line at a time", None, str(right), str(line_by_line))
    for what, given, printed in (("reading", file.parent, NOWHERE), ("printing", file, FULL)):
        status, error = run_over(program, arguments, given, printed)
        if status != 1 or not error:
            came = f"status {status}, on standard error {error!r}"
            told = "status 1 and a message on standard error"
            found.tell(f"{name}, where {what} fails", None, told, came)


def check_plan(program: str, texts: Sequence[Text], found: Differences) -> None:
    compare_examples(program, found)
    for text in texts:
        compare_plan_run(program, text, found)
    print_if_none(found, f"plan: {len(texts)} texts: all as the second reader says")
    wrong = [["x"], [""], ["-"], ["--no-such-option"], ["/dev/null"], ["x", "y"]]
    for arguments in wrong:
        expect_wrong_use(program, arguments, b"", None, found)
    check_help("plan", program, make_plan_examples.plan_texts()["two-halves"], found)
    check_streams("plan", program, [], found)
    print_if_none(found, f"plan: {len(wrong)} wrong uses: all told; streams: as said")


# --- plan_card


def chosen_texts(rng: Random, texts: Sequence[Text]) -> list[Text]:
    """Texts that give a card, and others, half and half."""
    with_card, without = [], []
    for text in texts:
        (with_card if plan(text.octets).card is not None else without).append(text)
    return rng.sample(with_card, CARD_TEXTS) + rng.sample(without, CARD_TEXTS)


# What is in a folder.
Files = dict[str, bytes]


def files_in(folder: Path) -> Files:
    return {path.name: path.read_bytes() for path in folder.iterdir()}


def fault_of_card_run(
    planned: Planned, right: Files, now: Files, ended: Ended
) -> tuple[str, str] | None:
    """What is expected and what came, where they differ. `right` and `now` are the files
    that should be there and are."""
    out, status, error = ended
    right_status = 1 if planned.card is None else 0
    if out != shown(planned.printed):
        return first_difference(shown(planned.printed), out)
    if status != right_status:
        return f"status {right_status}", f"status {status}, on standard error {error!r}"
    if now != right:
        return f"the files {right!r}", f"{now!r}"
    if status == 1 and not error:
        return "a message on standard error", "none"
    return None


def compare_card_run(
    program: str, text: Text, folder: Path, named: str, old: Files, found: Differences
) -> None:
    """The program runs in the folder, in which are these old files and no others."""
    for path in folder.iterdir():
        path.unlink()
    for file, octets in old.items():
        (folder / file).write_bytes(octets)
    ended = run(program, [named], text.octets, folder)
    planned = plan(text.octets)
    right = old if planned.card is None else {**old, Path(named).name: planned.card}
    fault = fault_of_card_run(planned, right, files_in(folder), ended)
    if fault is not None:
        what = f"plan_card {named!r}, {text.name}: {text.octets[:2_000]!r}"
        found.tell(what, None, *fault)


def compare_cards(program: str, texts: Sequence[Text], found: Differences) -> None:
    """Each text with and without an old file, and the first with other names."""
    old_file = {CARD_FILE: OLD_FILE}
    with tempfile.TemporaryDirectory() as name:
        folder = Path(name)
        for text in texts:
            for old in ({}, old_file):
                compare_card_run(program, text, folder, str(folder / CARD_FILE), old, found)
        for named in FILE_NAMES:
            compare_card_run(program, texts[0], folder, named, old_file, found)
    told = f"{len(texts)} texts, {len(FILE_NAMES)} names of files"
    print_if_none(found, f"plan_card: {told}: all as the second reader says")


def wrong_card_uses(folder: Path) -> Iterator[list[str]]:
    file = str(folder / CARD_FILE)
    yield []
    yield [""]
    yield [file, file]
    yield [str(folder)]
    yield [str(folder / "none" / CARD_FILE)]
    yield [f"{file}/a.card"]
    yield from (["-"], ["-x"], ["--no-such-option"])


def check_wrong_card_uses(program: str, given: bytes, found: Differences) -> None:
    with tempfile.TemporaryDirectory() as name:
        folder = Path(name)
        (folder / CARD_FILE).write_bytes(OLD_FILE)
        wrong = list(wrong_card_uses(folder))
        for arguments in wrong:
            expect_wrong_use(program, arguments, given, folder, found)
        if files_in(folder) != {CARD_FILE: OLD_FILE}:
            right, came = "the one file as it was", str(files_in(folder))
            found.tell("plan_card, wrong uses", None, right, came)
        check_streams("plan_card", program, [str(folder / CARD_FILE)], found)
    check_help("plan_card", program, given, found)
    print_if_none(found, f"plan_card: {len(wrong)} wrong uses: all told; streams: as said")


def check_full_file(program: str, given: bytes, found: Differences) -> None:
    """A file that can be opened, and takes nothing. The device itself is left alone."""
    with tempfile.TemporaryDirectory() as name:
        file = Path(name) / CARD_FILE
        file.symlink_to(FULL)
        expect_wrong_use(program, [str(file)], given, None, found)


def check_plan_card(program: str, texts: Sequence[Text], rng: Random, found: Differences) -> None:
    examples = make_plan_examples.plan_texts()
    named = [Text(f"examples/plans/{name}.plan", octets) for name, octets in examples.items()]
    compare_cards(program, named + chosen_texts(rng, texts), found)
    check_full_file(program, examples["two-halves"], found)
    check_wrong_card_uses(program, examples["two-halves"], found)
