"""Holds gate to the second reader."""

from __future__ import annotations

import tempfile
from collections.abc import Iterator, Sequence
from pathlib import Path
from random import Random

import make_examples
from card import FLOW, GREATEST_TICK, Card, Refusal, last_tick, read
from differences import Differences, check_usage, print_if_none, run
from doc_examples import usage
from drafts import Sample
from gate_text import gate

ACCEPTED_CARDS = 75
CARDS_OF_A_REFUSAL = 13
# Above this, asking for every tick would take the second reader too long.
GATE_TICKS_UP_TO = 2_000


def compare_gate_run(
    program: str, arguments: Sequence[str], octets: bytes, ticks: Sequence[int], found: Differences
) -> None:
    expected = gate(octets, ticks)
    from_input = not arguments or arguments[0] == "-"
    out, status, error = run(program, arguments, octets if from_input else b"")
    if (out, status) != expected or error:
        what = f"gate {' '.join(arguments)}"
        found.tell(what, octets, str(expected), f"{(out, status)}, on standard error {error!r}")


def compare_examples(program: str, found: Differences) -> None:
    """The files are what would be written now, and gate prints them."""
    folder = make_examples.EXAMPLES
    files = make_examples.files()
    present = {path.name for path in folder.iterdir() if path.suffix in (".card", ".txt")}
    for name in sorted(present ^ files.keys()):
        expected = "a file" if name in files else "no such file"
        found.tell(f"examples/{name}", None, expected, "the other")
    for name in sorted(present & files.keys()):
        content = (folder / name).read_bytes()
        if content != files[name]:
            found.tell(f"examples/{name}", None, files[name].hex(), content.hex())
    for name, octets in make_examples.cards().items():
        compare_gate_run(program, [str(folder / f"{name}.card")], octets, (), found)
    print_if_none(found, f"gate: {len(files) // 2} examples: all as written")


def gate_samples(rng: Random, samples: Sequence[Sample]) -> list[Sample]:
    """Accepted cards whose turn is not too long, and so many of each refusal."""
    accepted: list[Sample] = []
    refused: dict[int, list[Sample]] = {}
    for sample in samples:
        card = read(sample.octets)
        if isinstance(card, Refusal):
            refused.setdefault(card.number, []).append(sample)
        elif last_tick(card.legs) <= GATE_TICKS_UP_TO:
            accepted.append(sample)
    chosen = rng.sample(accepted, ACCEPTED_CARDS)
    for number in sorted(refused):
        chosen += rng.sample(refused[number], CARDS_OF_A_REFUSAL)
    return chosen


def gate_uses(rng: Random, octets: bytes, file: str) -> Iterator[tuple[list[str], list[int]]]:
    """Arguments for gate, and the ticks among them."""
    yield [file], []
    card = read(octets)
    if isinstance(card, Refusal) or card.kind == FLOW:
        ends = [0, 1, 5, GREATEST_TICK]
        if isinstance(card, Card):
            last = last_tick(card.legs)
            ends += [last, last + 1, rng.randint(0, last), rng.randint(0, last)]
        for source in (file, "-"):
            ticks = rng.choices(ends, k=rng.randint(1, 6))
            yield [source, *map(str, ticks)], ticks
        if isinstance(card, Card) and card.legs:
            yield [file, str(last)], [last]
    yield rng.choice(([], ["-"])), []


def compare_gate(program: str, samples: Sequence[Sample], rng: Random, found: Differences) -> None:
    runs = 0
    chosen = gate_samples(rng, samples)
    with tempfile.TemporaryDirectory() as folder:
        file = Path(folder) / "a.card"
        for sample in chosen:
            file.write_bytes(sample.octets)
            for arguments, ticks in gate_uses(rng, sample.octets, str(file)):
                compare_gate_run(program, arguments, sample.octets, ticks, found)
                runs += 1
    print_if_none(found, f"gate: {len(chosen)} cards, {runs} runs: all as the second reader says")


def compare_long(program: str, samples: Sequence[Sample], found: Differences) -> None:
    """Much to print, and much to read."""
    named = {sample.name: sample.octets for sample in samples}
    compare_gate_run(program, [], named["flow: turn of 65536 ticks"], (), found)
    large = named["flow: all cells of depth 10, twice"]
    compare_gate_run(program, ["-", "1023", "1024"], large, (1_023, 1_024), found)
    print_if_none(found, "gate: the longest turn, and a large card: as the second reader says")


def expect_wrong_use(
    program: str,
    arguments: Sequence[str],
    found: Differences,
    word: str = "",
    folder: str | None = None,
) -> None:
    """Status 1 and a message of one line, which has the word, and nothing printed."""
    out, status, error = run(program, arguments, b"", folder)
    told = error.startswith("gate: ") and word in error and error.count("\n") == 1
    if (out, status) != ("", 1) or not told:
        came = f"status {status}, {out!r}, on standard error {error!r}"
        expected = f"status 1, and only a message with {word!r} on standard error"
        found.tell(f"gate {arguments}", None, expected, came)


def check_order_of_faults(program: str, found: Differences) -> None:
    """The arguments are looked at before the file, and the file before the card."""
    flow = make_examples.EXAMPLES / "two-halves.card"
    expect_wrong_use(program, ["no-such.card", "x"], found, "'x'")
    expect_wrong_use(program, [str(flow), "1", "x", "y"], found, "'x'")
    expect_wrong_use(program, ["no-such.card", "1"], found, "no-such.card")
    with tempfile.TemporaryDirectory() as folder:
        # An option, and no file, though there is one.
        (Path(folder) / "-x").write_bytes(flow.read_bytes())
        expect_wrong_use(program, ["-x"], found, "'-x'", folder)
        expect_wrong_use(program, ["--x"], found, "'--x'", folder)
        out, status, _ = run(program, ["./-x"], b"", folder)
        if (out, status) != gate(flow.read_bytes()):
            found.tell("gate ./-x", None, "the card", f"{(out, status)}")


NO_TICKS = ("x", "", "1x", "1.5", "one", " 1", "1 ", "0x1", "1_0", "-", "+", "\u0663", "\xb2")


def check_wrong_use(program: str, found: Differences) -> None:
    folder = make_examples.EXAMPLES
    flow, box = str(folder / "two-halves.card"), str(folder / "box-turn.card")
    missing = str(folder / "no-such.card")
    wrong = [["--no-such-option"], ["--no-such-option", flow], [missing], [str(folder)]]
    wrong += [[flow, tick] for tick in NO_TICKS]
    wrong += [[flow, "1", "x"], [flow, "x", "1"], [box, "0"], [box, "1", "99"]]
    for arguments in wrong:
        expect_wrong_use(program, arguments, found)
    # Such a tick is past the last leg, or is no tick at all: one or the other is told.
    far = [[flow, tick] for tick in ("-1", str(2**32), str(2**64), str(2**64 + 1))]
    for arguments in far:
        out, status, error = run(program, arguments)
        if status != 1 or not (error or f"tick {arguments[1]}: refused 16" in out):
            came = f"status {status}, {out!r}, on standard error {error!r}"
            found.tell(f"gate {arguments}", None, "status 1, and a word about the tick", came)
    check_order_of_faults(program, found)
    check_usage(program, usage("gate.md", "gate"), found)
    print_if_none(found, f"gate: {len(wrong) + len(far)} wrong uses: all told")


BOX_CARD = str(make_examples.EXAMPLES / "box-turn.card")
# The whole message of some wrong uses.
MESSAGES: tuple[tuple[list[str], str], ...] = (
    (
        ["no-such.card", "x"],
        "'x' is no tick: a tick is a whole number from 0 to 4294967295; try 'gate --help'",
    ),
    (["--x"], "there is no option '--x'; try 'gate --help'"),
    (["--example"], "--example wants one file; try 'gate --help'"),
    (["no-such.card"], "cannot read 'no-such.card': No such file or directory (os error 2)"),
    ([BOX_CARD, "0"], "this is a box card, and values are told of flow cards alone"),
)


def check_messages(program: str, found: Differences) -> None:
    """The program's name and what is wrong, each once, and nothing else."""
    for arguments, message in MESSAGES:
        expected = ("", 1, f"gate: {message}\n")
        came = run(program, arguments)
        if came != expected:
            found.tell(f"gate {arguments}", None, str(expected), str(came))
    print_if_none(found, f"gate: {len(MESSAGES)} messages: word for word")


def check_example_option(program: str, found: Differences) -> None:
    """gate --example FILE writes the example of card.md, and nothing else is in FILE."""
    octets = make_examples.cards()["two-halves"]
    with tempfile.TemporaryDirectory() as folder:
        new, old = Path(folder) / "new.card", Path(folder) / "old.card"
        old.write_bytes(b"longer than the card: " + bytes(2 * len(octets)))
        for file in (new, old):
            out, status, error = run(program, ["--example", str(file)])
            content = file.read_bytes().hex() if file.is_file() else "no file"
            expected = (octets.hex(), "", 0)
            if (content, out, status) != expected:
                came = f"{(content, out, status)}, on standard error {error!r}"
                found.tell(f"gate --example {file.name}", None, str(expected), came)
        wrong: list[list[str]] = [[], [""], [folder], [f"{folder}/none/a.card"], [f"{old}/a.card"]]
        another = str(Path(folder) / "another.card")
        wrong += [[another, another], [another, "x"]]
        for arguments in wrong:
            expect_wrong_use(program, ["--example", *arguments], found)
        if Path(another).exists():
            found.tell("gate --example with two files", None, "no file", "a file")
    print_if_none(found, f"gate --example: the example, and {len(wrong)} wrong uses: all as said")


def check_gate(program: str, samples: Sequence[Sample], rng: Random, found: Differences) -> None:
    compare_examples(program, found)
    compare_gate(program, samples, rng, found)
    compare_long(program, samples, found)
    check_wrong_use(program, found)
    check_messages(program, found)
    check_example_option(program, found)
