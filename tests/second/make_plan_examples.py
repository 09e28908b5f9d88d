"""Writes the example plan texts and the example arguments of fit, and beside each what
plan and fit print."""

from __future__ import annotations

from pathlib import Path

from doc_examples import plan_examples
from fit_text import fit
from make_examples import EXAMPLES
from plan_text import plan
from text_samples import MOST_OCTETS, filled

PLANS, FITS = EXAMPLES / "plans", EXAMPLES / "fit"

# --- Plan texts

LONG_TURN = """\
(turn (kind flow) (legs matching) (within 6553) (depth 5) (ticks 55))
(span (ticks 12) (at 0) (at 0) (at 1966080) (at 1966080))
(span (ticks 16) (at 1966080) (at 1966080) (at 1966080))
(span (ticks 10) (at 1966080) (at 1966080) (at 983040) (at 983040) (at 1966080) (at 1966080))
(span (ticks 8) (at 1966080) (at 1800000) (at 1638400))
(span (ticks 9) (at 1638400) (at 1638400) (at 0) (at 0))
(seal)
"""

CHORD_RAMP = """\
(turn (kind flow) (legs chord) (within 32768) (depth 4) (ticks 20))
(span (ticks 5) (at 0) (at 0) (at 1966080) (at 1966080))
(span (ticks 10) (at 1966080) (at 1966080))
(span (ticks 5) (at 1966080) (at 1966080) (at 0) (at 0))
(seal)
"""

# The larger share goes over from the left branch to the right one.
BOX_MATCHING = """\
(turn (kind box) (legs matching) (within 3000) (depth 6) (ticks 15))
(span (ticks 6) (at 0 0) (at 0 0) (at 786432 393216) (at 786432 393216))
(span (ticks 5) (at 786432 393216) (at 786432 393216) (at 524288 655360) (at 524288 655360))
(span (ticks 4) (at 524288 655360) (at 524288 655360) (at 0 0) (at 0 0))
(seal)
"""

NINE_POINTS = """\
(turn (kind flow) (legs matching) (within 40) (depth 6) (ticks 30))
(span (ticks 30) (at 0) (at 900) (at -300) (at 1200) (at 0) (at 2000) (at 700) (at 100) (at 0))
(seal)
"""

BELOW_ZERO = """\
(turn (kind flow) (legs chord) (within 7) (depth 3) (ticks 3))
(span (ticks 2) (at -1) (at 0) (at -15) (at -32))
(span (ticks 1) (at -32) (at -1))
(seal)
"""

ONE_TICK = """\
(turn (kind flow) (legs chord) (within 1) (depth 0) (ticks 1))
(span (ticks 1) (at 0) (at 0))
(seal)
"""

# Both sides of what is drawn, agreed and counted.
LIMITS = "\n".join(
    [
        "(turn (kind box) (legs chord) (within 2147483648) (depth 10) (ticks 65536))",
        "(span (ticks 4096) (at -2147483648 2147483648) (at 2147483648 -2147483648))",
        *["(span (ticks 4096) (at 2147483648 -2147483648) (at 2147483648 -2147483648))"] * 15,
        "(seal)\n",
    ]
)

STRUCK = """\
(turn (kind flow) (legs matching) (within 500) (depth 3) (ticks 8))
(span (ticks 4) (at 0) (at 8000) (at 3000) (at 6000))
(span (ticks 2) (at 6000) (at 6000) (at 6000))
(strike)
(span (ticks 4) (at 6000) (at 5000) (at 0))
(strike)
(strike)
(span (ticks 8) (at 100) (at 100) (at 100))
(seal)
"""

REFUSED_TURNS = """\
(turn (kind flow) (legs chord) (within 0) (depth 2) (ticks 8))
(turn (kind flow) (legs chord) (within 2147483649) (depth 2) (ticks 8))
(turn (kind flow) (legs chord) (within 10) (depth -1) (ticks 8))
(turn (kind flow) (legs chord) (within 10) (depth 11) (ticks 8))
(turn (kind flow) (legs chord) (within 10) (depth 2) (ticks 0))
(turn (kind flow) (legs chord) (within 10) (depth 2) (ticks 65537))
(turn (kind flow) (legs chord) (within 0) (depth 11) (ticks 0))
(turn (kind flow) (legs chord) (within 10) (depth 11) (ticks 0))
(turn (kind canal) (legs chord) (within 10) (depth 2) (ticks 8))
(turn (kind flow) (legs chord) (within 10) (depth 2) (ticks 8))
(turn (kind box) (legs matching) (within 10) (depth 2) (ticks 8))
"""

REFUSED_SPANS = """\
(turn (kind flow) (legs matching) (within 10) (depth 1) (ticks 8))
(span (ticks 4))
(span (ticks 4) (at 0) (at 0))
(span (ticks 4) (at 0) (at 1) (at 2) (at 3) (at 4) (at 5) (at 6) (at 7) (at 8) (at 9))
(span (ticks 4) (at 0) (at 2147483649) (at 0))
(span (ticks 4) (at 0) (at 0) (at -2147483649))
(span (ticks 0) (at 0) (at 0) (at 0))
(span (ticks 4097) (at 0) (at 0) (at 0))
(span (ticks 9) (at 0) (at 0) (at 0))
(span (ticks 4) (at 0) (at 0) (at 0) (at 960))
(span (ticks 4) (at 0 0) (at 0 0) (at 0 0))
(span (ticks 4) (at 0) (at 0) (at 0) (at 64))
(span (ticks 4) (at 63) (at 0) (at 0))
(span (ticks 5) (at 64) (at 0) (at 0))
(span (ticks 4) (at 64) (at 64) (at 64))
(seal)
"""

OUT_OF_PLACE = """\
(seal)
(span (ticks 1) (at 0) (at 0))
(turn (kind box) (legs chord) (within 10) (depth 1) (ticks 2))
(strike)
(seal)
(span (ticks 1) (at 0 0) (at 5 5))
(seal)
(strike)
(strike)
(span (ticks 2) (at 0 0) (at 5 5))
(seal)
(strike)
(span (ticks 1) (at 5 5) (at 5 5))
(turn (kind flow) (legs chord) (within 10) (depth 1) (ticks 2))
(seal)
"""

# From the third line on, each has all the reasons of the one after it, and one more.
NINE_OF_TEN = "(at 5) (at 99)" + 7 * " (at 0)"
FIRST_REASON = f"""\
(turn (kind flow) (legs chord) (within 10) (depth 0) (ticks 8))
(span (ticks 4) (at 0) (at 0))
(span  (ticks 4097) {NINE_OF_TEN} (at 2147483649 0))
(span (ticks 4097) {NINE_OF_TEN} (at 2147483649 0))
(span (ticks 4097) {NINE_OF_TEN} (at 2147483649))
(span (ticks 4097) (at 5) (at 99) (at 2147483649))
(span (ticks 4097) (at 5) (at 99) (at 0))
(span (ticks 5) (at 5) (at 99) (at 0))
(span (ticks 4) (at 5) (at 99) (at 0))
(span (ticks 4) (at 0) (at 99) (at 0))
(span (ticks 4) (at 0) (at 0))
(seal)
"""

# The first span takes 512 legs.
NO_ROOM = """\
(turn (kind flow) (legs chord) (within 10000) (depth 9) (ticks 20))
(span (ticks 4) (at 0) (at 2147483648) (at 0))
(span (ticks 16) (at 0) (at 0))
(span (ticks 16) (at 0) (at 2147483648) (at -2147483648) (at 0))
(strike)
(span (ticks 16) (at 0) (at 0))
(span (ticks 4) (at 0) (at 2147483648) (at 0))
(span (ticks 4) (at 0) (at 16) (at 32) (at 0))
(seal)
"""

SPACING = """\
(turn (kind flow) (legs chord) (within 10) (depth 2) (ticks 8)) \n\
(turn  (kind flow) (legs chord) (within 10) (depth 2) (ticks 8))
(turn (kind flow) (legs chord) (within 010) (depth 2) (ticks 8))
(turn (kind flow) (legs chord) (within +10) (depth 2) (ticks 8))
(turn (legs chord) (kind flow) (within 10) (depth 2) (ticks 8))
(TURN (kind flow) (legs chord) (within 10) (depth 2) (ticks 8))

(turn (kind flow) (legs chord) (within 10) (depth 2) (ticks 8))
(span (ticks 8)(at 0) (at 0))
(span (ticks 8) (at -0) (at 0))
(span (ticks 8) (at 0) (at 12345678901))
(span (ticks 8) (at 0) (at 0)
(span (ticks 8) (at 0)\t(at 0))
; nothing but forms is taken
(span (ticks 8) (at 0) (at 0))
(seal)"""


def plan_texts() -> dict[str, bytes]:
    two_halves, ramp, box_chord, mistakes = (text for text, _ in plan_examples())
    texts = {
        "long-turn": LONG_TURN,
        "chord-ramp": CHORD_RAMP,
        "box-matching": BOX_MATCHING,
        "nine-points": NINE_POINTS,
        "below-zero": BELOW_ZERO,
        "one-tick": ONE_TICK,
        "limits": LIMITS,
        "struck": STRUCK,
        "refused-turns": REFUSED_TURNS,
        "refused-spans": REFUSED_SPANS,
        "out-of-place": OUT_OF_PLACE,
        "first-reason": FIRST_REASON,
        "no-room": NO_ROOM,
        "spacing": SPACING,
    }
    return {
        "two-halves": two_halves,
        "ramp": ramp,
        "box-chord": box_chord,
        "mistakes": mistakes,
        **{name: text.encode("ascii") for name, text in texts.items()},
        "carriage-returns": two_halves.replace(b"\n", b"\r\n"),
        "longest": filled(MOST_OCTETS),
        "too-long": filled(MOST_OCTETS + 1),
    }


# --- Arguments of fit

FIT_ARGUMENTS = {
    "ramp-matching": "flow matching 32768 4 0 0 1966080 1966080",
    "ramp-chord": "flow chord 32768 4 0 0 1966080 1966080",
    "unequal-depths": "flow chord 40 6 0 900 10 0 0",
    "box": "box matching 20 5 0 600 300 -300 600 900 -450 0",
    "nine-points": "flow matching 40 6 0 900 -300 1200 0 2000 700 100 0",
    "below-zero": "flow chord 7 3 -1 0 -15 -32",
    "too-bent": "box chord 127 0 0 0 64 64 0 0",
    "beyond-the-limit": "box chord +0010 1 0 0 2147483648 -2147483648 1 -2147483649",
}


def fit_arguments() -> dict[str, list[str]]:
    return {name: arguments.split(" ") for name, arguments in FIT_ARGUMENTS.items()}


# --- The files


def plan_files() -> dict[str, bytes]:
    """The name and the content of every file in examples/plans."""
    written = {}
    for name, text in plan_texts().items():
        written[f"{name}.plan"] = text
        written[f"{name}.out"] = plan(text).printed
    return written


def fit_files() -> dict[str, bytes]:
    """The name and the content of every file in examples/fit."""
    written = {}
    for name, arguments in fit_arguments().items():
        printed, _ = fit(arguments)
        written[f"{name}.args"] = "".join(f"{each}\n" for each in arguments).encode("ascii")
        written[f"{name}.out"] = printed.encode("ascii")
    return written


def write_all(folder: Path, files: dict[str, bytes]) -> None:
    folder.mkdir(parents=True, exist_ok=True)
    for name, content in files.items():
        (folder / name).write_bytes(content)


def main() -> None:
    write_all(PLANS, plan_files())
    write_all(FITS, fit_files())


if __name__ == "__main__":
    main()
