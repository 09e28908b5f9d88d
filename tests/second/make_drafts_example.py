"""Writes the script that the gate runs drafts on, and what it must print for it."""

from __future__ import annotations

from collections.abc import Iterator
from pathlib import Path

from card import BOX, FLOW, HEADER_LENGTH, Leg
from curves import CHORD, MATCHING
from turn_samples import KeepBehind, Lay, List, PutBehind, Seal, Start, Strike, Tell
from turn_scripts import Script
from turns import Span

CRATE = Path(__file__).resolve().parents[2] / "crates" / "drafts"


def scripts() -> Iterator[Script]:
    """Of the worked turns of turns.md the first, over a table, and the eighth, over a card."""
    first = Script(Start("table", 2, FLOW, MATCHING, 10, 1, 4))
    first.begin_as_started()
    ramp = Span(((0,), (0,), (0,), (64,)), 4)
    first.say_all([Lay(ramp, 7), Lay(ramp, 8), Seal(), Tell(1), Tell(4), Tell(5), List(1)])
    eighth = Script(Start("card", HEADER_LENGTH + BOX.record_length, BOX, CHORD, 127, 0, 4))
    eighth.begin(eighth.start.tolerance, -1, 4)
    eighth.begin_as_started()
    there_and_back = Span(((0, 0), (64, 64), (0, 0)), 4)
    eighth.say_all([Lay(there_and_back, 4), Strike()])
    eighth.begin(128, 0, 4)
    eighth.say_all([Lay(there_and_back, 4), Lay(there_and_back, 4), Strike(), Seal()])
    level = (7, 7)
    behind = PutBehind(Leg(0, 4, 0, 0, 1, level, level, level))
    eighth.say_all([behind, Strike(), KeepBehind(0), Lay(Span(((0, 2**31 + 1),) * 2, 4), 2)])
    yield from (first, eighth)


def main() -> None:
    exchanges = [exchange for script in scripts() for exchange in script.exchanges]
    said = [exchange.line for exchange in exchanges]
    printed = [line for exchange in exchanges for line in exchange.printed]
    for name, lines in (("stdin", said), ("stdout", printed)):
        (CRATE / name).write_text("".join(f"{line}\n" for line in lines), encoding="ascii")


if __name__ == "__main__":
    main()
