"""Scripts for `trial` and `drafts` that are right up to their last line, which neither a
script has, nor the turn that stands."""

from __future__ import annotations

from collections.abc import Iterator, Sequence
from dataclasses import dataclass
from itertools import chain

from card import BOX, FLOW, Kind
from curves import CHORD
from trials import Exchange
from trials import Script as TrialScript
from turn_samples import Lay, Seal, Start
from turn_scripts import Script as TurnScript
from turns import Span


@dataclass(frozen=True)
class WrongScript:
    """Lines that are answered, and then one that is not. The message says why after the
    line's number; where that is empty it may say anything."""

    exchanges: Sequence[Exchange]
    wrong: str
    why: str = ""


# --- Lines that neither program has

STARTS = (
    "table",
    "table flow",
    "table flow x",
    "table flow -1",
    f"table flow {2**64}",
    "table flow 1 1",
    "table flow 1 ",
    "table  flow 1",
    " table flow 1",
    "table\tflow 1",
    "table canal 1",
    "Table flow 1",
    "tables flow 1",
    "card",
    "card flow",
    "card Box 8",
    "card box 8 8",
    "record flow 1",
    # There is no such memory.
    *(f"table flow {2**64 - 1}", f"card box {2**64 - 1}"),
)
CALLS = (
    "",
    " ",
    "\xff",
    "end",
    "put",
    "put 0 1 0 0 1 0 0",
    "put 0 1 0 0 1 0 0 0 0",
    "put 0 1 0 0 1 0 0 x",
    "put 0 1 0 0 1  0 0 0",
    "put -1 1 0 0 1 0 0 0",
    f"put 0 {2**32} 0 0 1 0 0 0",
    f"put 0 1 0 0 1 0 0 {2**63}",
    "keep",
    "keep x",
    "keep -1",
    f"keep {2**64}",
    "keep 1 1",
    "keep 1 ",
    " keep 1",
    "Keep 1",
)
NO_MEMORY = "memory allocation failed"
# What both programs say of some of them.
WHY = {
    f"table flow {2**64 - 1}": NO_MEMORY,
    f"card box {2**64 - 1}": NO_MEMORY,
    "table": "there is no kind",
    "card": "there is no kind",
    "table canal 1": "'canal' is no kind: a kind is flow or box",
    "card Box 8": "'Box' is no kind: a kind is flow or box",
    "table flow": "there is a number too few",
    "table flow x": "'x' is no number that can stand here",
    "card box 8 8": "'8' is a word too many",
    "put 0 1 0 0 1 0 0": "there is a number too few",
    "put 0 1 0 0 1 0 0 0 0": "'0' is a word too many",
    "put 0 1 0 0 1  0 0 0": "'' is no number that can stand here",
    f"keep {2**64}": f"'{2**64}' is no number that can stand here",
}
FIRST_LINES = ("", "\xff", "table", "starts flow 1", " table flow 1")
FIRST_CALLS = ("put 0 1 0 0 1 0 0 0", "keep 0")


def first_lines() -> Iterator[WrongScript]:
    """The first line has to start an outlet."""
    for line in FIRST_LINES:
        yield WrongScript((), line, WHY.get(line, ""))
    for line in FIRST_CALLS:
        yield WrongScript((), line, "no outlet is started yet")


def late_line() -> WrongScript:
    """A line with a number that takes more than eight bits."""
    script = TrialScript("table", FLOW, 0)
    for _ in range(300):
        script.say("keep 0")
    return WrongScript(script.exchanges, "keep", "there is a number too few")


# --- trial

TRIAL_CALLS = (
    *("get", "get x", "get -1", "get 1 1", "get  1", "get 1 ", " get 1", "get\t1"),
    *("rewrite", "rewrite x", "rewrite -1", "rewrite 8 8", "rewrite 8 "),
    *("begin chord 1 0 4", "strike", "seal", "tell 0", "list 0", "lay 4 2 7 7"),
)
TRIAL_WHY = {
    line: f"'{line}' is no line of a script"
    for line in ("", "end", " keep 1", "Table flow 1", "strike", "tell 0", "lay 4 2 7 7")
}


def wrong_trials() -> Iterator[WrongScript]:
    yield from first_lines()
    yield late_line()
    yield WrongScript((), "get 0")
    script = TrialScript("card", FLOW, 80)
    script.say("put 0 4 1 0 2 0 -2 8")
    for line in chain(STARTS, CALLS, TRIAL_CALLS):
        yield WrongScript(script.exchanges, line, (WHY | TRIAL_WHY).get(line, ""))
    yield WrongScript(TrialScript("table", BOX, 2).exchanges, "put 0 1 0 0 1 0 0 0 0 0")


# --- drafts

DRAFTS_LINES = (
    *("begin", "begin chord", "begin chord 1 0", "begin chord 1 0 4 4", "begin arc 1 0 4"),
    *("begin chord x 0 4", "begin chord 1 0 4 ", "begin  chord 1 0 4", f"begin chord {2**63} 0 4"),
    *("lay", "lay 4", "lay x 2 7 7", "lay 4 -2 7 7", "lay 4 2 7 x", "lay 4 2 7 7 ", "lay 4  2 7 7"),
    *("strike 1", "strike ", "seal 1", " seal", "tell", "tell x", "tell 0 0", "list", "list -1"),
    *("list 0 0", "get 0", "rewrite 80"),
)
DRAFT_CALLS = ("lay 4 2 7 7", "strike", "seal")
SEALED_CALLS = ("tell 0", "list 0")


def started(kind: Kind = FLOW) -> TurnScript:
    return TurnScript(Start("table", 2, kind, CHORD, 1, 0, 4))


def begun(kind: Kind = FLOW) -> TurnScript:
    script = started(kind)
    script.begin_as_started()
    return script


def sealed() -> TurnScript:
    script = begun()
    script.say_all([Lay(Span(((7,), (7,)), 4), 2), Seal()])
    return script


def without_turn() -> Iterator[TurnScript]:
    """No draft is begun, or the last was refused, or another outlet has been started."""
    yield started()
    for script in (begun(), sealed()):
        script.begin(0, 0, 4)
        yield script
    for script in (begun(), sealed()):
        script.exchanges += started().exchanges
        yield script


def wrong_drafts() -> Iterator[WrongScript]:
    yield from first_lines()
    yield late_line()
    for line in (*DRAFT_CALLS, *SEALED_CALLS, "begin chord 1 0 4"):
        yield WrongScript((), line)
    for line in chain(STARTS, CALLS, DRAFTS_LINES):
        yield WrongScript(begun().exchanges, line, WHY.get(line, ""))
    for line in ("lay 4 2 7", "lay 4 2 7 7 7", "lay 4 2 7 7 7 7 7"):
        yield WrongScript(begun(BOX).exchanges, line)
    for script in without_turn():
        for line in (*DRAFT_CALLS, *SEALED_CALLS):
            yield WrongScript(script.exchanges, line)
    for line in SEALED_CALLS:
        yield WrongScript(begun().exchanges, line)
    for line in DRAFT_CALLS:
        yield WrongScript(sealed().exchanges, line)
