"""Holds a program that works scripts to the lines that it must print for them."""

from __future__ import annotations

from collections.abc import Sequence
from typing import Protocol

from differences import Differences, print_if_none, run
from trials import Exchange
from wrong_scripts import WrongScript

SCRIPTS_IN_A_RUN = 1_000


class Script(Protocol):
    exchanges: list[Exchange]


def tell_difference(name: str, script: Script, came: Sequence[str], found: Differences) -> bool:
    """Tells the first line printed for the script that is not the one expected, if any."""
    lines = iter(came)
    for i, exchange in enumerate(script.exchanges):
        for expected in exchange.printed:
            line = next(lines, "nothing")
            if line != expected:
                said = "".join(f"\n    {earlier.line}" for earlier in script.exchanges[: i + 1])
                found.tell(f"{name}, after the last of:{said}", None, expected, line)
                return True
    return False


def compare_run(name: str, program: str, scripts: Sequence[Script], found: Differences) -> None:
    """All the scripts in one run, each in the outlet that it starts. Only the first
    difference is told: after it the lines may be out of step."""
    said = [exchange.line for script in scripts for exchange in script.exchanges]
    out, status, error = run(program, [], "".join(f"{line}\n" for line in said).encode("ascii"))
    if status != 0:
        found.tell(f"how {name} ended", None, "status 0", f"status {status}\n{error}")
    *lines, rest = out.split("\n")
    at = 0
    for script in scripts:
        after = at + sum(len(exchange.printed) for exchange in script.exchanges)
        if tell_difference(name, script, lines[at:after], found):
            return
        at = after
    if lines[at:] or rest:
        found.tell(f"the end of what {name} prints", None, "no more", str([*lines[at:], rest]))


def compare_scripts(name: str, program: str, scripts: Sequence[Script], found: Differences) -> None:
    for at in range(0, len(scripts), SCRIPTS_IN_A_RUN):
        compare_run(name, program, scripts[at : at + SCRIPTS_IN_A_RUN], found)
    # Nothing is asked for, and that is no error.
    compare_run(name, program, (), found)


def expect_wrong_line(name: str, program: str, script: WrongScript, found: Differences) -> None:
    """The lines before it are answered, and the message names it. What follows it is not read."""
    printed = "".join(f"{line}\n" for exchange in script.exchanges for line in exchange.printed)
    lines = [*(exchange.line for exchange in script.exchanges), script.wrong]
    said = "".join(f"{line}\n" for line in (*lines, "table flow 1"))
    out, status, error = run(program, [], said.encode("latin-1"))
    message = f"{name}: line {len(lines)}: {script.why}"
    whole = error == f"{message}\n" if script.why else error.startswith(message)
    if (out, status) != (printed, 1) or not whole or error.count("\n") != 1:
        expected = f"{printed!r}, status 1, and {message!r} on standard error"
        came = f"{out!r}, status {status}, on standard error {error!r}"
        found.tell(f"{name}, the wrong line {script.wrong!r}", None, expected, came)


def compare_wrong_scripts(
    name: str, program: str, scripts: Sequence[WrongScript], found: Differences
) -> None:
    for script in scripts:
        expect_wrong_line(name, program, script, found)
    print_if_none(found, f"{name}: {len(scripts)} wrong lines: all told")
