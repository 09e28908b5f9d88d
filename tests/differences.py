"""The differences that the comparison finds, and the runs of programs."""

from __future__ import annotations

import contextlib
import os
import subprocess
import sys
import time
from collections.abc import Sequence
from pathlib import Path

MOST_DIFFERENCES = 5
SECONDS = 60
# Between two pieces of what a program is given.
PAUSE = 0.2


class Differences:
    """The differences found. After a few, the rest are not looked for."""

    def __init__(self) -> None:
        self.number = 0

    def tell(self, what: str, octets: bytes | None, expected: str, came: str) -> None:
        print(f"DIFFERENCE: {what}")
        if octets is not None:
            print(f"  card: {octets.hex() or '(no octets)'}")
        print(f"  expected: {expected}")
        print(f"  came:     {came}")
        self.number += 1
        if self.number == MOST_DIFFERENCES:
            print("more are not looked for")
            sys.exit(1)


def print_if_none(found: Differences, line: str) -> None:
    if found.number == 0:
        print(line, flush=True)


# What a program prints on standard output, its status, and its standard error.
Ended = tuple[str, int, str]


def run(
    program: str, arguments: Sequence[str], given: bytes = b"", folder: str | Path | None = None
) -> Ended:
    """Runs a program, in the folder where one is given."""
    command = [program, *arguments]
    try:
        done = subprocess.run(
            command, input=given, capture_output=True, timeout=SECONDS, cwd=folder
        )
    except subprocess.TimeoutExpired:
        return "", -1, f"not done after {SECONDS} seconds"
    out, error = (octets.decode(errors="replace") for octets in (done.stdout, done.stderr))
    return out, done.returncode, error


def run_in_pieces(program: str, arguments: Sequence[str], pieces: Sequence[bytes]) -> Ended:
    """Runs a program to which a pipe brings one piece after another, with pauses."""
    pipe = subprocess.PIPE
    command = [program, *arguments]
    with subprocess.Popen(command, bufsize=0, stdin=pipe, stdout=pipe, stderr=pipe) as process:
        assert process.stdin is not None
        # A program may have ended before the last piece.
        with contextlib.suppress(BrokenPipeError):
            for piece in pieces:
                process.stdin.write(piece)
                time.sleep(PAUSE)
        try:
            out, error = process.communicate(timeout=SECONDS)
        except subprocess.TimeoutExpired:
            process.kill()
            return "", -1, f"not done after {SECONDS} seconds"
    return out.decode(errors="replace"), process.returncode, error.decode(errors="replace")


def run_over(program: str, arguments: Sequence[str], given: Path, printed: Path) -> tuple[int, str]:
    """The status and the standard error of a program that reads the one path, which can
    be a folder, and prints to the other."""
    source, sink = os.open(given, os.O_RDONLY), os.open(printed, os.O_WRONLY)
    command = [program, *arguments]
    try:
        done = subprocess.run(
            command, stdin=source, stdout=sink, stderr=subprocess.PIPE, timeout=SECONDS
        )
    except subprocess.TimeoutExpired:
        return -1, f"not done after {SECONDS} seconds"
    finally:
        os.close(source)
        os.close(sink)
    return done.returncode, done.stderr.decode(errors="replace")


def check_usage(program: str, usage: Sequence[str], found: Differences) -> None:
    """The usage is printed, whatever else is asked for, and has these lines."""
    out, status, error = run(program, ["--help"])
    missing = [line for line in usage if line not in out]
    if status != 0 or not out or missing or error:
        came = f"status {status}, {out!r}, on standard error {error!r}"
        found.tell("--help", None, f"status 0 and the usage, with {usage}", came)
    for arguments in (["-h"], ["--help", "x"], ["-h", "--help"]):
        came_again = run(program, arguments)
        if came_again != (out, status, error):
            found.tell(f"{arguments}", None, f"as --help: {out!r}", str(came_again))
