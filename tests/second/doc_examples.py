"""The examples that stand in docs/, as they stand there."""

from __future__ import annotations

import re
from pathlib import Path

DOCS = Path(__file__).resolve().parents[2] / "docs"


def blocks(name: str) -> list[str]:
    """The blocks of a page that are set off by three backquotes, without a language."""
    parts = (DOCS / name).read_text(encoding="utf-8").split("```")
    return [part[1:] for part in parts[1::2] if part.startswith("\n")]


def usage(name: str, program: str) -> list[str]:
    """How the page says that the program is called, a line for each way."""
    forms = [block.splitlines() for block in blocks(name) if block.startswith(f"{program} ")]
    assert len(forms) == 1, f"{name} says once how {program} is called"
    return forms[0]


def fit_examples() -> list[tuple[list[str], str]]:
    """The arguments of each run of fit, and what it prints."""
    examples = []
    for block in blocks("curves.md"):
        for run in block.split("$ fit ")[1:]:
            command, printed = run.split("\n", 1)
            examples.append((command.split(" "), printed))
    return examples


def plan_examples() -> list[tuple[bytes, bytes]]:
    """Each whole plan text, and what is printed for it."""
    typed, printed = [], []
    for block in blocks("plan-text.md"):
        if "\n(seal)\n" in block:
            typed.append(block.encode("ascii"))
        if re.search(r"^\(sealed \(legs [0-9]+\)", block, re.MULTILINE):
            printed.append(block.encode("ascii"))
    assert len(typed) == len(printed), "plan-text.md has texts and what is printed in turn"
    return list(zip(typed, printed))
