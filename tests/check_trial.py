"""Holds trial, and so the outlets, to the second outlets."""

from __future__ import annotations

from collections.abc import Sequence

from check_scripts import compare_scripts, compare_wrong_scripts
from differences import Differences, print_if_none
from trials import Script
from wrong_scripts import wrong_trials


def compare_trials(program: str, scripts: Sequence[Script], found: Differences) -> None:
    compare_scripts("trial", program, scripts, found)
    number = sum(len(script.exchanges) for script in scripts)
    told = f"{len(scripts)} scripts, {number} lines"
    print_if_none(found, f"trial: {told}: all as the second outlets say")
    compare_wrong_scripts("trial", program, list(wrong_trials()), found)
