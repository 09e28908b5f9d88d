"""Holds drafts, and so the drafts and sealed turns, to the second turns."""

from __future__ import annotations

from collections.abc import Sequence

from check_scripts import compare_scripts, compare_wrong_scripts
from differences import Differences, print_if_none
from turn_scripts import Script
from wrong_scripts import wrong_drafts


def compare_drafts(program: str, scripts: Sequence[Script], found: Differences) -> None:
    compare_scripts("drafts", program, scripts, found)
    number = sum(script.calls for script in scripts)
    told = f"{len(scripts)} scripts, {number} calls"
    print_if_none(found, f"drafts: {told}: all as the second turns say")
    compare_wrong_scripts("drafts", program, list(wrong_drafts()), found)
