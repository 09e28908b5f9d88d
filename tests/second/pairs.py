"""Test cards with two damages: the earlier in the order of refusals is given."""

from __future__ import annotations

from collections.abc import Callable, Iterator
from dataclasses import dataclass, replace
from itertools import combinations

from breaks import restarted, with_cell
from card import GREATEST_COORDINATE, HEADER_LENGTH, Kind, Refusal
from damaged import two_spans
from drafts import Draft, Sample, moved


@dataclass(frozen=True)
class Damage:
    name: str
    do: Callable[[Draft], Draft]
    meant: Refusal


def place_in_order(refusal: Refusal) -> tuple[int, int, int]:
    """Records are looked at one after another, each for 24 and then for 25; the
    open end of the last span has the count for its record and so comes last."""
    if refusal.names is None:
        return refusal.number, 0, 0
    return 24, refusal.names, refusal.number


def header_damages(whole: Draft) -> Iterator[Damage]:
    yield Damage("seven octets", lambda d: replace(d, cut=HEADER_LENGTH - 1), Refusal(21))
    yield Damage("kind 3", lambda d: replace(d, kind_number=3), Refusal(22))
    yield Damage("edition 2", lambda d: replace(d, edition=2), Refusal(22))
    yield Damage("record length 48", lambda d: replace(d, record_length=48), Refusal(22))
    yield Damage("large count", lambda d: replace(d, count=2**32 - 1), Refusal(23))
    yield Damage("count one above", lambda d: replace(d, count=whole.count + 1), Refusal(23))


def moved_start(whole: Draft, record: int) -> Draft:
    start = whole.legs[record].start
    return restarted(whole, record, moved(start, 0, start[0] + 1))


def far_end(whole: Draft, record: int) -> Draft:
    return whole.with_leg(record, end=moved(whole.legs[record].end, 0, GREATEST_COORDINATE + 1))


def spared(whole: Draft, record: int) -> Draft:
    return replace(whole, spares={**whole.spares, record: b"\0\1"})


def record_damages(record: int) -> Iterator[Damage]:
    no_leg = Refusal(24, record)
    off_chain = Refusal(25, record)
    yield Damage(f"degree 0 at {record}", lambda d: d.with_leg(record, degree=0), no_leg)
    yield Damage(f"end beyond at {record}", lambda d: far_end(d, record), no_leg)
    yield Damage(f"spare octet at {record}", lambda d: spared(d, record), no_leg)
    yield Damage(f"from 100 at {record}", lambda d: d.with_leg(record, from_=100), off_chain)
    if record > 0:
        yield Damage(f"start moved at {record}", lambda d: moved_start(d, record), off_chain)


def end_damages(whole: Draft) -> Iterator[Damage]:
    last = whole.count - 1
    yield Damage("open end", lambda d: with_cell(d, last, (2, 2)), Refusal(25, whole.count))
    trailing = bytes(len(whole.room) - 1) + b"\1"
    yield Damage("trailing octet", lambda d: replace(d, room=trailing), Refusal(26))


def damages(whole: Draft) -> Iterator[Damage]:
    yield from header_damages(whole)
    for record in range(whole.count):
        yield from record_damages(record)
    yield from end_damages(whole)


def pair_samples(kind: Kind) -> Iterator[Sample]:
    whole = two_spans(kind, room=3)
    for one, other in combinations(damages(whole), 2):
        meant = min(one.meant, other.meant, key=place_in_order)
        damaged = other.do(one.do(whole))
        yield damaged.sample(f"{one.name} and {other.name}", meant)
