"""Test cards with a field at a limit, or just beyond one."""

from __future__ import annotations

from collections.abc import Iterator
from typing import Any

from card import GREATEST_COORDINATE, LEAST_COORDINATE, Kind, Leg
from damaged import base, two_spans
from drafts import WHOLE, Draft, Sample, Span, draft, moved
from valid import falling_stair

BEYOND = (GREATEST_COORDINATE + 1, LEAST_COORDINATE - 1, 2**63 - 1, -(2**63), 2**34, -(2**34))
Fields = dict[str, Any]


def numbers_beyond(leg: Leg) -> Iterator[Fields]:
    """Changes of one or two number fields, after each of which this is no leg."""
    for from_ in (65_536 - leg.ticks + 1, 65_536, 65_537, 2**31, 2**32 - leg.ticks, 2**32 - 1):
        yield {"from_": from_}
    yield {"from_": 65_535, "ticks": 2}
    yield {"from_": 65_536, "ticks": 1}
    yield {"from_": 2**32 - 1, "ticks": 1}
    yield {"from_": 61_441, "ticks": 4_096}
    for ticks in (0, 4_097, 8_192, 65_535):
        yield {"ticks": ticks}
    for depth in (11, 16, 31, 32, 33, 63, 64, 65, 127, 128, 255):
        yield {"depth": depth}
        yield {"depth": depth, "index": 0}
    for index in (2**leg.depth, 2**leg.depth + 1, 256, 65_535):
        yield {"index": index}
    yield {"depth": 0, "index": 1}
    yield {"depth": 10, "index": 1_024}
    for degree in (0, 3, 4, 128, 129, 130, 255):
        yield {"degree": degree}


def points_beyond(kind: Kind, leg: Leg) -> Iterator[Fields]:
    """Changes of a coordinate, after each of which this is no leg."""
    for which in range(kind.coordinates):
        for value in BEYOND:
            start = moved(leg.start, which, value)
            yield {"degree": 2, "start": start}
            yield {"degree": 1, "start": start, "middle": start}
            yield {"degree": 2, "middle": moved(leg.middle, which, value)}
            yield {"end": moved(leg.end, which, value)}
        for value in (leg.start[which] + 1, leg.start[which] - 1, leg.start[which] ^ 2**32):
            yield {"degree": 1, "middle": moved(leg.start, which, value)}


def fields_beyond(kind: Kind) -> Iterator[Sample]:
    whole = two_spans(kind)
    for record, leg in enumerate(whole.legs):
        for fields in (*numbers_beyond(leg), *points_beyond(kind, leg)):
            yield whole.with_leg(record, **fields).refused(f"no leg: {fields}", 24, record)


def fields_within(kind: Kind) -> Iterator[Sample]:
    """Fields at a limit that make a leg, but one that is not in this chain."""
    whole = two_spans(kind)
    for record, leg in enumerate(whole.legs):
        for fields in (
            {"from_": 65_536 - leg.ticks},
            {"from_": 65_535, "ticks": 1},
            {"from_": 61_440, "ticks": 4_096},
            {"depth": 10, "index": 1_023},
        ):
            yield whole.with_leg(record, **fields).refused(f"leg: {fields}", 25, record)
        # The first leg of a span may last otherwise; its follower then does not.
        broken_at = record + 1 if leg.index == 0 else record
        for ticks in (1, 4_096):
            broken = whole.with_leg(record, ticks=ticks)
            yield broken.refused(f"leg of {ticks} ticks", 25, broken_at)


def joined(whole: Draft, record: int, which: int, value: int) -> Draft:
    """The draft with another coordinate where a record's leg ends and the next starts."""
    point = moved(whole.legs[record].end, which, value)
    ended = whole.with_leg(record, end=point)
    follower = whole.legs[record + 1]
    middle = point if follower.degree == 1 else follower.middle
    return ended.with_leg(record + 1, start=point, middle=middle)


def points_within(kind: Kind) -> Iterator[Sample]:
    """Coordinates at a limit, in cards that are accepted."""
    whole = two_spans(kind)
    last = whole.count - 1
    for which in range(kind.coordinates):
        for value in (LEAST_COORDINATE, GREATEST_COORDINATE):
            first = moved(whole.legs[0].start, which, value)
            yield whole.with_leg(0, start=first).accepted(f"first starts at {value}")
            final = moved(whole.legs[last].end, which, value)
            yield whole.with_leg(last, end=final).accepted(f"last ends at {value}")
            for record in range(last):
                joint = joined(whole, record, which, value)
                yield joint.accepted(f"leg {record} ends at {value}")
            for record, leg in enumerate(whole.legs):
                middle = moved(leg.middle, which, value)
                bent = whole.with_leg(record, degree=2, middle=middle)
                yield bent.accepted(f"leg {record} by {value}")


def degrees_within(kind: Kind) -> Iterator[Sample]:
    whole = two_spans(kind)
    for record, leg in enumerate(whole.legs):
        for degree in (1, 2):
            changed = whole.with_leg(record, degree=degree, middle=leg.start)
            yield changed.accepted(f"leg {record} of degree {degree}, middle at its start")


def turn_limits(kind: Kind) -> Iterator[Sample]:
    """The end of the longest turn, and of the deepest halving, from both sides."""
    full = [Span(4_096, WHOLE)] * 15
    for ticks, more, refused in ((4_096, 1, 24), (4_095, 2, 24), (4_095, 1, None)):
        whole = base(kind, [*full, Span(ticks, WHOLE), Span(more, WHOLE)])
        name = f"turn of {61_440 + ticks + more} ticks, last {more}"
        yield whole.refused(name, refused, 16) if refused else whole.accepted(name)
    ended = base(kind, [*full, Span(4_096, WHOLE)])
    again = draft(kind, (*ended.legs, ended.legs[15]))
    yield again.refused("a leg after tick 65536", 25, 16)
    for depth in (9, 10, 11):
        whole = base(kind, [Span(4_096, falling_stair(depth))])
        name = f"stair to depth {depth}"
        yield whole.accepted(name) if depth <= 10 else whole.refused(name, 24, 10)


def limit_field_samples(kind: Kind) -> Iterator[Sample]:
    yield from fields_beyond(kind)
    yield from fields_within(kind)
    yield from points_within(kind)
    yield from degrees_within(kind)
    yield from turn_limits(kind)
