"""Test cards with damage to their octets, header, count, spare octets or room."""

from __future__ import annotations

from collections.abc import Iterable, Iterator, Sequence
from dataclasses import replace
from itertools import count, cycle
from random import Random

from card import BOX, FLOW, HEADER_LENGTH, Kind, Refusal, capacity, header_octets
from drafts import WHOLE, Draft, Place, Sample, Span, draft, legs_at, places

HALVES = ((1, 0), (1, 1))
QUARTERS_THEN_HALF = ((2, 0), (2, 1), (1, 1))


def base_at(kind: Kind, where: Iterable[Place], room: int = 0) -> Draft:
    """A draft to damage: all its points differ, its degrees take turns."""
    numbers = count(-20, 7)
    taken = cycle((2, 1))
    legs = legs_at(
        where,
        lambda: tuple(next(numbers) for _ in range(kind.coordinates)),
        lambda: next(taken),
    )
    return draft(kind, legs, room)


def base(kind: Kind, spans: Sequence[Span], room: int = 0) -> Draft:
    return base_at(kind, places(spans), room)


def two_spans(kind: Kind, room: int = 0) -> Draft:
    """Five legs: records 0 and 1 are the first span, 2 to 4 the second."""
    return base(kind, [Span(4, HALVES), Span(3, QUARTERS_THEN_HALF)], room)


def small_bases(kind: Kind) -> tuple[Draft, ...]:
    """Two legs of one span, exactly full; three of two spans, with spare room."""
    return (
        base(kind, [Span(4, HALVES)]),
        base(kind, [Span(5, HALVES), Span(2, WHOLE)], room=4),
    )


def octet_changes(rng: Random, whole: Draft) -> Iterator[Sample]:
    """Every octet changed in turn."""
    octets = whole.octets()
    for at, old in enumerate(octets):
        others = {0, 255, (old + 1) % 256, old ^ rng.randint(1, 255)} - {old}
        meant = Refusal(22) if at < 4 else None
        for new in sorted(others):
            changed = octets[:at] + bytes([new]) + octets[at + 1 :]
            name = f"{whole.kind.name}: octet {at} of {len(octets)} from {old} to {new}"
            yield Sample(name, changed, meant)


def truncations(whole: Draft) -> Iterator[Sample]:
    """Every length from none to all."""
    size = len(whole.octets())
    for cut in range(size + 1):
        short = replace(whole, cut=cut)
        name = f"first {cut} octets of {size}"
        if cut < HEADER_LENGTH:
            yield short.refused(name, 21)
        elif whole.count > capacity(whole.kind, cut):
            yield short.refused(name, 23)
        else:
            yield short.accepted(name)


def header_damages(whole: Draft) -> Iterator[Sample]:
    kind = whole.kind
    other = BOX if kind == FLOW else FLOW
    for number in (0, other.number, 3, 128, 255):
        yield replace(whole, kind_number=number).refused(f"kind {number}", 22)
    for edition in (0, 2, 128, 255):
        yield replace(whole, edition=edition).refused(f"edition {edition}", 22)
    swapped = kind.record_length * 256
    length = kind.record_length
    for wrong in (0, 1, length - 1, length + 1, other.record_length, swapped, 65_535):
        yield replace(whole, record_length=wrong).refused(f"record length {wrong}", 22)
    disguised = replace(whole, kind_number=other.number, record_length=other.record_length)
    yield disguised.sample(f"header of a {other.name} card", None)


def count_damages(kind: Kind) -> Iterator[Sample]:
    for room in (0, 1, kind.record_length - 1, kind.record_length, 3 * kind.record_length):
        whole = two_spans(kind, room)
        fits = capacity(kind, len(whole.octets()))
        for above in (fits + 1, fits + 2, fits + 65_536, 67_108_864, 67_108_865, 2**31, 2**32 - 1):
            name = f"count {above}, capacity {fits}"
            yield replace(whole, count=above).refused(name, 23)
        for more in range(6, fits + 1):
            # Record 5 is zeros, and a leg never lasts 0 ticks.
            yield replace(whole, count=more).refused(f"count {more} of 5 records", 24, 5)
        yield replace(whole, count=0).refused("count 0 before records", 26)
        yield replace(whole, count=1).refused("count 1 of 5 records", 25, 1)
        yield replace(whole, count=2).refused("count 2 of 5 records", 26)
        yield replace(whole, count=3).refused("count 3 of 5 records", 25, 3)
        yield replace(whole, count=4).refused("count 4 of 5 records", 25, 4)
    for size in range(kind.record_length):
        cramped = replace(draft(kind, ()), room=b"\1" * size, count=1)
        yield cramped.refused(f"count 1, {size} octets after the header", 23)


def room_damages(kind: Kind) -> Iterator[Sample]:
    """An octet that is not zero at each place of the spare room."""
    for size in (1, 5, kind.record_length, kind.record_length + 3):
        for whole in (two_spans(kind), draft(kind, ())):
            for at in range(size):
                octet = (1, 128, 255)[at % 3]
                room = bytes(at) + bytes([octet]) + bytes(size - at - 1)
                name = f"{whole.count} legs, octet {at} of {size} after them is {octet}"
                yield replace(whole, room=room).refused(name, 26)


def spare_damages(kind: Kind) -> Iterator[Sample]:
    whole = two_spans(kind)
    for record in range(whole.count):
        for spare in (b"\1\0", b"\0\1", b"\x80\0", b"\0\xff", b"\xff\xff"):
            damaged = replace(whole, spares={record: spare})
            yield damaged.refused(f"spare octets {spare.hex()}", 24, record)


def scattered(rng: Random, valid: Sequence[Sample], number: int) -> Iterator[Sample]:
    """Small accepted cards, one to three octets of each changed at random."""
    small = [sample for sample in valid if 8 <= len(sample.octets) <= 600]
    for sample in rng.choices(small, k=number):
        octets = bytearray(sample.octets)
        for _ in range(rng.randint(1, 3)):
            octets[rng.randrange(len(octets))] = rng.choice((0, 1, 2, 255, rng.randrange(256)))
        yield Sample(f"{sample.name}, changed at random", bytes(octets), None)


def noise(rng: Random, number: int) -> Iterator[Sample]:
    """Random octets, half of them behind a right header."""
    for i in range(number):
        octets = rng.randbytes(rng.randrange(200))
        if i % 2:
            kind = rng.choice((FLOW, BOX))
            header = header_octets(kind.number, 1, kind.record_length, rng.randrange(4))
            octets = header + octets
        yield Sample(f"noise {i}", octets, None)


def damaged_samples(rng: Random, kind: Kind) -> Iterator[Sample]:
    for whole in small_bases(kind):
        yield from octet_changes(rng, whole)
        yield from truncations(whole)
        yield from header_damages(whole)
    yield from count_damages(kind)
    yield from room_damages(kind)
    yield from spare_damages(kind)
