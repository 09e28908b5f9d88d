"""The second outlets.

Written from outlets.md alone and meant to be held beside it, like the second
reader. To make an outlet is to start it.
"""

from __future__ import annotations

from abc import ABC, abstractmethod
from collections.abc import Sequence

from card import (
    EDITION,
    HEADER_LENGTH,
    Kind,
    Leg,
    header_octets,
    is_leg,
    number_octets,
    number_of,
    record_fields,
    record_octets,
)
from card import capacity as capacity_of_card


class Outlet(ABC):
    """The calls of every outlet. Each outlet says how it starts, and how it holds
    its list."""

    def __init__(self, kind: Kind, capacity: int) -> None:
        self.kind = kind
        self.capacity = capacity

    @abstractmethod
    def count(self) -> int: ...

    def free(self) -> int:
        return self.capacity - self.count()

    def get(self, i: int) -> Leg | None:
        return self.held(i) if i < self.count() else None

    def put(self, leg: Leg) -> int | None:
        """Answers the number of a refusal, or None where it is done."""
        if not is_leg(self.kind, leg):
            return 24
        if self.free() == 0:
            return 31
        self.add(leg)
        return None

    def keep(self, n: int) -> None:
        if n < self.count():
            self.leave(n)

    def legs(self) -> list[Leg]:
        """The whole list."""
        return [self.held(i) for i in range(self.count())]

    @abstractmethod
    def held(self, i: int) -> Leg:
        """Leg i, which is below the count."""

    @abstractmethod
    def add(self, leg: Leg) -> None:
        """Adds the leg at the end of the list, where there is room for it."""

    @abstractmethod
    def leave(self, n: int) -> None:
        """Leaves the first n legs of a list that has more."""


# --- outlets.md: the record table


def blank_leg(kind: Kind) -> Leg:
    zero = (0,) * kind.coordinates
    return Leg(from_=0, ticks=1, depth=0, index=0, degree=1, start=zero, middle=zero, end=zero)


class RecordTable(Outlet):
    """Its whole state is `records`, and the count."""

    def __init__(self, kind: Kind, capacity: int) -> None:
        super().__init__(kind, capacity)
        self.records = [blank_leg(kind) for _ in range(capacity)]
        self.used = 0

    def count(self) -> int:
        return self.used

    def held(self, i: int) -> Leg:
        return self.records[i]

    def add(self, leg: Leg) -> None:
        self.records[self.used] = leg
        self.used += 1

    def leave(self, n: int) -> None:
        for i in range(n, self.used):
            self.records[i] = blank_leg(self.kind)
        self.used = n


# --- outlets.md: the card

COUNT_PLACE = slice(4, 8)


class CardOutlet(Outlet):
    """Its whole state is `octets`, which are lent to it. Somebody else may have written
    over them since: then it holds as many records as the count and the length allow,
    whatever their fields (DECISIONS.md)."""

    def __init__(self, kind: Kind, octets: bytearray) -> None:
        has_header = len(octets) >= HEADER_LENGTH
        super().__init__(kind, capacity_of_card(kind, len(octets)) if has_header else 0)
        self.octets = octets
        octets[:] = bytes(len(octets))
        if has_header:
            header = header_octets(kind.number, EDITION, kind.record_length, 0)
            octets[:HEADER_LENGTH] = header

    def write_count(self, count: int) -> None:
        self.octets[COUNT_PLACE] = number_octets(count, 4)

    def place(self, i: int) -> slice:
        """The octets of record i."""
        at = HEADER_LENGTH + i * self.kind.record_length
        return slice(at, at + self.kind.record_length)

    def count(self) -> int:
        return min(number_of(self.octets[COUNT_PLACE]), self.capacity)

    def held(self, i: int) -> Leg:
        leg, _ = record_fields(self.kind, bytes(self.octets[self.place(i)]))
        return leg

    def add(self, leg: Leg) -> None:
        count = self.count()
        self.octets[self.place(count)] = record_octets(leg)
        self.write_count(count + 1)

    def leave(self, n: int) -> None:
        for i in range(n, self.count()):
            self.octets[self.place(i)] = bytes(self.kind.record_length)
        self.write_count(n)


LENT_OCTET = 0xA5


def lent(size: int) -> bytearray:
    """Octets as an outlet may get them: starting has all of them to set."""
    return bytearray([LENT_OCTET] * size)


def written(kind: Kind, legs: Sequence[Leg], size: int) -> bytes | int:
    """The card of `size` octets to which the list is written, or the number of the
    refusal."""
    outlet = CardOutlet(kind, lent(size))
    for leg in legs:
        refused = outlet.put(leg)
        if refused is not None:
            return refused
    return bytes(outlet.octets)
