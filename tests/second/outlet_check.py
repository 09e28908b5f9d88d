"""Holds the second outlets to docs/outlets.md, to plain lists, and to the second
reader."""

from __future__ import annotations

from collections.abc import Iterator, Sequence

from card import BOX, FLOW, HEADER_LENGTH, Card, Kind, Leg, is_leg, read, write
from drafts import draft
from make_examples import TWO_HALVES
from outlets import CardOutlet, Outlet, RecordTable, blank_leg, lent, written
from trials import Script, answer_of, leg_of, started


def card_claims() -> Iterator[tuple[str, bool]]:
    short = CardOutlet(FLOW, lent(7))
    yield "outlets.md: seven octets", (short.octets, short.capacity) == (bytes(7), 0)
    card = CardOutlet(FLOW, lent(80))
    header = bytes.fromhex("01 01 00 24 00 00 00 00")
    yield "outlets.md: a card started", card.octets == header + bytes(72)
    first, second = TWO_HALVES
    yield "outlets.md: legs put in any order", (card.put(second), card.put(first)) == (None, None)
    card.keep(0)
    yield "outlets.md: none kept", card.octets == header + bytes(72)
    yield "outlets.md: legs put", (card.put(first), card.put(second)) == (None, None)
    whole = write(FLOW, TWO_HALVES, 80)
    yield "outlets.md: the example", card.octets == whole
    yield "outlets.md: no room", (card.put(first), card.free()) == (31, 0)
    card.keep(1)
    yield "outlets.md: one kept", card.octets == header[:7] + b"\1" + whole[8:44] + bytes(36)


def table_claims() -> Iterator[tuple[str, bool]]:
    table = RecordTable(BOX, 1)
    zero = (0, 0)
    blank = Leg(0, 1, 0, 0, 1, zero, zero, zero)
    yield "outlets.md: the blank leg", table.records == [blank]
    yield "outlets.md: a table started", (table.count(), table.free(), table.get(0)) == (0, 1, None)
    leg, none = Leg(5, 6, 3, 7, 1, (8, 9), (8, 9), zero), Leg(5, 6, 3, 8, 1, zero, zero, zero)
    yield "outlets.md: a leg put", (table.put(leg), table.get(0), table.get(1)) == (None, leg, None)
    yield "outlets.md: 24 before 31", (table.put(none), table.put(leg)) == (24, 31)
    table.keep(2)
    yield "outlets.md: all kept", (table.count(), table.records) == (1, [leg])
    table.keep(0)
    yield "outlets.md: a record given up", (table.count(), table.records) == (0, [blank])


def outlet_claims() -> Iterator[tuple[str, bool]]:
    """What outlets.md says, each with whether it is so here."""
    yield from card_claims()
    yield from table_claims()


def card_of(kind: Kind, legs: Sequence[Leg], size: int) -> bytes:
    """The header, the records and zeros, or zeros alone where no header fits."""
    if size < HEADER_LENGTH:
        return bytes(size)
    return draft(kind, legs, size - HEADER_LENGTH - len(legs) * kind.record_length).octets()


def holds(outlet: Outlet, legs: list[Leg]) -> bool:
    """Whether the outlet is just as one that holds this list must be."""
    if isinstance(outlet, CardOutlet):
        as_it_must = outlet.octets == card_of(outlet.kind, legs, len(outlet.octets))
    else:
        assert isinstance(outlet, RecordTable)
        blanks = [blank_leg(outlet.kind)] * (outlet.capacity - len(legs))
        as_it_must = outlet.records == legs + blanks
    return as_it_must and (outlet.count(), outlet.legs()) == (len(legs), legs)


def list_after(outlet: Outlet, legs: list[Leg], line: str) -> list[Leg]:
    """The list that the outlet must hold after a line of a script."""
    word, *words = line.split(" ")
    if word == "put":
        leg = leg_of(outlet.kind, words)
        has_room = len(legs) < outlet.capacity
        return [*legs, leg] if has_room and is_leg(outlet.kind, leg) else legs
    return legs[: int(words[0])] if word == "keep" else legs


def script_fault(script: Script) -> str | None:
    start, *rest = script.exchanges
    word, _, size = start.line.split(" ")
    outlet = started(word, script.outlet.kind, int(size))
    legs: list[Leg] = []
    for exchange in rest:
        legs = list_after(outlet, legs, exchange.line)
        answer_of(outlet, exchange.line)
        if not holds(outlet, legs):
            return f"{start.line}: not as it must be with {len(legs)} legs, after {exchange.line}"
    return None


def writing_fault(card: Card, octets: bytes) -> str | None:
    """What is wrong with writing the list of an accepted card."""
    kind, legs = card.kind, card.legs
    if written(kind, legs, len(octets)) != octets:
        return "is not what putting its legs gives"
    least = HEADER_LENGTH + len(legs) * kind.record_length
    for size in (least, least + 1, least + kind.record_length):
        again = written(kind, legs, size)
        if isinstance(again, int) or read(again) != card:
            return f"has legs that are not read back from {size} octets"
    if legs and written(kind, legs, least - 1) != 31:
        return f"has legs that fit into {least - 1} octets"
    return None
