"""The second reader of plan texts: what plan prints, and the card that plan_card
writes.

Written from plan-text.md alone and meant to be held beside it, over the second
turns.
"""

from __future__ import annotations

import re
from collections.abc import Iterator
from dataclasses import dataclass

from card import HEADER_LENGTH, KINDS, Kind, Leg, Point, Refusal, write
from curves import GREATEST_DEGREE, REDUCTIONS, Reduction, work_needed
from outlets import RecordTable
from turns import Draft, Sealed, Span, begin, lay, listed, seal, strike

# --- plan-text.md: the exact grammar

NUMBER = rb"(?:0|-?[1-9][0-9]{0,9})"
AT = rb"\(at " + NUMBER + rb"(?: " + NUMBER + rb")?\)"
TURN_FORM = re.compile(
    rb"\(turn \(kind (flow|box)\) \(legs (chord|matching)\)"
    rb" \(within (%b)\) \(depth (%b)\) \(ticks (%b)\)\)" % (NUMBER, NUMBER, NUMBER)
)
SPAN_FORM = re.compile(rb"\(span \(ticks (%b)\)((?: %b)*)\)" % (NUMBER, AT))
STRIKE_FORM = b"(strike)"
SEAL_FORM = b"(seal)"


@dataclass(frozen=True)
class TurnForm:
    kind: Kind
    reduction: Reduction
    within: int
    depth: int
    ticks: int


@dataclass(frozen=True)
class SpanForm:
    """Its points have one number or two each, whatever the kind."""

    ticks: int
    points: tuple[Point, ...]


@dataclass(frozen=True)
class StrikeForm:
    pass


@dataclass(frozen=True)
class SealForm:
    pass


Form = TurnForm | SpanForm | StrikeForm | SealForm


def points_of_ats(ats: bytes) -> tuple[Point, ...]:
    return tuple(
        tuple(int(number) for number in re.findall(NUMBER, at)) for at in re.findall(AT, ats)
    )


def form_of(line: bytes) -> Form | None:
    """The form that a line is, if it is one."""
    if line == STRIKE_FORM:
        return StrikeForm()
    if line == SEAL_FORM:
        return SealForm()
    turn = TURN_FORM.fullmatch(line)
    if turn:
        kind, legs, *numbers = turn.groups()
        (kind_named,) = (each for each in KINDS if each.name.encode() == kind)
        (reduction,) = (each for each in REDUCTIONS if each.name.encode() == legs)
        return TurnForm(kind_named, reduction, *map(int, numbers))
    span = SPAN_FORM.fullmatch(line)
    if span:
        ticks, ats = span.groups()
        return SpanForm(int(ticks), points_of_ats(ats))
    return None


def lines_of(text: bytes) -> list[bytes]:
    *ended, rest = text.split(b"\n")
    return [*ended, rest] if rest else ended


# --- plan-text.md: what is printed


def at_text(point: Point) -> str:
    return f"(at {' '.join(map(str, point))})"


def leg_line(leg: Leg) -> str:
    points = " ".join(map(at_text, (leg.start, leg.middle, leg.end)))
    return (
        f"(leg (from {leg.from_}) (ticks {leg.ticks}) (cell {leg.depth} {leg.index})"
        f" (degree {leg.degree}) {points})\n"
    )


def sealed_line(sealed: Sealed) -> str:
    return f"(sealed (legs {sealed.count}) (ticks {sealed.end}))\n"


def refused_line(refusal: Refusal, line: int) -> str:
    return f"(refused {refusal.number} (line {line}))\n"


# --- plan-text.md: why a line is refused, and a line at a time

LEAST_BUFFER = 160
MOST_LEGS = 512
MOST_WORK = work_needed(10, GREATEST_DEGREE + 1)


def is_out_of_place(form: Form, turn: Draft | Sealed | None) -> bool:
    if isinstance(turn, Sealed):
        return True
    return isinstance(form, TurnForm) == (turn is not None)


def is_unlike(form: Form, kind: Kind) -> bool:
    """Whether it is a span with a point that is unlike the turn's kind."""
    return isinstance(form, SpanForm) and any(
        len(point) != kind.coordinates for point in form.points
    )


def print_on(buffer: bytearray, line: str) -> int:
    octets = line.encode("ascii")
    buffer[: len(octets)] = octets
    return len(octets)


class Session:
    """The turn typed so far, a record table with its legs, and the number of the last
    line. There is no table before a turn says of which kind."""

    table: RecordTable

    def __init__(self, capacity: int = MOST_LEGS) -> None:
        self.capacity = capacity
        self.turn: Draft | Sealed | None = None
        self.line = 0

    def take_line(self, line: bytes, buffer: bytearray) -> int | Refusal:
        """Prints the answer to the next line; answers its length, 0 where there is
        nothing to print."""
        if len(buffer) < LEAST_BUFFER:
            return Refusal(44)
        self.line += 1
        refused = self.refusal_of(line)
        if refused is not None:
            return print_on(buffer, refused_line(refused, self.line))
        if isinstance(self.turn, Sealed):
            return print_on(buffer, sealed_line(self.turn))
        return 0

    def show_leg(self, i: int, buffer: bytearray) -> int | Refusal:
        """Prints a leg of the sealed turn, or nothing; answers the length of that."""
        if len(buffer) < LEAST_BUFFER:
            return Refusal(44)
        if not isinstance(self.turn, Sealed):
            return 0
        leg = listed(self.turn, self.table, i)
        assert not isinstance(leg, Refusal), leg
        return 0 if leg is None else print_on(buffer, leg_line(leg))

    def refusal_of(self, line: bytes) -> Refusal | None:
        form = form_of(line)
        if form is None:
            return Refusal(41)
        if is_out_of_place(form, self.turn):
            return Refusal(42)
        if isinstance(self.turn, Draft) and is_unlike(form, self.turn.terms.kind):
            return Refusal(41)
        after = self.carried_out(form)
        if isinstance(after, Refusal):
            return after
        self.turn = after
        return None

    def carried_out(self, form: Form) -> Draft | Sealed | Refusal:
        """What a form in its place makes of the turn."""
        if isinstance(form, TurnForm):
            self.table = RecordTable(form.kind, self.capacity)
            return begin(form.kind, form.reduction, form.within, form.depth, form.ticks)
        assert isinstance(self.turn, Draft)
        if isinstance(form, SpanForm):
            work = [(0,) * self.table.kind.coordinates] * MOST_WORK
            return lay(self.turn, self.table, Span(form.points, form.ticks), work)
        if isinstance(form, StrikeForm):
            return strike(self.turn, self.table)
        return seal(self.turn, self.table)


# --- plan-text.md: the programs

MOST_OCTETS = 16_384


@dataclass(frozen=True)
class Planned:
    """What plan and plan_card print, and the card that plan_card writes, if any. Where
    there is one, its status is 0, else 1; that of plan is always 0."""

    printed: bytes
    card: bytes | None


def printed_of_session(session: Session, lines: list[bytes]) -> Iterator[bytes]:
    """The printed lines. A seal that is accepted prints the legs before its answer."""
    buffer = bytearray(LEAST_BUFFER)
    for line in lines:
        length = session.take_line(line, buffer)
        assert not isinstance(length, Refusal), length
        answer = bytes(buffer[:length])
        if answer.startswith(b"(sealed"):
            yield from shown_legs(session, buffer)
        if answer:
            yield answer


def shown_legs(session: Session, buffer: bytearray) -> Iterator[bytes]:
    i = 0
    while length := session.show_leg(i, buffer):
        assert not isinstance(length, Refusal), length
        yield bytes(buffer[:length])
        i += 1


def card_of(kind: Kind, legs: list[Leg]) -> bytes:
    """The header and the records, and no octet after them."""
    return write(kind, legs, HEADER_LENGTH + len(legs) * kind.record_length)


def plan(text: bytes) -> Planned:
    if len(text) > MOST_OCTETS:
        return Planned(refused_line(Refusal(43), 0).encode("ascii"), None)
    session = Session()
    printed = list(printed_of_session(session, lines_of(text)))
    refused = any(line.startswith(b"(refused") for line in printed)
    card = None
    if isinstance(session.turn, Sealed) and not refused:
        card = card_of(session.table.kind, session.table.legs())
    return Planned(b"".join(printed), card)
