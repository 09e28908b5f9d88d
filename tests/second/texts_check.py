"""Holds the second reader of plan texts to docs/plan-text.md, and to what the texts
are meant to give."""

from __future__ import annotations

import re
from collections.abc import Iterator

from card import BOX, FLOW, Card, Leg, Point, Refusal, is_chain, last_tick, read, write
from curves import LIMIT
from doc_examples import plan_examples
from make_examples import TWO_HALVES
from plan_text import LEAST_BUFFER, NUMBER, Session, form_of, leg_line, lines_of, plan
from text_samples import HELD, SEAL, TURN, Text, Told, flow_span, form_text

# --- What plan-text.md says

MOST_PRINTED = 145


def session_after(*lines: str) -> Session:
    session = Session()
    for line in lines:
        session.take_line(line.encode("ascii"), bytearray(LEAST_BUFFER))
    return session


def buffer_claims() -> Iterator[tuple[str, bool]]:
    session = session_after(TURN)
    turn, short = session.turn, bytearray(b"\xa5" * (LEAST_BUFFER - 1))
    answers = session.take_line(b"", short), session.show_leg(0, short)
    yield "plan-text.md: a short buffer", answers == (Refusal(44), Refusal(44))
    left = session.turn, session.line, short == b"\xa5" * len(short)
    yield "plan-text.md: nothing is changed with a short buffer", left == (turn, 1, True)
    buffer = bytearray(b"\xa5" * 200)
    refused = b"(refused 41 (line 2))\n"
    length = session.take_line(b"", buffer)
    yield "plan-text.md: a line is counted", length == len(refused)
    same = buffer == refused.ljust(200, b"\xa5")
    yield "plan-text.md: the other octets of the buffer", same


def leg_claims() -> Iterator[tuple[str, bool]]:
    buffer = bytearray(LEAST_BUFFER)
    begun = session_after(TURN, HELD)
    yield "plan-text.md: no legs before a seal", begun.show_leg(0, buffer) == 0
    sealed = session_after(TURN, HELD, flow_span(4, 7, 7), SEAL)
    lengths = [sealed.show_leg(i, buffer) for i in (0, 1, 2, 512, 2**64)]
    yield "plan-text.md: legs of a sealed turn", 0 not in lengths[:2] and not any(lengths[2:])
    yield "plan-text.md: a leg is no line", sealed.line == 4
    far, low = (-4 * LIMIT,) * 2, (-LIMIT,) * 2
    longest = leg_line(Leg(61_440, 4_096, 10, 1_023, 2, low, far, low))
    yield "plan-text.md: the longest line", len(longest) <= MOST_PRINTED < LEAST_BUFFER


def card_claims() -> Iterator[tuple[str, bool]]:
    examples = plan_examples()
    (first, _), (flow, _), (box, _), (mistakes, _) = examples
    yield "plan-text.md: its first text", plan(first).card == write(FLOW, TWO_HALVES, 80)
    sizes = [len(plan(text).card or b"") for text in (flow, box, mistakes)]
    yield "plan-text.md: lengths of cards", sizes == [8 + 36 * 9, 8 + 60 * 4, 0]


def text_claims() -> Iterator[tuple[str, bool]]:
    """What plan-text.md says, each with whether it is so here."""
    for i, (text, printed) in enumerate(plan_examples()):
        yield f"plan-text.md: text {i}", plan(text).printed == printed
    yield from card_claims()
    yield from buffer_claims()
    yield from leg_claims()


# --- What is printed for a text

PRINTED_AT = rb"\(at %b(?: %b)?\)" % (NUMBER, NUMBER)
PRINTED_LEG = re.compile(
    rb"\(leg \(from (%b)\) \(ticks (%b)\) \(cell (%b) (%b)\) \(degree (%b)\) (%b) (%b) (%b)\)\n"
    % ((NUMBER,) * 5 + (PRINTED_AT,) * 3)
)
PRINTED_SEALED = re.compile(rb"\(sealed \(legs (%b)\) \(ticks (%b)\)\)\n" % (NUMBER, NUMBER))
PRINTED_REFUSED = re.compile(rb"\(refused (%b) \(line (%b)\)\)\n" % (NUMBER, NUMBER))


def point_of_at(at: bytes) -> Point:
    return tuple(map(int, re.findall(NUMBER, at)))


def leg_of_printed(line: bytes) -> Leg | None:
    printed = PRINTED_LEG.fullmatch(line)
    if printed is None:
        return None
    *numbers, start, middle, end = printed.groups()
    return Leg(*map(int, numbers), *map(point_of_at, (start, middle, end)))


def refusals_of(printed: bytes) -> tuple[Told, ...]:
    lines = map(PRINTED_REFUSED.fullmatch, printed.splitlines(keepends=True))
    return tuple((int(line[1]), int(line[2])) for line in lines if line)


def printed_fault(printed: bytes) -> str | None:
    """What is wrong with the printed lines by themselves."""
    legs: list[Leg] = []
    for line in printed.splitlines(keepends=True):
        leg = leg_of_printed(line)
        sealed = PRINTED_SEALED.fullmatch(line)
        if leg is not None:
            legs.append(leg)
        elif sealed:
            told = int(sealed[1]), int(sealed[2])
            if told != (len(legs), last_tick(legs)) or not is_chain(legs):
                return "prints legs that are no whole turn"
        elif not PRINTED_REFUSED.fullmatch(line):
            return f"prints {line!r}"
        if len(line) > MOST_PRINTED:
            return f"prints a line of {len(line)} octets"
    return None


def card_fault(printed: bytes, card: bytes | None) -> str | None:
    """What is wrong with the card, by the printed lines."""
    legs = [leg for leg in map(leg_of_printed, printed.splitlines(keepends=True)) if leg]
    if not legs or refusals_of(printed):
        return None if card is None else "has a card that it should not have"
    kind = FLOW if len(legs[0].start) == 1 else BOX
    if card is None or read(card) != Card(kind, tuple(legs)):
        return "has a card that is not that of its legs"
    return None if len(card) == 8 + kind.record_length * len(legs) else "has too long a card"


def form_fault(line: bytes) -> str | None:
    """A form is typed in one way alone."""
    form = form_of(line)
    if form is None or form_text(form).encode("ascii") == line:
        return None
    return f"takes {line!r} for {form}"


def text_fault(text: Text) -> str | None:
    planned = plan(text.octets)
    refused = refusals_of(planned.printed)
    if text.meant is not None and refused != text.meant:
        return f"{text.name}: {text.octets!r} is meant to give {text.meant}, gives {refused}"
    faults = [printed_fault(planned.printed), card_fault(planned.printed, planned.card)]
    faults += map(form_fault, lines_of(text.octets))
    fault = next(filter(None, faults), None)
    return None if fault is None else f"{text.name}: {text.octets!r} {fault}"
