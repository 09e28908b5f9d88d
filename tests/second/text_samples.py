"""Plan texts, well formed and damaged, the same for the same seed."""

from __future__ import annotations

from collections.abc import Iterator, Sequence
from dataclasses import dataclass
from itertools import product
from random import Random

from card import BOX, FLOW, KINDS, Kind, Point
from curves import CHORD, LIMIT, MATCHING, REDUCTIONS, Reduction, Row, least_tolerance
from curves_samples import SORTS, degrees_of, drawn_row
from doc_examples import plan_examples
from plan_text import (
    LEAST_BUFFER,
    Form,
    SealForm,
    Session,
    SpanForm,
    StrikeForm,
    TurnForm,
    at_text,
)
from turns import Draft

# Of a text that is read.
MOST_OCTETS = 16_384

# The number of a refusal, and of its line.
Told = tuple[int, int]


@dataclass(frozen=True)
class Text:
    """A plan text, and the refusals that it is meant to give; None where only the
    readers can tell."""

    name: str
    octets: bytes
    meant: tuple[Told, ...] | None = None


# --- Forms as they are typed


def turn_text(kind: Kind, reduction: Reduction, *numbers: int | str) -> str:
    within, depth, ticks = numbers
    agreed = f"(within {within}) (depth {depth}) (ticks {ticks})"
    return f"(turn (kind {kind.name}) (legs {reduction.name}) {agreed})"


def span_text(ticks: int | str, points: Sequence[Point]) -> str:
    return f"(span (ticks {ticks}){''.join(' ' + at_text(point) for point in points)})"


def form_text(form: Form) -> str:
    if isinstance(form, TurnForm):
        return turn_text(form.kind, form.reduction, form.within, form.depth, form.ticks)
    if isinstance(form, SpanForm):
        return span_text(form.ticks, form.points)
    return "(strike)" if isinstance(form, StrikeForm) else "(seal)"


STRIKE, SEAL = form_text(StrikeForm()), form_text(SealForm())


def flow_span(ticks: int | str, *flows: int) -> str:
    return span_text(ticks, [(flow,) for flow in flows])


def typed(*lines: str) -> bytes:
    return "".join(f"{line}\n" for line in lines).encode("latin-1")


def refused_from(first: int, numbers: Sequence[int]) -> tuple[Told, ...]:
    """Refusals of lines that follow one another; 0 for a line that is accepted."""
    return tuple((number, first + i) for i, number in enumerate(numbers) if number)


HELD = flow_span(4, 7, 7, 7)
TURN = turn_text(FLOW, CHORD, 10, 2, 8)

# --- Turns that are drawn

TYPED_SORTS = ("tiny", "small", "of litres", "walk", "long walk", "nearly straight", "ramp")


class Typist:
    """Types lines into a session, so that the next can be chosen by what the turn has
    come to."""

    def __init__(self, rng: Random, kind: Kind, reduction: Reduction, end: int) -> None:
        self.rng = rng
        self.kind = kind
        self.reduction = reduction
        self.end = end
        self.sort = rng.choice(TYPED_SORTS)
        self.session = Session()
        self.lines: list[str] = []

    def type(self, line: str) -> None:
        self.lines.append(line)
        self.session.take_line(line.encode("ascii"), bytearray(LEAST_BUFFER))

    def ticks_left(self) -> int:
        turn = self.session.turn
        return self.end - turn.laid_ticks if isinstance(turn, Draft) else self.end

    def drawn_row(self) -> Row:
        """Points that begin where the last span ends."""
        degree = self.rng.choice(degrees_of(self.reduction))
        row = drawn_row(self.rng, self.kind, degree + 1, SORTS[self.sort])
        turn = self.session.turn
        begins = turn.end_value if isinstance(turn, Draft) else None
        return row if begins is None else (begins, *row[1:])

    def type_turn(self) -> None:
        depth = self.rng.choice((0, 1, 2, 3, 4, 4, 5, 6))
        enough = least_tolerance(self.kind, self.reduction, depth, self.drawn_row())
        within = min(LIMIT, max(1, enough * self.rng.choice((1, 2, 10, 1_000))))
        self.type(turn_text(self.kind, self.reduction, within, depth, self.end))

    def type_span(self, spans_left: int) -> None:
        share = 2 * self.ticks_left() // spans_left
        ticks = self.rng.randint(1, max(1, min(4_096, share)))
        self.type(span_text(ticks, self.drawn_row()))

    def type_rest(self) -> None:
        """Flows that are held, to the end of the turn, and the seal."""
        for _ in range(0, self.ticks_left(), 4_096):
            held = self.drawn_row()[:1] * 3
            self.type(span_text(min(4_096, self.ticks_left()), held))
        self.type(SEAL)

    def type_slip(self) -> None:
        """A line that is most often refused, or a strike."""
        row = self.drawn_row()
        slips = (
            STRIKE,
            STRIKE,
            SEAL,
            span_text(self.end + 1, row),
            span_text(0, row),
            span_text(1, row[:1]),
            span_text(1, row[:1] * 10),
            span_text(1, (row[0], *row[2:], (LIMIT + 1,) * self.kind.coordinates)),
            span_text(1, row[::-1]),
            span_text(1, [*row, row[0] * (3 - len(row[0]))]),
            f"{span_text(1, row)} ",
            turn_text(self.kind, self.reduction, 1, 1, 1),
        )
        self.type(self.rng.choice(slips))


def drawn_text(rng: Random, name: str, kind: Kind, reduction: Reduction, slips: float) -> Text:
    end = rng.choice((1, 2, 4, 9, 50, 600, 10_000, 65_536))
    typist = Typist(rng, kind, reduction, end)
    typist.type_turn()
    for left in range(min(end, rng.choice((1, 1, 2, 3, 6, 12))), 0, -1):
        while rng.random() < slips:
            typist.type_slip()
        typist.type_span(left)
    typist.type_rest()
    return Text(name, typed(*typist.lines))


DRAWN_TEXTS = 80


def drawn_texts(rng: Random) -> Iterator[Text]:
    for kind, reduction, slips in product(KINDS, REDUCTIONS, (0.0, 0.3)):
        for i in range(DRAWN_TEXTS):
            name = f"drawn {kind.name} turn {i}, {reduction.name}"
            yield drawn_text(rng, name, kind, reduction, slips)


def sealed_text(rng: Random, kind: Kind, reduction: Reduction) -> Text:
    """A turn without any slip, whose tolerance is enough for its spans."""
    depth, number = rng.randint(0, 5), rng.randint(1, 5)
    rows: list[Row] = []
    for _ in range(number):
        degree = rng.choice(degrees_of(reduction))
        row = drawn_row(rng, kind, degree + 1, SORTS[rng.choice(TYPED_SORTS)])
        rows.append((rows[-1][-1], *row[1:]) if rows else row)
    enough = max(least_tolerance(kind, reduction, depth, row) for row in rows)
    ticks = [rng.randint(1, rng.choice((1, 9, 4_096))) for _ in rows]
    turn = turn_text(kind, reduction, max(1, enough), depth, sum(ticks))
    spans = map(span_text, ticks, rows)
    return Text(f"sealed {kind.name} turn", typed(turn, *spans, SEAL), ())


SEALED_TEXTS = 60


def sealed_texts(rng: Random) -> Iterator[Text]:
    for kind, reduction in product(KINDS, REDUCTIONS):
        for _ in range(SEALED_TEXTS):
            yield sealed_text(rng, kind, reduction)


# --- Texts with one octet damaged

TOUCHED_TEXTS = 500
TOUCHES = b"\x00\t\n\r ()-019ax\x7f\x80\xff"


def touched_texts(rng: Random, texts: Sequence[Text]) -> Iterator[Text]:
    """Some of these texts with one octet replaced, left out or doubled."""
    for text in rng.choices(texts, k=TOUCHED_TEXTS):
        i = rng.randrange(len(text.octets))
        before, octet, after = text.octets[:i], text.octets[i : i + 1], text.octets[i + 1 :]
        instead = rng.choice((bytes([rng.choice(TOUCHES)]), b"", octet * 2))
        yield Text(f"{text.name}, octet {i} made {instead!r}", before + instead + after)


# --- Damaged lines, many to a text


def in_texts(name: str, first: Sequence[str], lines: Sequence[str]) -> Iterator[Text]:
    """Texts that begin with the first lines, and hold all the others in turn."""
    begun = typed(*first)
    text = begun
    for line in lines:
        octets = typed(line)
        if len(text) + len(octets) > MOST_OCTETS:
            yield Text(name, text)
            text = begun
        text += octets
    yield Text(name, text)


PUT_IN = " ()0-\t\r\0\x80\xff"


def damaged_lines(rng: Random, line: str) -> Iterator[str]:
    """The line with an octet left out, doubled, changed, put before or exchanged with
    its neighbour, at each place."""
    for at, octet in enumerate(line):
        before, after = line[:at], line[at + 1 :]
        yield before + after
        yield before + octet + octet + after
        yield before + octet.swapcase() + after
        yield before + chr(ord(octet) ^ 1 << rng.randrange(8)) + after
        yield before + rng.choice(PUT_IN) + after
        yield before + rng.choice(PUT_IN) + octet + after
        yield before + after[:1] + octet + after[1:]
        yield before
    yield line + rng.choice(PUT_IN)


def without_line_feeds(lines: Iterator[str]) -> list[str]:
    return [line for line in lines if "\n" not in line]


def damage_texts(rng: Random) -> Iterator[Text]:
    """Each form damaged. Turns stand before one is accepted, the others after."""
    turn = turn_text(BOX, MATCHING, 70, 3, 10)
    yield from in_texts("damaged turn", [], without_line_feeds(damaged_lines(rng, turn)))
    yield from in_texts("damaged turn", [TURN], without_line_feeds(damaged_lines(rng, TURN)))
    flow = flow_span(2, 0, -15, 30)
    flow_turn = turn_text(FLOW, CHORD, 100, 4, 65_536)
    yield from in_texts("damaged span", [flow_turn], without_line_feeds(damaged_lines(rng, flow)))
    box = span_text(3, [(0, 0), (20, -9), (0, 1)])
    box_turn = turn_text(BOX, MATCHING, 100, 4, 65_536)
    yield from in_texts("damaged span", [box_turn], without_line_feeds(damaged_lines(rng, box)))
    short = [STRIKE, SEAL, "(span (ticks 1))"]
    lines = [line for each in short for line in without_line_feeds(damaged_lines(rng, each))]
    yield from in_texts("damaged short forms", [TURN, flow_span(8, 7, 7)], lines)
    yield from in_texts("damaged short forms", [], lines)


# --- Numbers, spaces and line ends

NO_NUMBERS = (
    "",
    "-",
    "--1",
    "-0",
    "00",
    "01",
    "-01",
    "007",
    "+1",
    "+0",
    "1.0",
    "1,000",
    "1_000",
    "1e3",
    "0x10",
    "1a",
    "a",
    "1 ",
    " 1",
    "1-",
    "1-1",
    "12345678901",
    "-12345678901",
    "00000000001",
    "99999999999",
    str(2**63),
    str(2**64 + 1),
    "1" * 400,
    "\xb2",
    "\xd9\xa3",
)
NUMBERS = (0, 1, 2, 3, 4, 9, 10, 11, 4_096, 4_097, 65_536, 65_537, 2_147_483_648, 2_147_483_649)
LARGE_NUMBERS = (4_294_967_296, 4_294_967_297, 9_999_999_999, 9_876_543_210)


def number_texts() -> Iterator[Text]:
    """Each number and no number at each place."""
    numbers = (*NUMBERS, *LARGE_NUMBERS)
    good = [str(number) for number in (*numbers, *(-number for number in numbers if number))]
    for words, meant in ((NO_NUMBERS, 41), (good, None)):
        turns = [
            turn_text(FLOW, CHORD, *agreed)
            for word in words
            for agreed in ((word, 2, 8), (10, word, 8), (10, 2, word))
        ]
        spans = [span_text(word, [(0,), (0,)]) for word in words]
        ats = [
            f"(span (ticks 1) (at {first}) (at {last}))"
            for word in words
            for first, last in ((word, 0), (0, word), (word, word), (f"{word} 0", "0 0"))
        ]
        boxes = [f"(span (ticks 1) (at 0 {word}) (at {word} 0))" for word in words]
        told = None if meant is None else refused_from(1, [meant] * len(turns))
        if meant is not None:
            yield Text("no numbers in a turn", typed(*turns), told)
        else:
            for turn in turns:
                yield Text(f"{turn}", typed(turn, HELD, SEAL))
        for name, lines in (("span", spans), ("flow", ats), ("box", boxes)):
            told = None if meant is None else refused_from(2, [meant] * len(lines))
            yield Text(f"numbers of a {name}", typed(TURN, *lines), told)


SPACED = (
    "",
    " ",
    " (seal)",
    "(seal) ",
    "( seal)",
    "(seal )",
    "(seal",
    "seal)",
    "seal",
    "(seal))",
    "((seal)",
    "(seal)(seal)",
    "(seal) (seal)",
    "(seal)\r",
    "\r",
    "(seal)\t",
    "\t(seal)",
    "(seal)\0",
    "\0",
    "\0(seal)",
    "(Seal)",
    "(SEAL)",
    "\xef\xbb\xbf(seal)",
    "(seal)\x0b",
    "(seal)\x0c",
    "(seal)\x85",
    "(seal)\xa0",
    "(seal)\x1a",
    "; (seal)",
    "(seal) ; done",
    "(strike )",
    "(strike 1)",
    "(seal 8)",
    "(turn)",
    "(turn )",
    "(span)",
    "(span )",
    "(span (ticks 1) )",
    "(span  (ticks 1))",
    "(span (ticks 1)(at 7) (at 7))",
    "(span (ticks 1) (at 7)(at 7))",
    "(span (ticks 1) (at 7)  (at 7))",
    "(span (ticks 1) (at 7 ) (at 7))",
    "(span (ticks 1) (at  7) (at 7))",
    "(span (ticks 1) (at 7  7) (at 7 7))",
    "(span (ticks 1) (at 7 7 7) (at 7 7 7))",
    "(span (ticks 1) (at) (at))",
    "(span (ticks 1) (at ) (at ))",
    "(span (ticks 1) at 7 at 7)",
    "(span (ticks 1) (at 7\t) (at 7))",
    "(span\t(ticks 1) (at 7) (at 7))",
    "(span (ticks 1) (at 7) (at 7)",
    "(span (at 7) (at 7) (ticks 1))",
    "(span (at 7) (ticks 1) (at 7))",
    "(span (ticks 1) (ticks 1) (at 7) (at 7))",
    "(span (ticks 1) (At 7) (at 7))",
    "(span (ticks 1 1) (at 7) (at 7))",
    "(span (ticks) (at 7) (at 7))",
    "(lay (ticks 1) (at 7) (at 7))",
    "(leg (from 0) (ticks 4) (cell 0 0) (degree 1) (at 7) (at 7) (at 7))",
    "(sealed (legs 1) (ticks 8))",
    "(refused 41 (line 1))",
)
BAD_TURNS = (
    "(turn (kind canal) (legs chord) (within 10) (depth 2) (ticks 8))",
    "(turn (kind flow box) (legs chord) (within 10) (depth 2) (ticks 8))",
    "(turn (kind ) (legs chord) (within 10) (depth 2) (ticks 8))",
    "(turn (kind flows) (legs chord) (within 10) (depth 2) (ticks 8))",
    "(turn (kind flow) (legs arc) (within 10) (depth 2) (ticks 8))",
    "(turn (kind flow) (legs Chord) (within 10) (depth 2) (ticks 8))",
    "(turn (legs chord) (kind flow) (within 10) (depth 2) (ticks 8))",
    "(turn (kind flow) (within 10) (legs chord) (depth 2) (ticks 8))",
    "(turn (kind flow) (legs chord) (depth 2) (within 10) (ticks 8))",
    "(turn (kind flow) (legs chord) (within 10) (ticks 8) (depth 2))",
    "(turn (kind flow) (legs chord) (within 10) (depth 2))",
    "(turn (kind flow) (legs chord) (within 10) (depth 2) (ticks 8)",
    "(turn (kind flow) (legs chord) (within 10) (depth 2) (ticks 8)))",
    "(turn (kind flow) (legs chord) (within 10) (depth 2) (ticks 8) (ticks 8))",
    "(turn (kind flow) (legs chord) (within 10) (depth 2) (depth 2) (ticks 8))",
    "(turn (kind flow) (legs chord) (within 10 10) (depth 2) (ticks 8))",
    "(turn  (kind flow) (legs chord) (within 10) (depth 2) (ticks 8))",
    "(turn (kind flow)  (legs chord) (within 10) (depth 2) (ticks 8))",
    "(turn (kind flow)(legs chord) (within 10) (depth 2) (ticks 8))",
    "(turn (kind  flow) (legs chord) (within 10) (depth 2) (ticks 8))",
    "(turn (kind flow) (legs chord) (within 10) (depth 2) (ticks 8)) ",
    " (turn (kind flow) (legs chord) (within 10) (depth 2) (ticks 8))",
    "(Turn (kind flow) (legs chord) (within 10) (depth 2) (ticks 8))",
)


def spacing_texts() -> Iterator[Text]:
    bad = (*SPACED, *BAD_TURNS)
    lines = typed(*bad)
    yield Text("no forms before a turn", lines, refused_from(1, [41] * len(bad)))
    whole = (TURN, HELD, flow_span(4, 7, 7))
    yield Text("no forms in a turn", typed(*whole) + lines, refused_from(4, [41] * len(bad)))
    after = (*whole, SEAL)
    yield Text("no forms after a seal", typed(*after) + lines, refused_from(5, [41] * len(bad)))
    for line in bad:
        mixed = typed(TURN, HELD, line, flow_span(4, 7, 7), SEAL)
        yield Text(f"{line!r} in a turn", mixed, ((41, 3),))


def line_end_texts() -> Iterator[Text]:
    lines = (TURN, HELD, flow_span(4, 7, 7), SEAL)
    whole = typed(*lines)
    every = refused_from(1, [41] * 4)
    yield Text("no octets", b"", ())
    yield Text("one line feed", b"\n", ((41, 1),))
    yield Text("two line feeds", b"\n\n", ((41, 1), (41, 2)))
    yield Text("no last line feed", whole[:-1], ())
    yield Text("an empty line at the end", whole + b"\n", ((41, 5),))
    yield Text("an empty line first", b"\n" + whole, ((41, 1),))
    doubled = tuple((41, 2 * i) for i in range(1, 5))
    yield Text("empty lines between", whole.replace(b"\n", b"\n\n"), doubled)
    yield Text("carriage returns and line feeds", whole.replace(b"\n", b"\r\n"), every)
    yield Text("carriage returns alone", whole.replace(b"\n", b"\r"), ((41, 1),))
    turned = whole.replace(b"\n", b"\n\r")
    yield Text("line feeds before carriage returns", turned, refused_from(2, [41] * 4))
    yield Text("a last carriage return", whole[:-1] + b"\r", ((41, 4),))
    yield Text("zeros for line feeds", whole.replace(b"\n", b"\0"), ((41, 1),))
    yield Text("a space at the end", whole + b" ", ((41, 5),))
    yield Text("half a form at the end", whole[:-3], ((41, 4),))
    yield Text("all on one line", whole.replace(b"\n", b" "), ((41, 1),))
    yield Text("two forms on a line", typed(TURN + HELD), ((41, 1),))
    yield Text("wide characters", whole.decode("ascii").encode("utf-16-le"))
    marked = b"\xef\xbb\xbf" + whole
    yield Text("a mark before the text", marked, refused_from(1, [41, 42, 42, 42]))


NOISE_TEXTS = 150


def noise_texts(rng: Random) -> Iterator[Text]:
    """Random octets, and lines and pieces of forms in random order."""
    pieces = [TURN, HELD, STRIKE, SEAL, "(at 7)", "(", ")", " ", "7", "\n", "\n", "(ticks 8)"]
    for i in range(NOISE_TEXTS):
        yield Text(f"noise {i}", rng.randbytes(rng.choice((1, 20, 300, 5_000))))
        yield Text(f"pieces {i}", "".join(rng.choices(pieces, k=80)).encode("ascii"))
        yield Text(f"lines {i}", typed(*rng.choices((TURN, HELD, STRIKE, SEAL, ""), k=60)))


# --- Refusals of what is well formed


def turn_refusals() -> Iterator[Text]:
    """Every choice of reasons to refuse a turn, then one that is accepted."""
    agreed = ((0, -1, 2_147_483_649, 9_999_999_999), (-1, 11, 9_999_999_999), (0, -1, 65_537))
    good = (10, 2, 8)
    for kind, reduction in product(KINDS, REDUCTIONS):
        lines, numbers = [], []
        for chosen in product((False, True), repeat=3):
            reasons = [i + 1 for i, bad in enumerate(chosen) if bad]
            each = [agreed[i] if bad else (good[i],) for i, bad in enumerate(chosen)]
            for values in product(*each):
                if reasons:
                    lines.append(turn_text(kind, reduction, *values))
                    numbers.append(reasons[0])
        first = turn_text(kind, reduction, *good)
        point = (7,) * kind.coordinates
        lines += [SEAL, first, first, span_text(8, [point] * 3), SEAL]
        numbers += [42, 0, 42, 0, 0]
        yield Text(f"refused {kind.name} turns", typed(*lines), refused_from(1, numbers))


# With this a curve as tall as the limit takes all the 512 cells of depth 9.
TALL_TURN = turn_text(FLOW, CHORD, 10_000, 9, 20)
TALL = flow_span(4, 0, LIMIT, 0)
BENT = (LIMIT, -LIMIT)
SPAN_REASONS = (41, 5, 6, 7, 8, 9, 11)
TICKS = {(): 1, (7,): 0, (8,): 17, (7, 8): 4_097}


def span_with(reasons: Sequence[int], few: bool) -> str:
    """A span with these reasons to refuse it, after 4 of 20 ticks and the end value 0.
    A curve of one point is never bent."""
    flows = [5 if 9 in reasons else 0]
    if 11 in reasons:
        flows += BENT
    if not (5 in reasons and few):
        flows.append(LIMIT + 1 if 6 in reasons else 0)
    elif 6 in reasons:
        flows[-1] = -LIMIT - 1
    if 5 in reasons and not few:
        flows += [0] * (10 - len(flows))
    points: list[Point] = [(flow,) for flow in flows]
    if 41 in reasons:
        points[-1] = (*points[-1], 0)
    ticks = TICKS[tuple(reason for reason in (7, 8) if reason in reasons)]
    return span_text(ticks, points)


def span_refusals() -> Iterator[Text]:
    """Every choice of reasons to refuse a span, where there is room and where there
    is none."""
    choices = [
        [reason for reason, bad in zip(SPAN_REASONS, chosen) if bad]
        for chosen in product((False, True), repeat=len(SPAN_REASONS))
    ]
    for few, tall in product((False, True), repeat=2):
        some = [reasons for reasons in choices if not (few and 5 in reasons and 11 in reasons)]
        lines = [span_with(reasons, few) for reasons in some]
        none = 12 if tall else 0
        numbers = [min(reasons, key=SPAN_REASONS.index, default=none) for reasons in some]
        first = TALL if tall else flow_span(4, 0, 0)
        if not tall:
            # The span with no reason is accepted, and taken off again.
            lines.insert(1, STRIKE)
            numbers.insert(1, 0)
        where = "no room" if tall else "room"
        text = typed(TALL_TURN, first, *lines)
        assert len(text) <= MOST_OCTETS, len(text)
        yield Text(f"refused spans where there is {where}", text, refused_from(3, numbers))


def order_texts() -> Iterator[Text]:
    """Forms in and out of their place."""
    forms = (TURN, HELD, STRIKE, SEAL)
    unlike = span_text(4, [(7, 7)] * 3)
    early = typed(HELD, unlike, STRIKE, SEAL)
    yield Text("nothing before a turn", early, refused_from(1, [42] * 4))
    empty = typed(TURN, STRIKE, SEAL, TURN, unlike)
    yield Text("an empty turn", empty, refused_from(2, [13, 15, 42, 41]))
    whole = (TURN, HELD, flow_span(4, 7, 7), SEAL)
    after = (*forms, unlike, "", *forms)
    numbers = [42] * 5 + [41] + [42] * 4
    yield Text("after a seal", typed(*whole, *after), refused_from(5, numbers))
    struck = (TURN, HELD, STRIKE, STRIKE, flow_span(8, 9, 9), STRIKE, *whole[1:])
    yield Text("struck to nothing", typed(*struck), ((13, 4),))
    yield Text("a seal too early", typed(TURN, HELD, SEAL, *whole[2:]), ((15, 3),))
    box = turn_text(BOX, MATCHING, 5, 1, 3)
    other = (turn_text(FLOW, CHORD, 0, 2, 8), box, HELD, span_text(3, [(1, 2)] * 3), SEAL)
    yield Text("another kind after a refused turn", typed(*other), ((1, 1), (41, 3)))
    mixed = [(1, 2), (3,), (4, 5)]
    for turn in (TURN, box):
        many = [*mixed, *mixed, *mixed, *mixed]
        lines = (turn, span_text(1, mixed), span_text(0, many), span_text(1, [(7,), (7, 7)]))
        yield Text("points of both kinds", typed(*lines), refused_from(2, [41] * 3))
    none = "(span (ticks 0))"
    yield Text("no points", typed(none, TURN, none), ((42, 1), (5, 3)))


# --- Sizes


def with_legs(depth: int) -> str:
    """A span of one tick that takes 2 to the power of depth legs in TALL_TURN."""
    return flow_span(1, 0, min(LIMIT, 4**depth * 9_000), 0)


def room_texts() -> Iterator[Text]:
    """Turns of 511, 512 and more legs."""
    held, level = flow_span(16, 0, 0), flow_span(1, 0, 0)
    bent = flow_span(16, 0, *BENT, 0)
    full = (TALL_TURN, TALL)
    yield Text("512 legs", typed(TALL_TURN, flow_span(20, 0, LIMIT, 0), "", SEAL), ((41, 3),))
    sealed = (turn_text(FLOW, CHORD, 10_000, 9, 4), TALL, SEAL)
    yield Text("512 legs, sealed", typed(*sealed), ())
    yield Text("513 legs", typed(*full, held, SEAL), ((12, 3), (15, 4)))
    bent_first = typed(*full, bent, held, STRIKE, held)
    yield Text("too bent before no room", bent_first, ((11, 3), (12, 4)))
    parts = [with_legs(depth) for depth in range(8, 0, -1)]
    more = [flow_span(4, 0, 9_000 * 4, 0), flow_span(4, 0, 9_000 * 16, 0)]
    most = (TALL_TURN, *parts, level, *more, flow_span(11, 0, 0), SEAL)
    yield Text("511 legs, and one more", typed(*most), ((12, 11), (12, 12)))
    deep = (turn_text(FLOW, CHORD, 3_000, 10, 4), TALL, flow_span(4, 0, 0), SEAL)
    yield Text("1024 legs", typed(*deep), ((12, 2),))
    tall_box = span_text(4, [(0, 0), (LIMIT // 2, LIMIT // 2), (0, 0)])
    box_turn = turn_text(BOX, CHORD, 10_000, 9, 4)
    yield Text("512 legs of a box, sealed", typed(box_turn, tall_box, SEAL), ())
    ends = [(-LIMIT, LIMIT), (LIMIT, -LIMIT)]
    long_lines = [ends[i % 2] for i in range(8)]
    wide = (turn_text(BOX, MATCHING, LIMIT, 9, 4_096), span_text(4_096, long_lines), SEAL)
    yield Text("long lines", typed(*wide))


def span_of(octets: int) -> str:
    """A span of one tick and as many octets, with its line feed, from 38 to 143, for a
    matching turn with the largest tolerance."""
    middle = octets - len(flow_span(1, 0, 0)) - 1
    number = -(-middle // 16)
    digits = middle - 6 * number
    each = [digits // number + (1 if i < digits % number else 0) for i in range(number)]
    return flow_span(1, 0, *(10 ** (length - 1) for length in each), 0)


def filled(octets: int) -> bytes:
    """A turn of so many octets that is sealed without any refusal."""
    lines = octets - len(turn_text(FLOW, MATCHING, LIMIT, 0, 100)) - len(SEAL) - 2
    number = 128
    each = [lines // number + (1 if i < lines % number else 0) for i in range(number)]
    turn = turn_text(FLOW, MATCHING, LIMIT, 0, number)
    return typed(turn, *(span_of(length) for length in each), SEAL)


def size_texts() -> Iterator[Text]:
    for size in (MOST_OCTETS - 1, MOST_OCTETS):
        yield Text(f"a turn of {size} octets", filled(size), ())
    too_many = ((43, 0),)
    more = filled(MOST_OCTETS + 1)
    yield Text(f"a turn of {len(more)} octets", more, too_many)
    yield Text("its last line feed left out", more[:-1], ())
    yield Text("a turn and an empty line too many", filled(MOST_OCTETS) + b"\n", too_many)
    for octet in (b"\n", b"x", b" ", b"\0", b"(", b"1", b"\xff"):
        for size in (MOST_OCTETS, MOST_OCTETS + 1):
            meant = too_many if size > MOST_OCTETS else None
            yield Text(f"{size} octets {octet!r}", octet * size, meant)
    lines = refused_from(1, [41] * MOST_OCTETS)
    yield Text("as many empty lines as can be", b"\n" * MOST_OCTETS, lines)
    for size in (65_535, 65_536, 65_537, 16_384 + 65_536, 1_000_000):
        yield Text(f"{size} octets", filled(MOST_OCTETS).ljust(size, b"\n"), too_many)
    for last, number in (("(at 0)", 5), ("(at 0 0)", 41), ("(at)", 41), ("(at 1) ", 41)):
        points = " (at 0)" * 2_200
        line = f"(span (ticks 1){points} {last})"
        yield Text("a span of thousands of points", typed(TURN, line), ((number, 2),))


def doc_texts() -> Iterator[Text]:
    for i, (text, _) in enumerate(plan_examples()):
        yield Text(f"text {i} of plan-text.md", text)


def all_texts(seed: int) -> list[Text]:
    rng = Random(seed)
    sealed = list(sealed_texts(rng))
    return [
        *doc_texts(),
        *drawn_texts(rng),
        *sealed,
        *touched_texts(rng, sealed),
        *damage_texts(rng),
        *number_texts(),
        *spacing_texts(),
        *line_end_texts(),
        *noise_texts(rng),
        *turn_refusals(),
        *span_refusals(),
        *order_texts(),
        *room_texts(),
        *size_texts(),
    ]
