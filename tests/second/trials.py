"""Scripts for the program `trial`, and what it must print for them.

`trial` works the outlets. It reads lines of text on standard input and prints
for each of them one line for the answer, and then one for the whole state of
the outlet. Words are separated by single spaces; all numbers are decimal.

    table KIND N     starts a record table of N records, N up to 40; KIND is
                     flow or box: `started`
    card KIND N      starts a card of N octets, N up to 2000, which were all a5
                     before: `started`
    put LEG          `put`, `refused 24: a field that no leg has` or
                     `refused 31: the outlet is full`
    keep N           N up to 2^64 - 1: `kept`
    get I            I up to 2^64 - 1: `leg LEG` or `nothing`
    rewrite N        only where the outlet is a card: gets its legs one after
                     another, and writes that list to a fresh card of N octets,
                     N up to 2000, which were all a5 before: `written HEX` or
                     `refused 31: the outlet is full`. The outlet is not changed.

LEG is the numbers FROM TICKS DEPTH INDEX DEGREE, each up to 2^32 - 1, and the
coordinates of the start, the middle and the end, one each for flow and two each
for box, any signed numbers of 64 bits. An outlet that is started takes the place
of the one before; the first line starts one.

The state of a table is `table COUNT FREE` and then ` | LEG` for every record, the
legs and the blanks after them. That of a card is `card COUNT FREE HEX`. HEX is all
the octets in lower-case hexadecimal, `-` where there are none.
"""

from __future__ import annotations

from collections.abc import Iterator, Sequence
from dataclasses import dataclass, replace
from itertools import product
from random import Random

from card import HEADER_LENGTH, KINDS, WORDS, Kind, Leg
from damaged import two_spans
from drafts import Place, legs_at, moved
from limits import Fields, numbers_beyond, points_beyond
from outlets import CardOutlet, Outlet, RecordTable, blank_leg, lent, written
from valid import EXTREMES, points

# --- What the program prints

# Data that is put has no spare octets.
REFUSED = {24: "refused 24: a field that no leg has", 31: f"refused 31: {WORDS[31]}"}


def leg_text(leg: Leg) -> str:
    numbers = (leg.from_, leg.ticks, leg.depth, leg.index, leg.degree)
    return " ".join(map(str, (*numbers, *leg.start, *leg.middle, *leg.end)))


def leg_of(kind: Kind, words: Sequence[str]) -> Leg:
    from_, ticks, depth, index, degree, *coordinates = map(int, words)
    of_a_point = kind.coordinates
    start, middle, end = (
        tuple(coordinates[at : at + of_a_point]) for at in range(0, 3 * of_a_point, of_a_point)
    )
    return Leg(from_, ticks, depth, index, degree, start, middle, end)


def put_line(leg: Leg) -> str:
    return f"put {leg_text(leg)}"


def hexadecimal(octets: bytes) -> str:
    return octets.hex() or "-"


def started(word: str, kind: Kind, size: int) -> Outlet:
    return RecordTable(kind, size) if word == "table" else CardOutlet(kind, lent(size))


def rewritten(outlet: Outlet, size: int) -> str:
    answer = written(outlet.kind, outlet.legs(), size)
    return REFUSED[answer] if isinstance(answer, int) else f"written {hexadecimal(answer)}"


def answer_of(outlet: Outlet, line: str) -> str:
    """The answer to a line that starts no outlet."""
    word, *words = line.split(" ")
    if word == "put":
        refused = outlet.put(leg_of(outlet.kind, words))
        return "put" if refused is None else REFUSED[refused]
    number = int(words[0])
    if word == "keep":
        outlet.keep(number)
        return "kept"
    if word == "get":
        leg = outlet.get(number)
        return "nothing" if leg is None else f"leg {leg_text(leg)}"
    assert word == "rewrite", line
    return rewritten(outlet, number)


def state_of(outlet: Outlet) -> str:
    numbers = f"{outlet.count()} {outlet.free()}"
    if isinstance(outlet, CardOutlet):
        return f"card {numbers} {hexadecimal(outlet.octets)}"
    assert isinstance(outlet, RecordTable)
    return f"table {numbers}" + "".join(f" | {leg_text(leg)}" for leg in outlet.records)


# --- Scripts


@dataclass(frozen=True)
class Exchange:
    """A line, and those that must be printed for it: the state of the outlet is the last."""

    line: str
    printed: tuple[str, ...]


class Script:
    """The lines from one start to the next. Each line is told to a second outlet at
    once, so that the next can be chosen by what the outlet then holds."""

    def __init__(self, word: str, kind: Kind, size: int) -> None:
        self.outlet = started(word, kind, size)
        self.exchanges: list[Exchange] = []
        self.add(f"{word} {kind.name} {size}", "started")

    def add(self, line: str, answer: str) -> None:
        self.exchanges.append(Exchange(line, (answer, state_of(self.outlet))))

    def say(self, line: str) -> None:
        self.add(line, answer_of(self.outlet, line))


# --- Data to put

PLACES_AT_LIMITS = (
    *(Place(0, ticks, (0, 0)) for ticks in (1, 255, 256, 4_096)),
    *(Place(65_536 - ticks, ticks, (0, 0)) for ticks in (1, 255, 256, 4_096)),
    *(Place(256, 255, (depth, 0)) for depth in range(11)),
    *(Place(255, 257, (depth, 2**depth - 1)) for depth in range(1, 11)),
)


def drawn_place(rng: Random) -> Place:
    if rng.random() < 0.3:
        return rng.choice(PLACES_AT_LIMITS)
    ticks = rng.randint(1, 4_096)
    depth = rng.randint(0, 10)
    return Place(rng.randint(0, 65_536 - ticks), ticks, (depth, rng.randrange(2**depth)))


def leg_at(rng: Random, kind: Kind, place: Place) -> Leg:
    (leg,) = legs_at([place], points(rng, kind), lambda: rng.choice((1, 2)))
    return leg


def drawn_leg(rng: Random, kind: Kind) -> Leg:
    """A leg of any sort: no chain is asked for, and a blank leg counts like any other."""
    return blank_leg(kind) if rng.random() < 0.05 else leg_at(rng, kind, drawn_place(rng))


def legs_at_limits(rng: Random, kind: Kind) -> Iterator[Leg]:
    yield blank_leg(kind)
    for place in PLACES_AT_LIMITS:
        yield leg_at(rng, kind, place)
    straight, bent = (replace(blank_leg(kind), degree=degree) for degree in (1, 2))
    for which, extreme in product(range(kind.coordinates), EXTREMES):
        point = moved(bent.start, which, extreme)
        yield replace(bent, start=point)
        yield replace(bent, middle=point)
        yield replace(bent, end=point)
        yield replace(straight, start=point, middle=point)


def numbers_too_wide(leg: Leg) -> Iterator[Fields]:
    """Numbers far beyond a limit. Most of them, cut to fewer bits, are the leg's own."""
    yield {"from_": leg.from_ + 2**16}
    yield {"from_": 1, "ticks": 2**32 - 1}
    for bits in (16, 31):
        yield {"ticks": leg.ticks + 2**bits}
    for bits in (5, 6, 8, 16):
        yield {"depth": leg.depth + 2**bits}
    for bits in (10, 16, 31):
        yield {"index": leg.index + 2**bits}
    for bits in (8, 16, 31):
        yield {"degree": leg.degree + 2**bits}
    for field in ("from_", "ticks", "depth", "index", "degree"):
        yield {field: 2**32 - 1}


def no_legs(kind: Kind, leg: Leg) -> list[Leg]:
    """The leg with each change that makes it none. (One does not always: an index of
    256 is a leg's where the cell is deep.)"""
    changes = (*numbers_beyond(leg), *numbers_too_wide(leg), *points_beyond(kind, leg))
    return [replace(leg, **fields) for fields in changes]


# --- The scripts

MOST_OCTETS = 2_000
LARGER_TABLES = (9, 13, 24, 39, 40)
SCRIPTS_OF_A_TABLE = 10
SCRIPTS_OF_A_LONG_CARD = 4
PUTS_OF_A_LIMIT_SCRIPT = 30


def drawn_number(rng: Random, count: int) -> int:
    """A number for keep or get. Some of the large ones are small in 32 bits."""
    below = [0, count - 1, count - 1, *(rng.randrange(count) for _ in range(3))] if count else [0]
    above = [count, count + 1, 2**32, 2**32 + count // 2, 2**63, 2**64 - 1]
    return rng.choice(below + above)


def drawn_size(rng: Random, card: CardOutlet) -> int:
    """A length for rewrite."""
    length = card.kind.record_length
    octets, used = len(card.octets), HEADER_LENGTH + card.count() * length
    near = (octets, octets, octets - 1, octets + 1, octets + length)
    fitting = (used, used, used - 1, used + 1, used - length)
    sizes = (*near, *fitting, 0, HEADER_LENGTH - 1, HEADER_LENGTH, rng.randint(0, MOST_OCTETS))
    return rng.choice([size for size in sizes if 0 <= size <= MOST_OCTETS])


def drawn_line(rng: Random, outlet: Outlet) -> str:
    kind = outlet.kind
    if isinstance(outlet, CardOutlet) and rng.random() < 0.1:
        return f"rewrite {drawn_size(rng, outlet)}"
    puts = 20 if outlet.free() == 0 else 50
    (word,) = rng.choices(("leg", "no leg", "keep", "get"), (puts, 20, 20, 20))
    if word == "leg":
        return put_line(drawn_leg(rng, kind))
    if word == "no leg":
        return put_line(rng.choice(no_legs(kind, drawn_leg(rng, kind))))
    return f"{word} {drawn_number(rng, outlet.count())}"


def drawn_script(rng: Random, word: str, kind: Kind, size: int) -> Script:
    script = Script(word, kind, size)
    capacity = script.outlet.capacity
    # So that a large outlet too is often full.
    for _ in range(rng.choice((0, capacity, rng.randint(0, capacity)))):
        script.say(put_line(drawn_leg(rng, kind)))
    for _ in range(rng.randint(25, 38)):
        script.say(drawn_line(rng, script.outlet))
    return script


def limit_scripts(rng: Random, word: str, kind: Kind, size: int) -> Iterator[Script]:
    """All data at a limit and beyond one, each put where there is room."""
    bent, straight, *_ = two_spans(kind).legs
    data = [*legs_at_limits(rng, kind), *no_legs(kind, bent), *no_legs(kind, straight)]
    for at in range(0, len(data), PUTS_OF_A_LIMIT_SCRIPT):
        script = Script(word, kind, size)
        for leg in data[at : at + PUTS_OF_A_LIMIT_SCRIPT]:
            if script.outlet.free() == 0:
                script.say("keep 1")
            script.say(put_line(leg))
        yield script


def table_scripts(rng: Random, kind: Kind) -> Iterator[Script]:
    yield from limit_scripts(rng, "table", kind, 4)
    for size in (*range(9), *LARGER_TABLES):
        for _ in range(SCRIPTS_OF_A_TABLE):
            yield drawn_script(rng, "table", kind, size)


def card_scripts(rng: Random, kind: Kind) -> Iterator[Script]:
    length = kind.record_length
    yield from limit_scripts(rng, "card", kind, HEADER_LENGTH + 4 * length)
    for size in range(HEADER_LENGTH + 3 * length + 5):
        yield drawn_script(rng, "card", kind, size)
    full = HEADER_LENGTH + 7 * length
    for size in (full - 1, full, full + 1, 777, 1_234, MOST_OCTETS - 1, MOST_OCTETS):
        for _ in range(SCRIPTS_OF_A_LONG_CARD):
            yield drawn_script(rng, "card", kind, size)


def all_scripts(seed: int) -> list[Script]:
    """All the scripts, the same for the same seed, and in an order in which each sort
    of outlet takes the place of each."""
    rng = Random(seed)
    scripts: list[Script] = []
    for kind in KINDS:
        scripts += table_scripts(rng, kind)
        scripts += card_scripts(rng, kind)
    rng.shuffle(scripts)
    return scripts
