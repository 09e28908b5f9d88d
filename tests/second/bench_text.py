"""What the benchmarks print, but for their last line, by the comment at the head of
tests/bench/plain.rs.

    python3 tests/second/bench_text.py NUMBER-OF-CURVES
"""

from __future__ import annotations

import sys

from card import BOX, FLOW, Kind
from curves import CHORD, MATCHING, Piece, Row, Terms, divided

MASK = 2**64 - 1
CHECKSUM_MODULUS = 2_147_483_647


class Generator:
    """xorshift64*"""

    def __init__(self) -> None:
        self.state = 0x9E3779B97F4A7C15

    def step(self) -> int:
        self.state ^= self.state >> 12
        self.state ^= (self.state << 25) & MASK
        self.state ^= self.state >> 27
        return (self.state * 0x2545F4914F6CDD1D) & MASK

    def below(self, k: int) -> int:
        return (self.step() >> 31) % k


def drawn_row(random: Generator, kind: Kind, degree: int, size: int) -> Row:
    return tuple(
        tuple(random.below(2 * size + 1) - size for _ in range(kind.coordinates))
        for _ in range(degree + 1)
    )


def drawn_curve(random: Generator) -> tuple[Terms, Row]:
    kind = (FLOW, BOX)[random.below(2)]
    reduction = (CHORD, MATCHING)[random.below(2)]
    degree = reduction.degree + random.below(9 - reduction.degree)
    depth = random.below(11)
    size = 2 ** (6 + random.below(26))
    tolerance = max(1, size >> random.below(2 * depth + 3))
    return Terms(kind, reduction, tolerance, depth), drawn_row(random, kind, degree, size)


def with_piece(checksum: int, piece: Piece) -> int:
    for v in (*piece.cell, *piece.start, *piece.middle, *piece.end):
        checksum = (31 * checksum + v) % CHECKSUM_MODULUS
    return checksum


def bench_text(number: int) -> str:
    random = Generator()
    too_bent = legs = cells_tested = checksum = 0
    for _ in range(number):
        terms, row = drawn_curve(random)
        found = divided(terms, row)
        if found is None:
            too_bent += 1
            continue
        legs += len(found.pieces)
        cells_tested += found.cells_tested
        for piece in found.pieces:
            checksum = with_piece(checksum, piece)
    return (
        f"curves {number}\ntoo bent {too_bent}\nlegs {legs}\n"
        f"cells tested {cells_tested}\nchecksum {checksum}\n"
    )


if __name__ == "__main__":
    sys.stdout.write(bench_text(int(sys.argv[1])))
