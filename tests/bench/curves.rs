//! The legs of one curve, by docs/curves.md, in plain Rust: what `plain.rs` and
//! `plain_texts.rs` share.

// Neither of the two uses all of it.
#![allow(dead_code)]

pub const GREATEST_DEGREE: usize = 8;
pub const MOST_POINTS: usize = GREATEST_DEGREE + 1;
pub const GREATEST_DEPTH: usize = 10;

/// Work points enough for every curve.
pub const MOST_WORK: usize = (GREATEST_DEPTH + 1) * MOST_POINTS;

/// A point of some kind of ordinate.
pub trait Point: Copy {
    /// The bound on what one halving of two points may cost.
    const ALLOWANCE: i64;
    const ZERO: Self;

    /// The point of what `f` makes of the coordinates of two points.
    fn zip<F: Fn(i64, i64) -> i64>(self, other: Self, f: F) -> Self;

    fn is_within(self, r: i64) -> bool;

    fn for_each<F: FnMut(i64)>(self, f: F);
}

#[derive(Clone, Copy, PartialEq)]
pub struct Flow(pub i64);

impl Point for Flow {
    const ALLOWANCE: i64 = 1;
    const ZERO: Self = Flow(0);

    fn zip<F: Fn(i64, i64) -> i64>(self, other: Self, f: F) -> Self {
        Flow(f(self.0, other.0))
    }

    fn is_within(self, r: i64) -> bool {
        self.0.abs() <= r
    }

    fn for_each<F: FnMut(i64)>(self, mut f: F) {
        f(self.0);
    }
}

/// A box's left and right branch.
#[derive(Clone, Copy, PartialEq)]
pub struct Branches {
    pub left: i64,
    pub right: i64,
}

impl Point for Branches {
    const ALLOWANCE: i64 = 2;
    const ZERO: Self = Branches { left: 0, right: 0 };

    fn zip<F: Fn(i64, i64) -> i64>(self, other: Self, f: F) -> Self {
        Branches { left: f(self.left, other.left), right: f(self.right, other.right) }
    }

    fn is_within(self, r: i64) -> bool {
        self.left.abs() <= r && self.right.abs() <= r && (self.left + self.right).abs() <= r
    }

    fn for_each<F: FnMut(i64)>(self, mut f: F) {
        f(self.left);
        f(self.right);
    }
}

fn halving<P: Point>(a: P, b: P) -> P {
    a.zip(b, |a, b| (a + b).div_euclid(2))
}

/// Writes the right half over the row, and the left half into `left`.
fn halve<P: Point>(row: &mut [P], left: &mut [P]) {
    let n = row.len() - 1;
    left[0] = row[0];
    for round in 1..=n {
        for i in 0..=n - round {
            row[i] = halving(row[i], row[i + 1]);
        }
        left[round] = row[0];
    }
}

/// Row n holds the binomials C(n, 0) to C(n, n).
pub type Binomials = [[i64; MOST_POINTS]; MOST_POINTS];

pub fn binomials() -> Binomials {
    let mut rows = [[0; MOST_POINTS]; MOST_POINTS];
    for n in 0..MOST_POINTS {
        rows[n][0] = 1;
        for i in 1..=n {
            rows[n][i] = rows[n - 1][i - 1] + rows[n - 1][i];
        }
    }
    rows
}

#[derive(Clone, Copy, PartialEq)]
pub enum Reduction {
    Chord,
    Matching,
}

/// What is agreed of the legs of a curve.
pub struct Terms<'a> {
    pub reduction: Reduction,
    pub tolerance: i64,
    pub depth: u32,
    pub binomials: &'a Binomials,
}

#[derive(Clone, Copy)]
pub struct Cell {
    pub depth: u32,
    pub index: u32,
}

const WHOLE: Cell = Cell { depth: 0, index: 0 };

impl Cell {
    fn left(self) -> Cell {
        Cell { depth: self.depth + 1, index: 2 * self.index }
    }

    fn right(self) -> Cell {
        Cell { depth: self.depth + 1, index: 2 * self.index + 1 }
    }
}

pub struct Leg<P> {
    pub cell: Cell,
    pub start: P,
    pub middle: P,
    pub end: P,
}

#[derive(Clone, Copy)]
pub struct Count {
    pub legs: u64,
    pub cells_tested: u64,
}

/// Why a curve gets no legs.
pub enum Unfit {
    TooBent,
    /// They are more than there is room for.
    NoRoom,
}

impl<'a> Terms<'a> {
    fn middle<P: Point>(&self, row: &[P]) -> P {
        let n = row.len() - 1;
        if self.reduction == Reduction::Chord {
            return row[0];
        }
        let weights = &self.binomials[n];
        let sum = row
            .iter()
            .zip(weights)
            .fold(P::ZERO, |sum, (&point, &weight)| sum.zip(point, |s, p| s + weight * p));
        let ends = row[0].zip(row[n], |p, z| p + z);
        sum.zip(ends, |s, e| (2 * s - (e << (n - 1))).div_euclid(1 << n))
    }

    /// The control-point test of a cell of this depth, with these points.
    fn passes<P: Point>(&self, depth: u32, row: &[P]) -> bool {
        let n = row.len() as i64 - 1;
        let (first, last) = (row[0], row[row.len() - 1]);
        let bound = 2 * self.tolerance - P::ALLOWANCE * n * i64::from(depth);
        let mut points = (0..).zip(row);
        match self.reduction {
            Reduction::Chord => points.all(|(j, &point)| {
                let elevated = first.zip(last, |p, z| (n - j) * p + j * z);
                point.zip(elevated, |p, e| 2 * (n * p - e)).is_within(n * bound)
            }),
            Reduction::Matching => {
                let times = n * (n - 1);
                let middle = self.middle(row);
                points.all(|(j, &point)| {
                    let (a, b, c) = ((n - j) * (n - j - 1), 2 * j * (n - j), j * (j - 1));
                    let elevated =
                        first.zip(middle, |p, q| a * p + b * q).zip(last, |sum, z| sum + c * z);
                    point.zip(elevated, |p, e| 2 * (times * p - e)).is_within(times * bound)
                })
            }
        }
    }

    /// How many legs the part of a curve in a cell takes, and how many cells are tested;
    /// nothing where it is too bent. The first points of `work` are those of the cell, the
    /// others are for its parts.
    fn count<P: Point>(&self, points: usize, depth: u32, work: &mut [P]) -> Option<Count> {
        let (row, rest) = work.split_at_mut(points);
        if self.passes(depth, row) {
            return Some(Count { legs: 1, cells_tested: 1 });
        }
        if depth == self.depth {
            return None;
        }
        halve(row, &mut rest[..points]);
        let left = self.count(points, depth + 1, rest)?;
        let right = self.count(points, depth + 1, work)?;
        Some(Count {
            legs: left.legs + right.legs,
            cells_tested: 1 + left.cells_tested + right.cells_tested,
        })
    }

    /// Hands out the legs of the part of a curve in a cell, which has a division.
    fn hand_out<P: Point, F: FnMut(Leg<P>)>(
        &self,
        points: usize,
        cell: Cell,
        work: &mut [P],
        take: &mut F,
    ) {
        let (row, rest) = work.split_at_mut(points);
        if self.passes(cell.depth, row) {
            let (start, end) = (row[0], row[points - 1]);
            take(Leg { cell, start, middle: self.middle(row), end });
            return;
        }
        halve(row, &mut rest[..points]);
        self.hand_out(points, cell.left(), rest, take);
        self.hand_out(points, cell.right(), work, take);
    }

    /// The legs of a curve, counted and then handed out where there is room for as many.
    pub fn fit<P: Point, F: FnMut(Leg<P>)>(
        &self,
        curve: &[P],
        room: u64,
        work: &mut [P],
        mut take: F,
    ) -> Result<Count, Unfit> {
        let points = curve.len();
        let work = &mut work[..(self.depth as usize + 1) * points];
        work[..points].copy_from_slice(curve);
        let fitted = match self.count(points, 0, work) {
            None => Err(Unfit::TooBent),
            Some(count) if count.legs > room => Err(Unfit::NoRoom),
            Some(count) => {
                work[..points].copy_from_slice(curve);
                self.hand_out(points, WHOLE, work, &mut take);
                Ok(count)
            }
        };
        for point in work {
            *point = P::ZERO;
        }
        fitted
    }
}
