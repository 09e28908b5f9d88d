//! The legs of many curves, by docs/curves.md, in plain Rust: what the Rattle program
//! `bench_curves` is measured against.
//!
//!     rustc -O -o plain tests/bench/plain.rs && ./plain 100000
//!
//! The argument is the number of curves, and 2000 are drawn where it is left out. Nothing is
//! read. Printed are
//!
//!     curves N
//!     too bent N             how many of them
//!     legs N                 of all the others
//!     cells tested N         of all the others
//!     checksum N             of all these legs
//!     curves a second N      the only line that differs from run to run, and so printed
//!                            only where the number was given
//!
//! # The curves
//!
//! All of them are drawn from one xorshift64* generator. Its state is 64 bits and begins
//! as 9e3779b97f4a7c15, in hexadecimal. A step is, with sums and products modulo 2^64,
//!
//!     x ^= x >> 12;  x ^= x << 25;  x ^= x >> 27;  answer x * 2545f4914f6cdd1d
//!
//! where x is the state, which stays as it is after the third of these, and the last
//! number is hexadecimal too. `below(k)` is (one step's answer >> 31) % k. For each curve
//! are drawn, in this order:
//!
//! 1. the kind: below(2), 0 flow, 1 box;
//! 2. the reduction: below(2), 0 chord, 1 matching;
//! 3. the degree: m + below(9 - m), where m is 1 for chord and 2 for matching;
//! 4. the largest depth: below(11);
//! 5. the size of the points: s = 6 + below(26), so from 6 to 31;
//! 6. the tolerance: 2^s >> below(2 * depth + 3), or 1 where that is 0;
//! 7. the points, first to last, and of a box's point the left coordinate and then the
//!    right one: each coordinate is below(2^(s + 1) + 1) - 2^s.
//!
//! So every curve keeps to the limits, and is accepted or too bent.
//!
//! # The checksum
//!
//! It begins as 0. For each leg of each accepted curve, in order, it takes in the depth
//! and the index of its cell, and then the coordinates of its start, middle and end, left
//! before right. To take in v is to become (31 * checksum + v) mod 2147483647, with a
//! result from 0 on also where v is below zero.
//!
//! # The work
//!
//! As laying a span does, a curve's legs are first counted, by a halving of their own, and
//! then, if it has a division, halved again and handed out one by one. Both use the same
//! work points, which are zero points afterwards.

mod curves;

use curves::{
    binomials, Binomials, Branches, Flow, Leg, Point, Reduction, Terms, MOST_POINTS, MOST_WORK,
};
use std::env;
use std::process;
use std::time::Instant;

/// A point that is drawn.
trait Drawn: Point {
    /// The point whose coordinates are drawn one after another.
    fn draw<F: FnMut() -> i64>(coordinate: F) -> Self;
}

impl Drawn for Flow {
    fn draw<F: FnMut() -> i64>(mut coordinate: F) -> Self {
        Flow(coordinate())
    }
}

impl Drawn for Branches {
    fn draw<F: FnMut() -> i64>(mut coordinate: F) -> Self {
        let left = coordinate();
        let right = coordinate();
        Branches { left, right }
    }
}

struct Generator {
    state: u64,
}

impl Generator {
    fn step(&mut self) -> u64 {
        self.state ^= self.state >> 12;
        self.state ^= self.state << 25;
        self.state ^= self.state >> 27;
        self.state.wrapping_mul(0x2545_f491_4f6c_dd1d)
    }

    fn below(&mut self, k: u64) -> u64 {
        (self.step() >> 31) % k
    }
}

struct Checksum(i64);

impl Checksum {
    fn take_in(&mut self, v: i64) {
        self.0 = (31 * self.0 + v).rem_euclid(2_147_483_647);
    }

    fn take_in_leg<P: Point>(&mut self, leg: &Leg<P>) {
        self.take_in(i64::from(leg.cell.depth));
        self.take_in(i64::from(leg.cell.index));
        for &point in &[leg.start, leg.middle, leg.end] {
            point.for_each(|coordinate| self.take_in(coordinate));
        }
    }
}

struct Totals {
    too_bent: u64,
    legs: u64,
    cells_tested: u64,
    checksum: Checksum,
}

/// Room for the legs of any curve.
const ROOM: u64 = 1_024;

fn bench_curve<P: Drawn>(
    random: &mut Generator,
    binomials: &Binomials,
    work: &mut [P; MOST_WORK],
    totals: &mut Totals,
) {
    let reduction = if random.below(2) == 0 { Reduction::Chord } else { Reduction::Matching };
    let lowest = if reduction == Reduction::Chord { 1 } else { 2 };
    let degree = lowest + random.below(9 - lowest);
    let depth = random.below(11);
    let size = 1 << (6 + random.below(26));
    let tolerance = (size >> random.below(2 * depth + 3)).max(1);
    let mut points = [P::ZERO; MOST_POINTS];
    let curve = &mut points[..degree as usize + 1];
    for point in curve.iter_mut() {
        *point = P::draw(|| random.below(2 * size as u64 + 1) as i64 - size);
    }
    let terms = Terms { reduction, tolerance, depth: depth as u32, binomials };
    let checksum = &mut totals.checksum;
    match terms.fit(curve, ROOM, work, |leg| checksum.take_in_leg(&leg)) {
        Ok(count) => {
            totals.legs += count.legs;
            totals.cells_tested += count.cells_tested;
        }
        Err(_) => totals.too_bent += 1,
    }
}

/// How many curves are drawn where no number is given.
const FEW: u64 = 2_000;

fn main() {
    let words: Vec<String> = env::args().skip(1).collect();
    let asked: Option<u64> = match words.as_slice() {
        [] => None,
        [word] if word.parse::<u64>().is_ok() => word.parse().ok(),
        _ => {
            eprintln!("usage: plain [NUMBER-OF-CURVES]");
            process::exit(1);
        }
    };
    let number = asked.unwrap_or(FEW);
    let binomials = binomials();
    let mut flow_work = [Flow::ZERO; MOST_WORK];
    let mut box_work = [Branches::ZERO; MOST_WORK];
    let mut random = Generator { state: 0x9e37_79b9_7f4a_7c15 };
    let mut totals = Totals { too_bent: 0, legs: 0, cells_tested: 0, checksum: Checksum(0) };
    let begun = Instant::now();
    for _ in 0..number {
        if random.below(2) == 0 {
            bench_curve(&mut random, &binomials, &mut flow_work, &mut totals);
        } else {
            bench_curve(&mut random, &binomials, &mut box_work, &mut totals);
        }
    }
    let seconds = begun.elapsed().as_secs_f64();
    println!("curves {}", number);
    println!("too bent {}", totals.too_bent);
    println!("legs {}", totals.legs);
    println!("cells tested {}", totals.cells_tested);
    println!("checksum {}", totals.checksum.0);
    if asked.is_some() {
        println!("curves a second {:.0}", number as f64 / seconds);
    }
}
