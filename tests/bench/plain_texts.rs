//! Whole plan texts answered, by docs/plan-text.md, in plain Rust: what the Rattle program
//! `bench_texts` is measured against.
//!
//!     rustc -O -o plain tests/bench/plain_texts.rs && ./plain 100 < texts
//!
//! Plan texts are read on standard input, one after another, each ended by a zero octet,
//! and none has a zero octet in it. The argument is a number of rounds, 1 where it is left
//! out. In each round every text is answered once. Printed are
//!
//!     texts N
//!     octets printed N       for all texts, in one round
//!     cards N                how many texts have one
//!     checksum N             of what a round makes
//!     texts a second N       of all rounds, only the answering timed: the only line that
//!                            differs from run to run, and so printed only where the number
//!                            was given
//!
//! Each round has to come to the same. Reading the texts is not timed, nor is the checksum,
//! which is as much work as a good part of the answers.
//!
//! # The answer to a text
//!
//! It is what `plan` prints for the text, by docs/plan-text.md, and a card, by docs/card.md:
//! that of the turn's legs, with no octet after their records. A text has a card where its
//! turn is sealed and no line of it was refused.
//!
//! # The checksum
//!
//! It begins as 0, in each round. For each text, in order, it takes in all octets that are
//! printed, and then all octets of the card. To take in v is to become
//! (31 * checksum + v) mod 2147483647.

mod curves;

use curves::{
    binomials, Binomials, Branches, Cell, Flow, Leg, Point, Reduction, Terms, Unfit, MOST_POINTS,
    MOST_WORK,
};
use std::env;
use std::io::{self, Read};
use std::process;
use std::time::{Duration, Instant};

// --- The numbers of docs/plan-text.md and docs/turns.md

const MOST_OCTETS: usize = 16_384;
const MOST_DIGITS: usize = 10;
const MOST_LEGS: usize = 512;
const LIMIT: i64 = 1 << 31;
const GREATEST_DEPTH: i64 = curves::GREATEST_DEPTH as i64;
const LONGEST_TURN: i64 = 65_536;
const LONGEST_SPAN: i64 = 4_096;

/// Why a line is refused, or a text, by its number.
#[derive(Clone, Copy)]
enum Refusal {
    Tolerance = 1,
    Depth = 2,
    End = 3,
    NumberOfPoints = 5,
    BeyondLimit = 6,
    Ticks = 7,
    PastTheEnd = 8,
    Jump = 9,
    TooBent = 11,
    NoRoom = 12,
    NothingToStrike = 13,
    NotAtTheEnd = 15,
    NoForm = 41,
    OutOfPlace = 42,
    TextTooLong = 43,
}

impl From<Unfit> for Refusal {
    fn from(unfit: Unfit) -> Refusal {
        match unfit {
            Unfit::TooBent => Refusal::TooBent,
            Unfit::NoRoom => Refusal::NoRoom,
        }
    }
}

// --- Forms, and how they are read

#[derive(Clone, Copy)]
enum Kind {
    Flow,
    Box,
}

struct TurnForm {
    kind: Kind,
    reduction: Reduction,
    within: i64,
    depth: i64,
    ticks: i64,
}

/// A point as it is typed, whatever the kind of the turn.
#[derive(Clone, Copy)]
enum At {
    One(i64),
    Two(i64, i64),
}

struct SpanForm {
    ticks: i64,
    points: Vec<At>,
}

enum Form {
    Turn(TurnForm),
    Span(SpanForm),
    Strike,
    Seal,
}

/// What is left to be read of a line. Each of the calls reads something from the front of
/// it, and answers nothing where that does not stand there.
struct Reader<'a> {
    rest: &'a [u8],
}

impl<'a> Reader<'a> {
    fn word(&mut self, word: &[u8]) -> Option<()> {
        self.rest = self.rest.strip_prefix(word)?;
        Some(())
    }

    fn number(&mut self) -> Option<i64> {
        let negative = self.word(b"-").is_some();
        let digits = self.rest.iter().take_while(|octet| octet.is_ascii_digit()).count();
        let (number, rest) = self.rest.split_at(digits);
        let leads_with_zero = number.first() == Some(&b'0');
        if digits == 0 || digits > MOST_DIGITS || (leads_with_zero && (digits > 1 || negative)) {
            return None;
        }
        self.rest = rest;
        let value = number.iter().fold(0, |value, digit| 10 * value + i64::from(digit - b'0'));
        Some(if negative { -value } else { value })
    }

    fn kind(&mut self) -> Option<Kind> {
        match self.word(b"flow") {
            Some(()) => Some(Kind::Flow),
            None => self.word(b"box").map(|()| Kind::Box),
        }
    }

    fn legs(&mut self) -> Option<Reduction> {
        match self.word(b"chord") {
            Some(()) => Some(Reduction::Chord),
            None => self.word(b"matching").map(|()| Reduction::Matching),
        }
    }

    fn turn(&mut self) -> Option<TurnForm> {
        self.word(b"(turn (kind ")?;
        let kind = self.kind()?;
        self.word(b") (legs ")?;
        let reduction = self.legs()?;
        self.word(b") (within ")?;
        let within = self.number()?;
        self.word(b") (depth ")?;
        let depth = self.number()?;
        self.word(b") (ticks ")?;
        let ticks = self.number()?;
        self.word(b"))")?;
        Some(TurnForm { kind, reduction, within, depth, ticks })
    }

    /// A point, but for the words before it.
    fn at(&mut self) -> Option<At> {
        let first = self.number()?;
        let at = match self.word(b" ") {
            Some(()) => At::Two(first, self.number()?),
            None => At::One(first),
        };
        self.word(b")")?;
        Some(at)
    }

    fn span(&mut self) -> Option<SpanForm> {
        self.word(b"(span (ticks ")?;
        let ticks = self.number()?;
        self.word(b")")?;
        let mut points = Vec::with_capacity(MOST_POINTS);
        while self.word(b" (at ").is_some() {
            points.push(self.at()?);
        }
        self.word(b")")?;
        Some(SpanForm { ticks, points })
    }
}

/// The form that a line is, if it is one.
fn form_of(line: &[u8]) -> Option<Form> {
    let mut reader = Reader { rest: line };
    let form = match line {
        b"(strike)" => return Some(Form::Strike),
        b"(seal)" => return Some(Form::Seal),
        _ if line.starts_with(b"(turn") => Form::Turn(reader.turn()?),
        _ => Form::Span(reader.span()?),
    };
    reader.rest.is_empty().then_some(form)
}

// --- What is printed

fn print_number(printed: &mut Vec<u8>, number: i64) {
    let mut digits = [0; 20];
    let mut begin = digits.len();
    let mut rest = number.unsigned_abs();
    loop {
        begin -= 1;
        digits[begin] = b'0' + (rest % 10) as u8;
        rest /= 10;
        if rest == 0 {
            break;
        }
    }
    if number < 0 {
        begin -= 1;
        digits[begin] = b'-';
    }
    printed.extend_from_slice(&digits[begin..]);
}

/// Prints words, and a number behind them.
fn print_item(printed: &mut Vec<u8>, words: &[u8], number: i64) {
    printed.extend_from_slice(words);
    print_number(printed, number);
}

fn print_refused(printed: &mut Vec<u8>, refusal: Refusal, line: usize) {
    print_item(printed, b"(refused ", refusal as i64);
    print_item(printed, b" (line ", line as i64);
    printed.extend_from_slice(b"))\n");
}

// --- Points and legs of a turn

/// A kind of ordinate that a plan text may be in.
trait Ordinate: Point + PartialEq {
    /// Its number on a card, and the length of its records.
    const KIND: u8;
    const RECORD: u16;

    /// The point that is typed so; nothing where it is unlike the kind.
    fn typed(at: At) -> Option<Self>;

    fn is_drawable(self) -> bool;

    fn print(self, printed: &mut Vec<u8>);
}

fn is_in_limits(coordinate: i64) -> bool {
    (-LIMIT..=LIMIT).contains(&coordinate)
}

impl Ordinate for Flow {
    const KIND: u8 = 1;
    const RECORD: u16 = 36;

    fn typed(at: At) -> Option<Self> {
        match at {
            At::One(flow) => Some(Flow(flow)),
            At::Two(..) => None,
        }
    }

    fn is_drawable(self) -> bool {
        is_in_limits(self.0)
    }

    fn print(self, printed: &mut Vec<u8>) {
        print_item(printed, b" (at ", self.0);
        printed.push(b')');
    }
}

impl Ordinate for Branches {
    const KIND: u8 = 2;
    const RECORD: u16 = 60;

    fn typed(at: At) -> Option<Self> {
        match at {
            At::One(_) => None,
            At::Two(left, right) => Some(Branches { left, right }),
        }
    }

    fn is_drawable(self) -> bool {
        is_in_limits(self.left) && is_in_limits(self.right)
    }

    fn print(self, printed: &mut Vec<u8>) {
        print_item(printed, b" (at ", self.left);
        print_item(printed, b" ", self.right);
        printed.push(b')');
    }
}

/// A leg in its place in the turn.
struct Placed<P> {
    from: u32,
    ticks: u32,
    leg: Leg<P>,
}

impl<P: Ordinate> Placed<P> {
    fn print(&self, degree: u8, printed: &mut Vec<u8>) {
        let Leg { cell: Cell { depth, index }, start, middle, end } = self.leg;
        print_item(printed, b"(leg (from ", i64::from(self.from));
        print_item(printed, b") (ticks ", i64::from(self.ticks));
        print_item(printed, b") (cell ", i64::from(depth));
        print_item(printed, b" ", i64::from(index));
        print_item(printed, b") (degree ", i64::from(degree));
        printed.push(b')');
        start.print(printed);
        middle.print(printed);
        end.print(printed);
        printed.extend_from_slice(b")\n");
    }

    /// Writes its record at the end of a card.
    fn write(&self, degree: u8, card: &mut Vec<u8>) {
        let Leg { cell: Cell { depth, index }, start, middle, end } = self.leg;
        card.extend_from_slice(&self.from.to_be_bytes());
        card.extend_from_slice(&(self.ticks as u16).to_be_bytes());
        card.extend_from_slice(&[depth as u8, degree]);
        card.extend_from_slice(&(index as u16).to_be_bytes());
        card.extend_from_slice(&[0, 0]);
        for &point in &[start, middle, end] {
            point.for_each(|coordinate| card.extend_from_slice(&coordinate.to_be_bytes()));
        }
    }
}

// --- A turn that is made

struct Turn<'a, P> {
    terms: Terms<'a>,
    end: u32,
    legs: Vec<Placed<P>>,
    laid: u32,
    sealed: bool,
    work: Vec<P>,
}

impl<'a, P: Ordinate> Turn<'a, P> {
    fn begin(form: &TurnForm, binomials: &'a Binomials) -> Result<Self, Refusal> {
        if !(1..=LIMIT).contains(&form.within) {
            return Err(Refusal::Tolerance);
        }
        if !(0..=GREATEST_DEPTH).contains(&form.depth) {
            return Err(Refusal::Depth);
        }
        if !(1..=LONGEST_TURN).contains(&form.ticks) {
            return Err(Refusal::End);
        }
        Ok(Turn {
            terms: Terms {
                reduction: form.reduction,
                tolerance: form.within,
                depth: form.depth as u32,
                binomials,
            },
            end: form.ticks as u32,
            legs: Vec::new(),
            laid: 0,
            sealed: false,
            work: vec![P::ZERO; MOST_WORK],
        })
    }

    /// The degree of its legs, which is the lowest of its curves too.
    fn degree(&self) -> u8 {
        match self.terms.reduction {
            Reduction::Chord => 1,
            Reduction::Matching => 2,
        }
    }

    /// How long a span with these points and ticks lasts, if it may be laid.
    fn check(&self, points: &[P], ticks: i64) -> Result<u32, Refusal> {
        if points.len() <= usize::from(self.degree()) || points.len() > MOST_POINTS {
            return Err(Refusal::NumberOfPoints);
        }
        if !points.iter().all(|point| point.is_drawable()) {
            return Err(Refusal::BeyondLimit);
        }
        if !(1..=LONGEST_SPAN).contains(&ticks) {
            return Err(Refusal::Ticks);
        }
        let ticks = ticks as u32;
        if self.laid + ticks > self.end {
            return Err(Refusal::PastTheEnd);
        }
        match self.legs.last() {
            Some(last) if last.leg.end != points[0] => Err(Refusal::Jump),
            _ => Ok(ticks),
        }
    }

    fn lay(&mut self, span: &SpanForm) -> Result<(), Refusal> {
        let points: Option<Vec<P>> = span.points.iter().map(|&at| P::typed(at)).collect();
        let points = points.ok_or(Refusal::NoForm)?;
        let ticks = self.check(&points, span.ticks)?;
        let from = self.laid;
        let legs = &mut self.legs;
        let room = (MOST_LEGS - legs.len()) as u64;
        self.terms.fit(&points, room, &mut self.work, |leg| {
            legs.push(Placed { from, ticks, leg });
        })?;
        self.laid += ticks;
        Ok(())
    }

    fn strike(&mut self) -> Result<(), Refusal> {
        let from = self.legs.last().ok_or(Refusal::NothingToStrike)?.from;
        let struck = self.legs.iter().rev().take_while(|leg| leg.from == from).count();
        self.legs.truncate(self.legs.len() - struck);
        self.laid = from;
        Ok(())
    }

    fn seal(&mut self, printed: &mut Vec<u8>) -> Result<(), Refusal> {
        if self.laid < self.end {
            return Err(Refusal::NotAtTheEnd);
        }
        self.sealed = true;
        for leg in &self.legs {
            leg.print(self.degree(), printed);
        }
        print_item(printed, b"(sealed (legs ", self.legs.len() as i64);
        print_item(printed, b") (ticks ", i64::from(self.end));
        printed.extend_from_slice(b"))\n");
        Ok(())
    }

    /// Carries out a form, and prints what it is answered but for a refusal.
    fn carry_out(&mut self, form: &Form, printed: &mut Vec<u8>) -> Result<(), Refusal> {
        if self.sealed {
            return Err(Refusal::OutOfPlace);
        }
        match form {
            Form::Turn(_) => Err(Refusal::OutOfPlace),
            Form::Span(span) => self.lay(span),
            Form::Strike => self.strike(),
            Form::Seal => self.seal(printed),
        }
    }

    /// The card of the turn, where it is sealed.
    fn card(&self) -> Option<Vec<u8>> {
        if !self.sealed {
            return None;
        }
        let mut card = Vec::with_capacity(8 + self.legs.len() * usize::from(P::RECORD));
        card.extend_from_slice(&[P::KIND, 1]);
        card.extend_from_slice(&P::RECORD.to_be_bytes());
        card.extend_from_slice(&(self.legs.len() as u32).to_be_bytes());
        for leg in &self.legs {
            leg.write(self.degree(), &mut card);
        }
        Some(card)
    }
}

// --- A whole text

/// How far a text has come.
enum Stage<'a> {
    Waiting,
    Flow(Turn<'a, Flow>),
    Box(Turn<'a, Branches>),
}

impl<'a> Stage<'a> {
    fn begin(form: &Form, binomials: &'a Binomials) -> Result<Self, Refusal> {
        match form {
            Form::Turn(form) => match form.kind {
                Kind::Flow => Turn::begin(form, binomials).map(Stage::Flow),
                Kind::Box => Turn::begin(form, binomials).map(Stage::Box),
            },
            _ => Err(Refusal::OutOfPlace),
        }
    }

    fn answer(
        &mut self,
        line: &[u8],
        binomials: &'a Binomials,
        printed: &mut Vec<u8>,
    ) -> Result<(), Refusal> {
        let form = form_of(line).ok_or(Refusal::NoForm)?;
        match self {
            Stage::Waiting => *self = Stage::begin(&form, binomials)?,
            Stage::Flow(turn) => turn.carry_out(&form, printed)?,
            Stage::Box(turn) => turn.carry_out(&form, printed)?,
        }
        Ok(())
    }

    fn card(&self) -> Option<Vec<u8>> {
        match self {
            Stage::Waiting => None,
            Stage::Flow(turn) => turn.card(),
            Stage::Box(turn) => turn.card(),
        }
    }
}

struct Planned {
    printed: Vec<u8>,
    card: Option<Vec<u8>>,
}

/// The lines of a text. A line feed at its end begins no new line.
fn lines_of(text: &[u8]) -> impl Iterator<Item = &[u8]> {
    let lines = text.split_inclusive(|&octet| octet == b'\n');
    lines.map(|line| line.strip_suffix(b"\n").unwrap_or(line))
}

fn answer_text(text: &[u8], binomials: &Binomials) -> Planned {
    let mut printed = Vec::new();
    if text.len() > MOST_OCTETS {
        print_refused(&mut printed, Refusal::TextTooLong, 0);
        return Planned { printed, card: None };
    }
    let mut stage = Stage::Waiting;
    let mut refused = false;
    for (line, number) in lines_of(text).zip(1..) {
        if let Err(refusal) = stage.answer(line, binomials, &mut printed) {
            print_refused(&mut printed, refusal, number);
            refused = true;
        }
    }
    let card = if refused { None } else { stage.card() };
    Planned { printed, card }
}

// --- The benchmark

struct Checksum(u64);

impl Checksum {
    fn take_in(&mut self, octets: &[u8]) {
        for &octet in octets {
            self.0 = (31 * self.0 + u64::from(octet)) % 2_147_483_647;
        }
    }
}

#[derive(PartialEq)]
struct Totals {
    octets: usize,
    cards: usize,
    checksum: u64,
}

/// One round: each text is answered once. The time of the answers is added to `time`.
fn answer_all(texts: &[&[u8]], binomials: &Binomials, time: &mut Duration) -> Totals {
    let (mut octets, mut cards, mut checksum) = (0, 0, Checksum(0));
    for text in texts {
        let begun = Instant::now();
        let planned = answer_text(text, binomials);
        *time += begun.elapsed();
        octets += planned.printed.len();
        checksum.take_in(&planned.printed);
        if let Some(card) = planned.card {
            cards += 1;
            checksum.take_in(&card);
        }
    }
    Totals { octets, cards, checksum: checksum.0 }
}

fn fail(message: &str) -> ! {
    eprintln!("plain: {}", message);
    process::exit(1);
}

/// The number of rounds that is asked for.
fn rounds_asked() -> Option<u64> {
    let words: Vec<String> = env::args().skip(1).collect();
    match words.as_slice() {
        [] => None,
        [word] => match word.parse() {
            Ok(0) | Err(_) => fail(&format!("'{}' is no number of rounds", word)),
            Ok(rounds) => Some(rounds),
        },
        _ => fail("usage: plain [NUMBER-OF-ROUNDS]"),
    }
}

fn main() {
    let asked = rounds_asked();
    let mut input = Vec::new();
    if let Err(error) = io::stdin().read_to_end(&mut input) {
        fail(&error.to_string());
    }
    let texts: Vec<&[u8]> = match input.split_last() {
        Some((0, texts)) => texts.split(|&octet| octet == 0).collect(),
        _ => fail("the last text is not ended by a zero octet"),
    };
    let rounds = asked.unwrap_or(1);
    let binomials = binomials();
    let mut time = Duration::ZERO;
    let totals = answer_all(&texts, &binomials, &mut time);
    for round in 1..rounds {
        if answer_all(&texts, &binomials, &mut time) != totals {
            fail(&format!("round {} comes to something else than round 0", round));
        }
    }
    println!("texts {}", texts.len());
    println!("octets printed {}", totals.octets);
    println!("cards {}", totals.cards);
    println!("checksum {}", totals.checksum);
    if asked.is_some() {
        let answered = texts.len() as u64 * rounds;
        println!("texts a second {:.0}", answered as f64 / time.as_secs_f64());
    }
}
