//! Tables of three sizes, tables of other shapes, and a stopwatch.
//!
//! The library keeps nothing between calls, so neither may what it is measured
//! against: the second program (`register`, `table`) checks and decodes the table
//! at every call too. It does so as plain Rust would: records in vectors, excluded
//! spans sorted, joined and halved, products as sets of bits, of which a sample
//! looks only at those that are hit. The compiled sampler (`compiled`) decodes the
//! table once, before the clock starts, and is what many samples could cost.
#![allow(dead_code)]

pub mod shapes;

use compare::builder::{
    value, Cross, Form, Kind, Point, Range, Select, Step, Table, TransitionBin, ValueBin,
};
use shapes::Shape;
use std::time::Instant;

/// About 600 bytes: 3 points, 12 bins, a sequence, a cross; some 90 counters.
pub fn small() -> Table {
    let points = vec![Point::new(8), Point::signed(12), Point::new(4)];
    let mut bins: Vec<ValueBin> = (0..8)
        .map(|i| ValueBin::cover(0, &[Range::Span(i * 16, i * 16 + 15)]))
        .collect();
    bins.push(ValueBin::cover(1, &[Range::Span(-100, 100)]).form(Form::Number(10)));
    bins.push(ValueBin::ignore(1, &[value(0)]));
    bins.push(ValueBin::cover(2, &[Range::Span(0, 7)]).form(Form::PerValue));
    bins.push(ValueBin::illegal(2, &[value(15)]));
    let steps = vec![Step::new(&[value(1)]), Step::new(&[value(2), value(3)])];
    let cross = Cross::new(&[0, 2]).bin(Kind::Cover, Select::bin(0, 0).and(Select::meets(1, 0, 3)));
    Table::new(points)
        .values(bins)
        .transitions(vec![TransitionBin::cover(0, &[steps])])
        .cross(cross)
}

/// Some 8,000 bytes: 8 points with 16 bins each, sequences, crosses.
pub fn medium() -> Table {
    let points = (0..8).map(|_| Point::new(16)).collect();
    let mut bins = Vec::new();
    for point in 0..8u8 {
        for i in 0..16 {
            let spans = [Range::Span(i * 100, i * 100 + 50), value(60_000 + i)];
            bins.push(ValueBin::cover(point, &spans));
        }
    }
    let steps = vec![Step::new(&[value(1)]), Step::new(&[value(2)])];
    let transitions = (0..16)
        .map(|i| TransitionBin::cover(i % 8, &[steps.clone(), steps.clone()]))
        .collect();
    let mut table = Table::new(points).values(bins).transitions(transitions);
    for i in 0..4u8 {
        let select = Select::bin(0, u16::from(i) * 32).or(Select::meets(1, 0, 99).negated());
        table = table.cross(Cross::new(&[i * 2, i * 2 + 1]).bin(Kind::Cover, select));
    }
    table
}

/// The largest counts: 16 points, 512 bins with 1,024 ranges, 64 sequences of
/// 4 steps with 512 step ranges, 8 crosses of 1,024
/// products with 128 bins and 1,024 tokens in all.
pub fn largest() -> Table {
    let points = (0..16).map(|_| Point::new(32)).collect();
    let mut bins = Vec::new();
    for point in 0..16u8 {
        for i in 0..32i64 {
            let spans = [
                Range::Span(i * 1_000, i * 1_000 + 500),
                Range::Span(i * 7_000, i * 7_000 + 1),
            ];
            bins.push(ValueBin::cover(point, &spans));
        }
    }
    let step = || Step::new(&[value(1), value(9)]);
    let sequence = || vec![step(), step(), step(), step()];
    let transitions = (0..64)
        .map(|i| TransitionBin::cover(i % 16, &[sequence()]))
        .collect();
    let mut table = Table::new(points).values(bins).transitions(transitions);
    for c in 0..8u8 {
        let mut cross = Cross::new(&[c * 2, c * 2 + 1]);
        for _ in 0..16 {
            let leaf = || Select::meets(0, 0, 99);
            let three = leaf().and(leaf()).or(leaf().negated());
            cross = cross.bin(Kind::Cover, three.and(leaf()));
        }
        table = table.cross(cross);
    }
    table
}

/// Seconds that a single call may take.
const PATIENCE: f64 = 60.0;

/// Shapes that grow. `measured` prints a line and says the library's seconds of one
/// call; a shape that would take it too long, by the time of the one before and
/// this power of the count, is left out.
pub fn growing(
    counts: &[i64],
    power: i32,
    shape: impl Fn(i64) -> Shape,
    mut measured: impl FnMut(&Shape) -> f64,
) {
    let mut before: Option<(i64, f64)> = None;
    for &count in counts {
        let shape = shape(count);
        let grown =
            |(fewer, seconds): (i64, f64)| seconds * (count as f64 / fewer as f64).powi(power);
        match before.map(grown) {
            Some(seconds) if seconds > PATIENCE => {
                println!(
                    "{:<24} not run: it would take the library some {seconds:.0} s",
                    shape.name
                )
            }
            _ => before = Some((count, measured(&shape))),
        }
    }
}

/// The growing shapes of all benches.
pub fn grown(measured: &mut dyn FnMut(&Shape) -> f64) {
    growing(&[30, 500], 2, shapes::patterns, &mut *measured);
    growing(
        &[60, 225, 450, 900],
        2,
        shapes::touching_spans,
        &mut *measured,
    );
    growing(&[60, 225, 450, 900], 2, shapes::spans_apart, measured);
}

/// Most rounds of a measurement, and the time that the library's part of all of
/// them may take: a call that takes seconds is timed once.
const ROUNDS: usize = 50;
const BUDGET_NANOSECONDS: f64 = 1_000_000_000.0;
/// How long the library's part of a round takes, if a single pass is not longer.
/// Short rounds are seldom disturbed.
const ROUND_NANOSECONDS: f64 = 2_000_000.0;
/// Least calls of the second program and of the compiled sampler in a round.
const FEW: usize = 10;
const MANY: usize = 1_000;

/// Nanoseconds of one call, the smallest and the largest of the rounds.
#[derive(Clone, Copy)]
pub struct Extent {
    pub smallest: f64,
    pub largest: f64,
}

impl Extent {
    fn of(calls: usize, call: &mut dyn FnMut(usize)) -> Extent {
        let time = nanoseconds(calls, call);
        Extent {
            smallest: time,
            largest: time,
        }
    }

    fn with(self, other: Extent) -> Extent {
        Extent {
            smallest: self.smallest.min(other.smallest),
            largest: self.largest.max(other.largest),
        }
    }

    fn micros(&self) -> String {
        let micros = |time: f64| match time / 1_000.0 {
            tiny if tiny < 0.9995 => format!("{tiny:.3}"),
            small if small < 99.95 => format!("{small:.2}"),
            large => format!("{large:.0}"),
        };
        format!("{} .. {}", micros(self.smallest), micros(self.largest))
    }
}

/// Times of one call by the library, by the second program, and by the compiled
/// sampler where it takes part.
pub struct Times {
    pub rounds: usize,
    pub library: Extent,
    pub second: Extent,
    pub compiled: Option<Extent>,
}

/// Calls that are measured in turn; each is given the number of the call.
pub struct Contest<'a> {
    /// Calls that belong together, as the samples of a list.
    pub pass: usize,
    pub library: Box<dyn FnMut(usize) + 'a>,
    pub second: Box<dyn FnMut(usize) + 'a>,
    pub compiled: Option<Box<dyn FnMut(usize) + 'a>>,
    /// Fails if they did not all do the same; asked when they took as many calls.
    pub agree: Box<dyn Fn() + 'a>,
}

impl Contest<'_> {
    /// Measures all in turn: each round times some passes by the library, then as
    /// many by the second program, and ten times as many by the compiled sampler,
    /// so that whatever else the machine does meets all. A first call and a first
    /// pass warm up, and say how many passes make a round and how many rounds there
    /// are. Where a pass would take longer than all rounds may, a pass is one call,
    /// and where a call would, the library's first is its only one.
    pub fn run(mut self) -> Times {
        let first = self.round(1, 1, 1);
        (self.agree)();
        let one = first.library.smallest;
        if 2.0 * one > BUDGET_NANOSECONDS {
            return self.without_library(first.library);
        }
        let pass = match one * self.pass as f64 > BUDGET_NANOSECONDS / 2.0 {
            true => 1,
            false => self.pass,
        };
        let warm = self.round(pass, pass, pass);
        (self.agree)();
        let whole = warm.library.smallest * pass as f64;
        let calls = pass * (ROUND_NANOSECONDS / whole).max(1.0) as usize;
        let rounds = BUDGET_NANOSECONDS / (calls as f64 * warm.library.smallest);
        let mut rounds = (0..(rounds as usize).clamp(1, ROUNDS))
            .map(|_| self.round(calls, calls.max(FEW), (10 * calls).max(MANY)));
        let first = rounds.next().expect("a round");
        rounds.fold(first, Times::with)
    }

    /// Rounds of the others, the library's time being known.
    fn without_library(mut self, library: Extent) -> Times {
        let mut rounds = (0..FEW).map(|_| Times {
            library,
            ..self.round(0, FEW, MANY)
        });
        let first = rounds.next().expect("a round");
        let times = rounds.fold(first, Times::with);
        Times { rounds: 1, ..times }
    }

    /// So many calls by each.
    fn round(&mut self, library: usize, second: usize, compiled: usize) -> Times {
        Times {
            rounds: 1,
            library: Extent::of(library, &mut self.library),
            second: Extent::of(second, &mut self.second),
            compiled: self
                .compiled
                .as_mut()
                .map(|call| Extent::of(compiled, call)),
        }
    }
}

fn nanoseconds(calls: usize, call: &mut dyn FnMut(usize)) -> f64 {
    let start = Instant::now();
    for index in 0..calls {
        call(index);
    }
    start.elapsed().as_nanos() as f64 / calls as f64
}

/// What the lines of [`Times::line`] have; `what` is timed, `size` stands after the name.
pub fn heading(what: &str, size: &str, compiled: bool) -> String {
    let compiled = match compiled {
        true => format!(" {:>20}", "compiled"),
        false => String::new(),
    };
    format!(
        "Microseconds of {what}: the smallest and the largest of the rounds, in each of which the programs ran in turn.\n\
         The ratio is that of the smallest, library over second program.\n\
         {:<24} {size:>7} {:>24} {:>24} {:>8}{compiled} {:>7}",
        "table", "library", "second program", "ratio", "rounds"
    )
}

impl Times {
    fn with(self, other: Times) -> Times {
        let both = self.compiled.zip(other.compiled);
        Times {
            rounds: self.rounds + other.rounds,
            library: self.library.with(other.library),
            second: self.second.with(other.second),
            compiled: both.map(|(own, other)| own.with(other)),
        }
    }

    /// The library's least time of one call, in seconds.
    pub fn seconds(&self) -> f64 {
        self.library.smallest / 1e9
    }

    pub fn line(&self, name: &str, size: usize) -> String {
        let ratio = self.library.smallest / self.second.smallest;
        let (library, second) = (self.library.micros(), self.second.micros());
        let compiled = match &self.compiled {
            Some(range) => format!(" {:>20}", range.micros()),
            None => String::new(),
        };
        let rounds = self.rounds;
        format!(
            "{name:<24} {size:>7} {library:>24} {second:>24} {ratio:>8.2}{compiled} {rounds:>7}"
        )
    }
}
