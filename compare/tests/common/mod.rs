//! Register machine and book side by side; with the feature `library`, the library beside them.
#![allow(dead_code)]

use compare::book::{Book, Fed, Rules};
use compare::builder::{
    sequence, value, Cross, Form, Kind, Point, Range, Select, Step, Table, TransitionBin, ValueBin,
};
use compare::calls::{self, Answer, Call, Outcome, UNTOUCHED};
use compare::register::Model;
use compare::table::{
    self, CROSSES, CROSS_BINS, POINTS, SEQUENCES, STEPS, STEP_RANGES, TOKENS, TRANSITION_BINS,
    VALUE_BINS, VALUE_RANGES,
};

/// A table with records in every section.
pub fn full() -> Table {
    let points = vec![Point::new(4), Point::signed(4), Point::new(3)];
    let values = vec![
        ValueBin::cover(0, &[Range::Span(1, 2)]).guard(3),
        ValueBin::cover(0, &[Range::Span(3, 8)]).form(Form::Number(2)),
        ValueBin::ignore(0, &[value(9)]),
        ValueBin::illegal(0, &[value(10)]),
        ValueBin::default(0),
        ValueBin::cover(1, &[Range::Span(-3, 2)]).form(Form::PerValue),
        ValueBin::cover(0, &[Range::Pattern(8, 12)]),
    ];
    let repeated = vec![
        Step::new(&[value(4)]).repeat(2, 3),
        Step::new(&[Range::Pattern(1, 1), value(6)]),
        Step::new(&[Range::Span(2, 5)]),
    ];
    let transitions = vec![
        TransitionBin::cover(0, &[sequence(&[1, 2]), repeated]),
        TransitionBin::ignore(1, &[sequence(&[-1, 1])]),
        TransitionBin::illegal(2, &[sequence(&[3, 3])]).guard(63),
    ];
    let select = Select::bin(0, 0).and(Select::meets(1, 0, 1).negated());
    let cross = Cross::new(&[0, 1])
        .guard(0)
        .bin(Kind::Cover, select)
        .bin(Kind::Ignore, Select::Whole(1));
    Table::new(points)
        .values(values)
        .transitions(transitions)
        .cross(cross)
}

/// A cross of four points.
pub fn four() -> Table {
    Table::new(vec![Point::new(1); 4]).cross(Cross::new(&[3, 1, 0, 2]))
}

/// Which of 3, 15, 16 and 17 a count or a field can cause.
pub const FAULTS: [(u32, usize, &str); 57] = [
    (3, POINTS, "count"),
    (3, VALUE_BINS, "count"),
    (3, VALUE_RANGES, "count"),
    (3, TRANSITION_BINS, "count"),
    (3, SEQUENCES, "count"),
    (3, STEPS, "count"),
    (3, STEP_RANGES, "count"),
    (3, CROSSES, "count"),
    (3, CROSS_BINS, "count"),
    (3, TOKENS, "count"),
    (3, VALUE_BINS, "ranges"),
    (3, TRANSITION_BINS, "sequences"),
    (3, SEQUENCES, "steps"),
    (3, STEPS, "ranges"),
    (3, CROSSES, "cross bins"),
    (3, CROSS_BINS, "tokens"),
    (15, POINTS, "width"),
    (15, POINTS, "signed"),
    (15, POINTS, "guard"),
    (15, POINTS, "at-least"),
    (15, POINTS, "auto-max"),
    (15, VALUE_BINS, "point"),
    (15, VALUE_BINS, "kind"),
    (15, VALUE_BINS, "form"),
    (15, VALUE_BINS, "number"),
    (15, VALUE_BINS, "guard"),
    (15, VALUE_RANGES, "kind"),
    (15, TRANSITION_BINS, "point"),
    (15, TRANSITION_BINS, "kind"),
    (15, TRANSITION_BINS, "guard"),
    (15, STEPS, "least"),
    (15, STEPS, "most"),
    (15, STEP_RANGES, "kind"),
    (15, CROSSES, "points"),
    (15, CROSSES, "point 0"),
    (15, CROSSES, "point 1"),
    (15, CROSSES, "point 2"),
    (15, CROSSES, "point 3"),
    (15, CROSSES, "guard"),
    (15, CROSSES, "at-least"),
    (15, CROSS_BINS, "kind"),
    (15, CROSS_BINS, "guard"),
    (15, TOKENS, "op"),
    (15, TOKENS, "position"),
    (16, VALUE_RANGES, "a"),
    (16, VALUE_RANGES, "b"),
    (16, STEP_RANGES, "a"),
    (16, STEP_RANGES, "b"),
    (16, TOKENS, "lo"),
    (16, TOKENS, "hi"),
    (17, VALUE_BINS, "number"),
    (17, CROSSES, "point 2"),
    (17, CROSSES, "point 3"),
    (17, TOKENS, "position"),
    (17, TOKENS, "bin"),
    (17, TOKENS, "lo"),
    (17, TOKENS, "hi"),
];

/// Words beyond the register, which no call may touch.
pub const BEYOND: usize = 3;

/// The same calls for a register and a book; every call compares them.
pub struct Both {
    pub table: Table,
    pub bytes: Vec<u8>,
    pub rules: Fed,
    pub book: Book,
    pub register: Vec<u32>,
    pub done: Vec<Call>,
    points: Vec<(u8, bool)>,
}

impl Both {
    /// Begins with a reset of a register full of other words.
    pub fn new(table: &Table) -> Both {
        let bytes = table.bytes();
        let measure = table::measure(&bytes);
        assert_eq!(measure.number, 0, "table refused: {table:?}");
        let mut both = Both {
            table: table.clone(),
            rules: Rules::read(&bytes),
            book: Book::new(),
            register: vec![UNTOUCHED; measure.words as usize + BEYOND],
            done: Vec::new(),
            points: table.points.iter().map(|p| (p.width, p.signed)).collect(),
            bytes,
        };
        assert_eq!(both.call(&Call::Reset).number, 0);
        both
    }

    /// Gives the call to both; they must answer alike, and a refused call must
    /// change no word, unless it is a batch that took some samples.
    pub fn call(&mut self, call: &Call) -> Outcome {
        let before = self.register.clone();
        let by_register = calls::on_register(&self.bytes, &mut self.register, call);
        #[cfg(feature = "library")]
        self.same_by_library(&before, call, &by_register);
        let by_book = calls::on_book(&self.rules, &mut self.book, call);
        self.done.push(call.clone());
        if by_register != by_book {
            self.fail(&format!("register {by_register:?}\n  book {by_book:?}"));
        }
        let some_taken = matches!(by_register.answer, Answer::Taken(n) if n > 0);
        if by_register.number != 0 && !some_taken && self.register != before {
            self.fail("a refused call wrote to the register");
        }
        by_register
    }

    /// The library answers as the register machine did, and leaves the same words.
    #[cfg(feature = "library")]
    fn same_by_library(&self, before: &[u32], call: &Call, by_register: &Outcome) {
        let mut words = before.to_vec();
        let by_library = calls::on_library(&self.bytes, &mut words, call);
        if (&by_library, &words) != (by_register, &self.register) {
            self.fail(&format!(
                "{call:?}\nlibrary {by_library:?} {words:?}\nregister {by_register:?}"
            ));
        }
    }

    /// The same call with another table, which both must refuse alike and which
    /// may change nothing.
    pub fn refused_call(&mut self, bytes: &[u8], call: &Call) -> u32 {
        let before = (self.register.clone(), self.book.clone());
        let by_register = calls::on_register(bytes, &mut self.register, call);
        let by_book = calls::on_book(&Rules::read(bytes), &mut self.book, call);
        assert_eq!(by_register, by_book, "table {}", compare::hex(bytes));
        assert_ne!(by_register.number, 0, "table {}", compare::hex(bytes));
        assert_eq!((&self.register, &self.book), (&before.0, &before.1));
        by_register.number
    }

    /// All words alike, and the words beyond untouched.
    pub fn compare_words(&self) {
        let rules = self.rules.as_ref().expect("an accepted table");
        let (words, beyond) = self.register.split_at(self.register.len() - BEYOND);
        let expected = self.book.words(rules);
        if words != expected {
            self.fail(&format!("register {words:?}\n  book {expected:?}"));
        }
        if beyond != [UNTOUCHED; BEYOND] {
            self.fail("words beyond the register were written");
        }
    }

    fn fail(&self, what: &str) -> ! {
        panic!(
            "\n{what}\ntable {}\n{:?}\ncalls {:?}\nregister words {:?}",
            compare::hex(&self.bytes),
            self.table,
            self.done,
            self.register,
        );
    }

    /// A sample with all guards true.
    pub fn words(&self, readings: &[Reading]) -> Vec<u32> {
        guarded(u64::MAX, 0, readings, &self.points)
    }

    /// Takes a sample with all guards true; returns the report.
    pub fn sample(&mut self, readings: &[Reading]) -> Vec<u32> {
        let words = self.words(readings);
        self.sample_words(words)
    }

    /// Takes a sample with these guard bits.
    pub fn sample_guarded(&mut self, guards: u64, unknown: u64, readings: &[Reading]) -> Vec<u32> {
        let words = guarded(guards, unknown, readings, &self.points);
        self.sample_words(words)
    }

    pub fn sample_words(&mut self, words: Vec<u32>) -> Vec<u32> {
        let report = table::measure(&self.bytes).illegal_places as usize;
        let outcome = self.call(&Call::Sample { words, report });
        assert_eq!(outcome.number, 0);
        self.compare_words();
        outcome.report
    }

    /// Samples of a single point, one value after the other.
    pub fn values(&mut self, values: &[i64]) {
        for &value in values {
            self.sample(&[Reading::Value(value)]);
        }
    }

    pub fn count(&mut self, place: usize) -> u32 {
        match self.call(&Call::PlaceCount(place)).answer {
            Answer::Count(count) => count,
            other => panic!("{other:?}"),
        }
    }

    /// The counts of all places.
    pub fn counts(&mut self) -> Vec<u32> {
        let places = Model::read(&self.bytes).unwrap().layout().places;
        (0..places).map(|place| self.count(place)).collect()
    }

    pub fn unknown(&mut self, point: usize) -> u32 {
        match self.call(&Call::UnknownCount(point)).answer {
            Answer::Count(count) => count,
            other => panic!("{other:?}"),
        }
    }

    pub fn figure(&mut self, item: usize) -> Option<f64> {
        let outcome = self.call(&Call::ItemFigure(item));
        assert_eq!(outcome.number, 0);
        match outcome.answer {
            Answer::Item(figure) => figure,
            other => panic!("{other:?}"),
        }
    }

    pub fn group(&mut self) -> Option<u32> {
        match self.call(&Call::GroupFigure).answer {
            Answer::Group(figure) => figure,
            other => panic!("{other:?}"),
        }
    }
}

/// Measures a table; with the feature `library`, the library must say the same.
pub fn measure(bytes: &[u8]) -> table::Measure {
    let measure = table::measure(bytes);
    #[cfg(feature = "library")]
    assert_eq!(compare::library::measure(bytes), measure);
    measure
}

/// Takes a sample that reports nothing; with the feature `library`, the library must do the same.
pub fn sample(bytes: &[u8], words: &mut [u32], sample: &[u32]) -> u32 {
    let call = Call::Sample {
        words: sample.to_vec(),
        report: 0,
    };
    #[cfg(feature = "library")]
    let by_library = {
        let mut own = words.to_vec();
        (calls::on_library(bytes, &mut own, &call), own)
    };
    let outcome = calls::on_register(bytes, words, &call);
    #[cfg(feature = "library")]
    assert_eq!(by_library, (outcome.clone(), words.to_vec()));
    outcome.number
}

#[derive(Clone, Copy, Debug)]
pub enum Reading {
    Value(i64),
    Unknown,
}

fn guarded(guards: u64, unknown: u64, readings: &[Reading], points: &[(u8, bool)]) -> Vec<u32> {
    let halves = |bits: u64| [bits as u32, (bits >> 32) as u32];
    let mut words = [halves(guards), halves(unknown)].concat();
    for (reading, (width, _)) in readings.iter().zip(points) {
        let ones = (1u64 << width) - 1;
        words.extend(match reading {
            Reading::Value(value) => [(*value as u64 & ones) as u32, 0],
            Reading::Unknown => [0, 1],
        });
    }
    words
}
