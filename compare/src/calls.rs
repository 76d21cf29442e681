//! Calls by name, so that a list of them can be given to register and book.

use crate::book::{Book, Fed};
#[cfg(feature = "library")]
use crate::library;
use crate::register;

/// What report words hold before a call, so that an untouched word shows.
pub const UNTOUCHED: u32 = 0xA5A5_5A5A;

#[derive(Clone, Debug, PartialEq, Eq)]
pub enum Call {
    Reset,
    Start,
    Stop,
    /// The sample's words, and the length of the report.
    Sample {
        words: Vec<u32>,
        report: usize,
    },
    /// The words of samples in a row, and the length of their reports.
    Samples {
        words: Vec<u32>,
        reports: usize,
    },
    PlaceCount(usize),
    UnknownCount(usize),
    ItemFigure(usize),
    GroupFigure,
}

#[derive(Clone, Copy, Debug, PartialEq)]
pub enum Answer {
    Nothing,
    /// How many samples of a batch were accepted.
    Taken(usize),
    Count(u32),
    Item(Option<f64>),
    Group(Option<u32>),
}

/// The refusal number, a question's answer, and the report's words.
#[derive(Clone, Debug, PartialEq)]
pub struct Outcome {
    pub number: u32,
    pub answer: Answer,
    pub report: Vec<u32>,
}

impl Outcome {
    fn of(number: u32) -> Outcome {
        Outcome::with(number, Answer::Nothing)
    }

    fn with(number: u32, answer: Answer) -> Outcome {
        Outcome {
            number,
            answer,
            report: Vec::new(),
        }
    }
}

/// A call's outcome, by the functions of a module that take the table's bytes and
/// the register's words.
macro_rules! outcome_by {
    ($machine:ident, $bytes:ident, $words:ident, $call:ident) => {
        match $call {
            Call::Reset => Outcome::of($machine::reset($bytes, $words)),
            Call::Start => Outcome::of($machine::start($bytes, $words)),
            Call::Stop => Outcome::of($machine::stop($bytes, $words)),
            Call::Sample {
                words: sample,
                report,
            } => {
                let mut report = vec![UNTOUCHED; *report];
                let number = $machine::sample($bytes, $words, sample, &mut report);
                Outcome {
                    report,
                    ..Outcome::of(number)
                }
            }
            Call::Samples { words, reports } => {
                let mut report = vec![UNTOUCHED; *reports];
                let (number, taken) = $machine::samples($bytes, $words, words, &mut report);
                Outcome {
                    report,
                    ..Outcome::with(number, Answer::Taken(taken))
                }
            }
            Call::PlaceCount(place) => {
                let (number, count) = $machine::place_count($bytes, $words, *place);
                Outcome::with(number, Answer::Count(count))
            }
            Call::UnknownCount(point) => {
                let (number, count) = $machine::unknown_count($bytes, $words, *point);
                Outcome::with(number, Answer::Count(count))
            }
            Call::ItemFigure(item) => {
                let (number, figure) = $machine::item_figure($bytes, $words, *item);
                Outcome::with(number, Answer::Item(figure))
            }
            Call::GroupFigure => {
                let (number, figure) = $machine::group_figure($bytes, $words);
                Outcome::with(number, Answer::Group(figure))
            }
        }
    };
}

/// Gives a call to the register machine, the table's bytes with it.
pub fn on_register(bytes: &[u8], words: &mut [u32], call: &Call) -> Outcome {
    outcome_by!(register, bytes, words, call)
}

/// Gives a call to the library, the table's bytes with it.
#[cfg(feature = "library")]
pub fn on_library(bytes: &[u8], words: &mut [u32], call: &Call) -> Outcome {
    outcome_by!(library, bytes, words, call)
}

/// Gives a call to the book.
pub fn on_book(table: &Fed, book: &mut Book, call: &Call) -> Outcome {
    match call {
        Call::Reset => Outcome::of(book.reset(table)),
        Call::Start => Outcome::of(book.start(table)),
        Call::Stop => Outcome::of(book.stop(table)),
        Call::Sample {
            words: sample,
            report,
        } => {
            let mut report = vec![UNTOUCHED; *report];
            let number = book.sample(table, sample, &mut report);
            Outcome {
                report,
                ..Outcome::of(number)
            }
        }
        Call::Samples { words, reports } => {
            let mut report = vec![UNTOUCHED; *reports];
            let (number, taken) = book.samples(table, words, &mut report);
            Outcome {
                report,
                ..Outcome::with(number, Answer::Taken(taken))
            }
        }
        Call::PlaceCount(place) => {
            let (number, count) = book.place_count(table, *place);
            Outcome::with(number, Answer::Count(count))
        }
        Call::UnknownCount(point) => {
            let (number, count) = book.unknown_count(table, *point);
            Outcome::with(number, Answer::Count(count))
        }
        Call::ItemFigure(item) => {
            let (number, figure) = book.item_figure(table, *item);
            Outcome::with(number, Answer::Item(figure))
        }
        Call::GroupFigure => {
            let (number, figure) = book.group_figure(table);
            Outcome::with(number, Answer::Group(figure))
        }
    }
}
