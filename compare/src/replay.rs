//! What the program `replay` writes to standard output for a table and a log,
//! from its help text and the rules alone.

use crate::book::{Label, Rules};
use crate::register::Model;
use crate::table::Refusal;
use std::fmt::Write;

/// How often the line of an illegal place is shown.
const SHOWN: u64 = 10;

/// A refusal with its meaning, as replay says it.
pub fn reason(number: u32) -> &'static str {
    match number {
        1 => "the table is over 65,536 bytes",
        2 => "a count or record of the table runs past its end",
        3 => "a section count or an owned count outside its limits",
        4 => "counts, defaults, sequences, crosses or expressions of the table do not agree",
        5 => "the table has bytes after section ten",
        6 => "the table has over 256 places at a point, or over 1,024 products in a cross",
        9 => "the register has taken 4,294,967,295 samples",
        10 => "the register is stopped",
        13 => "a value or unknown bit above a point's width",
        15 => "a field outside its allowed values, or a guard at an ignore bin",
        16 => {
            "a, b, lo or hi outside the point's type, out of order, or a pattern outside its mask"
        }
        17 => "an unused field without its unused value",
        _ => panic!("no replay is refused with {number}"),
    }
}

/// What it writes to standard error at its first write that fails.
pub fn cannot_write(why: &str) -> String {
    format!("replay: cannot write: {why}\n")
}

/// An entry of a log.
#[derive(Clone, Debug, PartialEq, Eq)]
pub enum Entry {
    Sample(Vec<u32>),
    Start,
    Stop,
    /// A first word that is none of 0, 1, 2.
    Other(u32),
}

/// A log's bytes: little-endian words.
pub fn log(entries: &[Entry]) -> Vec<u8> {
    let words = entries.iter().flat_map(|entry| match entry {
        Entry::Sample(words) => [&[0], &words[..]].concat(),
        Entry::Start => vec![1],
        Entry::Stop => vec![2],
        Entry::Other(word) => vec![*word],
    });
    words.flat_map(u32::to_le_bytes).collect()
}

/// What follows the bytes of a log that were read.
#[derive(Clone, Copy, Debug, PartialEq, Eq)]
pub enum After {
    TheEnd,
    AFailedRead,
}

/// The entry that the bytes begin with, and what follows it; none if they end within it.
fn next_entry(bytes: &[u8], points: usize) -> Option<(Entry, &[u8])> {
    let word = |at: usize| Some(u32::from_le_bytes(*bytes.get(4 * at..)?.first_chunk()?));
    let (entry, words) = match word(0)? {
        0 => {
            let words: Option<Vec<u32>> = (1..5 + 2 * points).map(word).collect();
            (Entry::Sample(words?), 5 + 2 * points)
        }
        1 => (Entry::Start, 1),
        2 => (Entry::Stop, 1),
        other => (Entry::Other(other), 1),
    };
    Some((entry, &bytes[4 * words..]))
}

/// A percentage to six decimals, halves up, from the exact decimal expansion of the number.
fn six_decimals(percent: f64) -> String {
    let exact = format!("{percent:.60}");
    let (whole, decimals) = exact.split_once('.').expect("a decimal point");
    let kept: u64 = format!("{whole}{}", &decimals[..6]).parse().unwrap();
    let up = u64::from(decimals.as_bytes()[6] >= b'5');
    millionths(kept + up)
}

fn millionths(figure: u64) -> String {
    format!("{}.{:06} %", figure / 1_000_000, figure % 1_000_000)
}

fn or_none(figure: Option<String>) -> String {
    figure.unwrap_or("no figure".into())
}

fn owner(item: usize, points: usize) -> String {
    match item.checked_sub(points) {
        None => format!("point {item}"),
        Some(cross) => format!("cross {cross}"),
    }
}

/// The lines from `samples ..` to `group: ..`.
fn report(model: &Model, labels: &[Label], register: &[u32]) -> String {
    let layout = model.layout();
    let points = layout.points;
    let state = ["stopped", "running"][register[0] as usize];
    let mut text = format!("samples {}, {state}\n", register[1]);
    for (place, label) in labels.iter().enumerate() {
        let (_, count) = model.place_count(register, place);
        let standing = match label.at_least {
            None => "not in the total",
            Some(at_least) if count < at_least => "uncovered",
            Some(_) => "covered",
        };
        let (owner, what) = (owner(label.item, points), label.what);
        writeln!(text, "place {place}: {count} ({owner}, {what}, {standing})").unwrap();
    }
    for point in 0..points {
        let (_, count) = model.unknown_count(register, point);
        writeln!(text, "point {point} unknown: {count}").unwrap();
    }
    for item in 0..model.items() {
        let (_, figure) = model.item_figure(register, item);
        let figure = or_none(figure.map(six_decimals));
        writeln!(text, "item {item}: {figure} ({})", owner(item, points)).unwrap();
    }
    let (_, figure) = model.group_figure(register);
    let figure = figure.map(|figure| millionths(figure.into()));
    writeln!(text, "group: {}", or_none(figure)).unwrap();
    text
}

/// The illegal places: how often each was raised, and the lines that say so.
struct Illegals {
    raised: Vec<(usize, u64)>,
    lines: String,
}

impl Illegals {
    fn of(labels: &[Label]) -> Illegals {
        let places = (0..labels.len()).filter(|&place| labels[place].illegal);
        Illegals {
            raised: places.map(|place| (place, 0)).collect(),
            lines: String::new(),
        }
    }

    /// A sample that was taken, with its report's words.
    fn take(&mut self, report: &[u32], sample: u32, entry: usize) {
        for ((place, times), _) in self.raised.iter_mut().zip(report).filter(|(_, w)| **w == 1) {
            *times += 1;
            if *times <= SHOWN {
                let (lines, line) = (&mut self.lines, format!("illegal place {place} raised"));
                writeln!(lines, "{line} at sample {sample} (entry {entry})").unwrap();
            }
        }
    }

    fn totals(&self) -> String {
        let met = self.raised.iter().filter(|(_, times)| *times > 0);
        met.map(|(place, times)| {
            let shown = SHOWN.min(*times);
            format!("illegal place {place} total: {times} ({shown} shown)\n")
        })
        .collect()
    }
}

/// What replay writes for a table that it refuses: 1 has no place.
pub fn refused_table(refusal: Refusal) -> String {
    let Refusal { number, place } = refusal;
    let at = match number {
        1 => String::new(),
        _ => format!(" at byte {place}"),
    };
    format!(
        "no report: table refused: {number}{at} ({})\n",
        reason(number)
    )
}

/// What replay writes for the bytes of a table and of a log.
pub fn replay(table: &[u8], log: &[u8]) -> String {
    replay_until(table, log, After::TheEnd)
}

/// The same, where something else than the log's end may follow the bytes.
pub fn replay_until(table: &[u8], mut log: &[u8], after: After) -> String {
    let model = match Model::read(table) {
        Ok(model) => model,
        Err(refusal) => return refused_table(refusal),
    };
    let layout = *model.layout();
    let labels = Rules::read(table).expect("an accepted table").labels();
    let mut illegals = Illegals::of(&labels);
    let mut register = vec![0; layout.words()];
    assert_eq!(model.reset(&mut register), 0);
    let mut at = 0;
    let last = loop {
        let Some((entry, rest)) = next_entry(log, layout.points) else {
            break match after {
                After::AFailedRead => format!("partial report: log not read on from entry {at}"),
                After::TheEnd if log.is_empty() => "end of report".into(),
                After::TheEnd => format!("partial report: log cut at entry {at}"),
            };
        };
        let mut raised = vec![0; illegals.raised.len()];
        let number = match entry {
            Entry::Sample(words) => model.sample(&mut register, &words, &mut raised),
            Entry::Start => model.start(&mut register),
            Entry::Stop => model.stop(&mut register),
            Entry::Other(word) => {
                let why = format!("its first word is {word}, none of 0, 1, 2");
                break format!("partial report: entry {at} of no kind: {why}");
            }
        };
        if number != 0 {
            let why = reason(number);
            break format!("partial report: entry {at} refused: {number} ({why})");
        }
        illegals.take(&raised, register[1], at);
        log = rest;
        at += 1;
    };
    let report = report(&model, &labels, &register);
    format!("{}{}{report}{last}\n", illegals.lines, illegals.totals())
}
