//! The examples of docs/RULES.md on register machine and book; with the feature
//! `library`, on the library too.
//!
//! An example on the page has tables in the notation of clause 19 and rows of what
//! happens. Both are written here from the table that is built and from what the
//! programs answer, and must stand on the page word for word.

mod common;

use common::Both;
use common::Reading::{self, Unknown, Value};
use compare::builder::{
    sequence, value, Cross, Form, Kind, Point, Range, Select, Step, Table, TransitionBin, ValueBin,
};
use compare::calls::{self, Answer, Call, Outcome, UNTOUCHED};
use compare::table::{CROSSES, POINTS, STEPS, TOKENS, VALUE_BINS, VALUE_RANGES};

const PAGE: &str = include_str!("../../docs/RULES.md");
const MARK: &str = "Example `";

/// What the page says in an example: the lines of its table, then its rows.
fn on_page(name: &str) -> Vec<String> {
    let mark = format!("{MARK}{name}`");
    let mut lines = PAGE.lines().skip_while(|line| !line.starts_with(&mark));
    assert!(lines.next().is_some(), "no example {name} on the page");
    let ends = |line: &&str| !line.starts_with('#') && !line.starts_with(MARK);
    let mut said: Vec<String> = Vec::new();
    for line in lines.take_while(ends) {
        if let Some(declared) = line.strip_prefix("    ") {
            said.push(declared.into());
        } else if line.starts_with('|') && !line.starts_with("|---") {
            said.push(line.into());
        }
    }
    said
}

/// An example as the programs have it; when it is done, the page must say the same.
struct Example {
    name: &'static str,
    declared: Vec<String>,
    rows: Vec<Vec<String>>,
}

impl Example {
    /// The table, and what stands at the head of each row (`column`) or column (`row`).
    fn of<const N: usize>(name: &'static str, table: &Table, heads: [&str; N]) -> Example {
        let declared = declared(table);
        let heads = heads.map(text).to_vec();
        let rows = vec![heads];
        Example {
            name,
            declared,
            rows,
        }
    }

    fn row<const N: usize>(&mut self, cells: [String; N]) {
        self.rows.push(cells.to_vec());
    }

    /// Turns rows into columns.
    fn across(&mut self) {
        let cells = 0..self.rows[0].len();
        let rows = std::mem::take(&mut self.rows);
        let across = |cell: usize| rows.iter().map(|row| row[cell].clone()).collect();
        self.rows = cells.map(across).collect();
    }

    fn lines(&self) -> Vec<String> {
        let rows = self.rows.iter();
        let rows = rows.map(|cells| format!("| {} |", cells.join(" | ")));
        self.declared.iter().cloned().chain(rows).collect()
    }
}

impl Drop for Example {
    fn drop(&mut self) {
        if !std::thread::panicking() {
            let (said, expected) = (on_page(self.name).join("\n"), self.lines().join("\n"));
            assert!(
                said == expected,
                "\nexample {} is\n{expected}\nand the page says\n{said}\n",
                self.name
            );
        }
    }
}

/// Every example of the page is run here, by the test of its name, and no other.
#[test]
fn every_example_is_run() {
    let upto = |text: &str, end: char| text.split(end).next().unwrap().to_string();
    let marked = PAGE.lines().filter_map(|line| line.strip_prefix(MARK));
    let mut page: Vec<String> = marked.map(|name| upto(name, '`')).collect();
    let source: Vec<&str> = include_str!("rules.rs").lines().collect();
    let tests = source.windows(2).filter(|lines| lines[0] == "#[test]");
    let names = tests.filter_map(|lines| lines[1].strip_prefix("fn "));
    let mut run: Vec<String> = names.map(|name| upto(name, '(')).collect();
    run.retain(|name| name != "every_example_is_run");
    page.sort();
    run.sort();
    assert_eq!(page, run);
    assert!(page.len() > 20);
}

// ---- the notation

fn range(range: &Range, width: u8) -> String {
    match *range {
        Range::Span(lo, hi) if lo == hi => lo.to_string(),
        Range::Span(lo, hi) => format!("[{lo}:{hi}]"),
        Range::Pattern(bits, mask) => {
            let bit = |at| match (mask >> at & 1, bits >> at & 1) {
                (0, _) => '?',
                (_, 0) => '0',
                _ => '1',
            };
            let bits: String = (0..width).rev().map(bit).collect();
            format!("{width}'b{bits}")
        }
    }
}

fn ranges(of: &[Range], width: u8, between: &str) -> String {
    let all: Vec<String> = of.iter().map(|r| range(r, width)).collect();
    all.join(between)
}

fn iff(guard: Option<u8>) -> String {
    guard.map_or(String::new(), |g| format!(" iff (g{g})"))
}

fn keyword(kind: Kind) -> &'static str {
    match kind {
        Kind::Ignore => "ignore_bins",
        Kind::Illegal => "illegal_bins",
        _ => "bins",
    }
}

fn options(weight: u16, at_least: u32) -> String {
    let mut text = String::new();
    if weight != 1 {
        text += &format!(", weight {weight}");
    }
    if at_least != 1 {
        text += &format!(", at_least {at_least}");
    }
    text
}

fn step(step: &Step, width: u8) -> String {
    let repeat = match (step.least, step.most) {
        (1, 1) => String::new(),
        (least, most) if least == most => format!("[*{least}]"),
        (least, most) => format!("[*{least}:{most}]"),
    };
    ranges(&step.ranges, width, ",") + &repeat
}

fn select(of: &Select, cross: &Cross) -> String {
    let point = |position: &u8| cross.points[*position as usize];
    let operand = |inner: &Select| match inner {
        Select::And(..) | Select::Or(..) => format!("({})", select(inner, cross)),
        _ => select(inner, cross),
    };
    match of {
        Select::Whole(position) => format!("binsof(p{})", point(position)),
        Select::Bin { position, bin } => format!("binsof(p{}.b{bin})", point(position)),
        Select::Meets { position, lo, hi } => {
            let span = range(&Range::Span(*lo, *hi), 0);
            format!("binsof(p{}) intersect {{{span}}}", point(position))
        }
        Select::Not(inner) => format!("!{}", operand(inner)),
        Select::And(left, right) => format!("{} && {}", operand(left), operand(right)),
        Select::Or(left, right) => format!("{} || {}", operand(left), operand(right)),
    }
}

/// A point or cross with its bins: on one line if it fits.
fn with_bins(head: String, bins: &[String]) -> Vec<String> {
    let line = match bins.is_empty() {
        true => head.clone(),
        false => format!("{head} {{ {} }}", bins.join("; ")),
    };
    if line.len() <= 150 {
        return vec![line];
    }
    let mut lines = vec![format!("{head} {{")];
    lines.extend(bins.iter().map(|bin| format!("    {bin};")));
    lines.push("}".into());
    lines
}

fn value_bin(number: usize, bin: &ValueBin, width: u8) -> String {
    let form = match bin.form {
        Form::One => String::new(),
        Form::PerValue => "[]".into(),
        Form::Number(number) => format!("[{number}]"),
    };
    let mut all = bin.ranges.iter();
    let wildcard = match all.any(|r| matches!(r, Range::Pattern(..))) {
        true => "wildcard ",
        false => "",
    };
    let values = match bin.kind {
        Kind::Default => "default".into(),
        _ => format!("{{{}}}", ranges(&bin.ranges, width, ", ")),
    };
    let (word, guard) = (keyword(bin.kind), iff(bin.guard));
    format!("{wildcard}{word} b{number}{form} = {values}{guard}")
}

fn transition_bin(number: usize, bin: &TransitionBin, width: u8) -> String {
    let sequence = |steps: &Vec<Step>| {
        let steps: Vec<String> = steps.iter().map(|s| step(s, width)).collect();
        format!("({})", steps.join(" => "))
    };
    let all: Vec<String> = bin.sequences.iter().map(sequence).collect();
    let (word, guard) = (keyword(bin.kind), iff(bin.guard));
    format!("{word} t{number} = {}{guard}", all.join(", "))
}

/// The table's lines: points with their bins, then crosses with theirs.
fn declared(table: &Table) -> Vec<String> {
    let mut lines = Vec::new();
    for (number, point) in table.points.iter().enumerate() {
        let width = point.width;
        let bits = if width == 1 { "bit" } else { "bits" };
        let signed = if point.signed { " signed" } else { "" };
        let mut head = format!("p{number}: {width} {bits}{signed}{}", iff(point.guard));
        head += &options(point.weight, point.at_least);
        if point.auto_max != 64 {
            head += &format!(", auto_bin_max {}", point.auto_max);
        }
        let own = |point: u8| point as usize == number;
        let values = table.value_bins.iter().enumerate();
        let values = values.filter(|(_, bin)| own(bin.point));
        let transitions = table.transition_bins.iter().enumerate();
        let transitions = transitions.filter(|(_, bin)| own(bin.point));
        let bins: Vec<String> = values
            .map(|(b, bin)| value_bin(b, bin, width))
            .chain(transitions.map(|(t, bin)| transition_bin(t, bin, width)))
            .collect();
        lines.extend(with_bins(head, &bins));
    }
    let mut c = 0;
    for (number, cross) in table.crosses.iter().enumerate() {
        let points: Vec<String> = cross.points.iter().map(|p| format!("p{p}")).collect();
        let mut head = format!("x{number}: cross {}{}", points.join(", "), iff(cross.guard));
        head += &options(cross.weight, cross.at_least);
        let mut bins = Vec::new();
        for bin in &cross.bins {
            let (word, guard) = (keyword(bin.kind), iff(bin.guard));
            bins.push(format!(
                "{word} c{c} = {}{guard}",
                select(&bin.select, cross)
            ));
            c += 1;
        }
        lines.extend(with_bins(head, &bins));
    }
    lines
}

// ---- what happened, in words

fn list<T: ToString>(of: impl IntoIterator<Item = T>) -> String {
    let all: Vec<String> = of.into_iter().map(|each| each.to_string()).collect();
    match all.is_empty() {
        true => "none".into(),
        false => all.join(", "),
    }
}

fn text(of: impl ToString) -> String {
    of.to_string()
}

fn figure(of: Option<impl ToString>) -> String {
    of.map_or("none".into(), |figure| figure.to_string())
}

fn hex(words: &[u32]) -> String {
    list(words.iter().map(|word| format!("{word:X}")))
}

fn said(reading: Reading) -> String {
    match reading {
        Value(value) => value.to_string(),
        Unknown => "unknown".into(),
    }
}

/// The places that a sample raises, and its report.
fn raised(both: &mut Both, guards: u64, unknown: u64, of: &[Reading]) -> (Vec<usize>, Vec<u32>) {
    let before = both.counts();
    let report = both.sample_guarded(guards, unknown, of);
    let after = both.counts();
    let places = 0..before.len();
    let grown = places.filter(|&place| after[place] > before[place]);
    (grown.collect(), report)
}

/// The values of a single point, in this type, that raise the place by themselves.
fn holds(table: &Table, place: usize, values: std::ops::RangeInclusive<i64>) -> Vec<i64> {
    let alone = |&value: &i64| {
        let readings = vec![Value(value); table.points.len()];
        let mut both = Both::new(table);
        raised(&mut both, u64::MAX, 0, &readings).0.contains(&place)
    };
    values.filter(alone).collect()
}

/// The call on register machine and library.
fn on_words(bytes: &[u8], words: &mut [u32], call: &Call) -> Outcome {
    #[cfg(feature = "library")]
    let by_library = {
        let mut own = words.to_vec();
        (calls::on_library(bytes, &mut own, call), own)
    };
    let outcome = calls::on_register(bytes, words, call);
    #[cfg(feature = "library")]
    assert_eq!(by_library, (outcome.clone(), words.to_vec()));
    outcome
}

// ---- one reading

#[test]
fn reading() {
    let bins = [-10, -128, 127].map(|v| ValueBin::cover(0, &[value(v)]));
    let table = Table::new(vec![Point::signed(8)]).values(bins.to_vec());
    let mut example = Example::of(
        "reading",
        &table,
        [
            "value bits, unknown bits (hex)",
            "places raised",
            "unknown count",
        ],
    );
    for (bits, unknown) in [(0xF6, 0), (0x80, 0), (0x7F, 0), (0xF6, 1), (0, 0x80)] {
        let mut both = Both::new(&table);
        both.sample_words(vec![0, 0, 0, 0, bits, unknown]);
        let counts = both.counts();
        let raised = (0..3).filter(|&place| counts[place] == 1);
        let words = format!("{bits:02X}, {unknown:02X}");
        example.row([words, list(raised), text(both.unknown(0))]);
    }
    example.across();
}

#[test]
fn guards() {
    let bins = vec![
        ValueBin::cover(0, &[Range::Span(0, 7)]).guard(1),
        ValueBin::cover(0, &[Range::Span(0, 15)]),
    ];
    let table = Table::new(vec![Point::new(4).guard(0)]).values(bins);
    let mut example = Example::of(
        "guards",
        &table,
        ["g0, g1, reading", "places raised", "unknown count"],
    );
    for (g0, g1, reading) in [
        ('1', '1', Value(5)),
        ('1', '0', Value(5)),
        ('1', 'x', Value(5)),
        ('0', '1', Value(5)),
        ('x', '1', Value(5)),
        ('1', '1', Unknown),
        ('0', '1', Unknown),
    ] {
        let bit = |guard: char, is: char| u64::from(guard == is);
        let ones = bit(g0, '1') | bit(g1, '1') << 1;
        let unknown = bit(g0, 'x') | bit(g1, 'x') << 1;
        let mut both = Both::new(&table);
        // What the bit of an unknown guard says makes no difference.
        let (places, _) = raised(&mut both, ones | unknown, unknown, &[reading]);
        let mut again = Both::new(&table);
        assert_eq!(raised(&mut again, ones, unknown, &[reading]).0, places);
        let sample = list([text(g0), text(g1), said(reading)]);
        example.row([sample, list(places), text(both.unknown(0))]);
    }
    example.across();
}

// ---- value bins

#[test]
fn value_bins() {
    let listed = [value(7), Range::Span(1, 3), value(2)];
    let repeats = [Range::Span(1, 10), value(1), value(4), value(7)];
    let dealt = |ranges: &[Range], number| ValueBin::cover(0, ranges).form(Form::Number(number));
    let pattern = |bits, mask| ValueBin::cover(0, &[Range::Pattern(bits, mask)]);
    let bins = vec![
        ValueBin::cover(0, &listed),
        ValueBin::cover(0, &listed).form(Form::PerValue),
        dealt(&[Range::Span(1, 10)], 3),
        dealt(&repeats, 4),
        dealt(&[Range::Span(5, 6)], 3),
        pattern(0b1100, 0b1100),
        pattern(0b0001, 0b0101),
    ];
    let table = Table::new(vec![Point::new(4)]).values(bins);
    let mut example = Example::of("value_bins", &table, ["bin", "places", "values of each"]);
    let mut first = 0;
    for (bin, places) in [1, 4, 3, 4, 3, 1, 1].into_iter().enumerate() {
        let places = first..first + places;
        let held = |place| list(holds(&table, place, 0..=15));
        let held: Vec<String> = places.clone().map(held).collect();
        first = places.end;
        example.row([format!("b{bin}"), list(places), held.join("; ")]);
    }
    assert_eq!(first, Both::new(&table).counts().len());
}

#[test]
fn auto_bins() {
    let points = vec![
        Point::new(4).auto_max(3),
        Point::new(2),
        Point::signed(3).auto_max(2),
        Point::new(2),
    ];
    let illegal = ValueBin::illegal(1, &[value(3)]);
    let ignored = TransitionBin::ignore(2, &[sequence(&[0, 1])]);
    let cover = TransitionBin::cover(3, &[sequence(&[0, 1])]);
    let table = Table::new(points)
        .values(vec![illegal])
        .transitions(vec![ignored, cover]);
    let mut example = Example::of(
        "auto_bins",
        &table,
        ["point", "places", "values that raise each"],
    );
    let labels = Both::new(&table).rules.as_ref().ok().unwrap().labels();
    let types = [0..=15, 0..=3, -4..=3, 0..=3];
    for (point, values) in types.into_iter().enumerate() {
        let numbers = 0..labels.len();
        let places: Vec<usize> = numbers.filter(|&n| labels[n].item == point).collect();
        // The point reads the value, the others are unknown.
        let alone = |place: usize, value: i64| {
            let mut readings = [Unknown; 4];
            readings[point] = Value(value);
            let (places, _) = raised(&mut Both::new(&table), 0, 0, &readings);
            places.contains(&place)
        };
        let held = |&place: &usize| {
            let values = values.clone().filter(|&value| alone(place, value));
            format!("{}: {}", labels[place].what, list(values))
        };
        let held: Vec<String> = places.iter().map(held).collect();
        example.row([format!("p{point}"), list(places), held.join("; ")]);
    }
}

#[test]
fn default_bin() {
    let bins = vec![
        ValueBin::cover(0, &[value(0)]).guard(0),
        ValueBin::ignore(0, &[value(1)]),
        ValueBin::illegal(0, &[value(2)]),
        ValueBin::default(0),
    ];
    let table = Table::new(vec![Point::new(3)]).values(bins);
    let mut example = Example::of("default_bin", &table, ["reading, g0", "places raised"]);
    for (reading, g0) in [
        (Value(0), 1),
        (Value(0), 0),
        (Value(1), 1),
        (Value(2), 1),
        (Value(3), 1),
        (Value(7), 0),
        (Unknown, 1),
    ] {
        let (places, _) = raised(&mut Both::new(&table), g0, 0, &[reading]);
        example.row([list([said(reading), text(g0)]), list(places)]);
    }
    example.across();
}

#[test]
fn ignore_and_illegal() {
    let bins = vec![
        ValueBin::cover(0, &[Range::Span(1, 10)]).form(Form::Number(3)),
        ValueBin::ignore(0, &[Range::Span(1, 3), value(5)]),
        ValueBin::illegal(0, &[Range::Span(5, 6)]).guard(0),
    ];
    let table = Table::new(vec![Point::new(4)]).values(bins);
    let mut example = Example::of(
        "ignore_and_illegal",
        &table,
        ["reading, g0", "places raised", "report"],
    );
    for (value, g0) in [(1, 1), (4, 1), (5, 1), (6, 1), (6, 0), (7, 1)] {
        let (places, report) = raised(&mut Both::new(&table), g0, 0, &[Value(value)]);
        example.row([list([value, g0 as i64]), list(places), list(report)]);
    }
    example.across();
}

// ---- sequences

fn transitions(bins: Vec<TransitionBin>) -> Table {
    Table::new(vec![Point::new(8)]).transitions(bins)
}

#[test]
fn sequences() {
    let blocks = vec![
        Step::new(&[value(1)]).repeat(1, 2),
        Step::new(&[Range::Span(1, 2)]).repeat(2, 2),
        Step::new(&[value(3), value(5)]),
    ];
    let table = transitions(vec![
        TransitionBin::cover(0, &[sequence(&[10, 20, 30])]),
        TransitionBin::cover(0, &[blocks]),
    ]);
    let mut example = Example::of(
        "sequences",
        &table,
        ["readings", "count of t0", "count of t1"],
    );
    for readings in [
        vec![10, 20, 10, 20, 30],
        vec![10, 20, 20, 30],
        vec![1, 1, 2, 3],
        vec![1, 1, 1, 2, 5],
        vec![1, 2, 3],
    ] {
        let mut both = Both::new(&table);
        both.values(&readings);
        example.row([list(readings), text(both.count(0)), text(both.count(1))]);
    }
    example.across();
}

#[test]
fn lengths() {
    let threes = || vec![Step::new(&[value(3)]).repeat(2, 3)];
    let bins = vec![
        TransitionBin::cover(0, &[threes()]),
        TransitionBin::cover(1, &[threes()]),
        TransitionBin::ignore(1, &[sequence(&[3, 3])]),
        TransitionBin::cover(2, &[threes()]),
        TransitionBin::illegal(2, &[sequence(&[3, 3])]).guard(0),
    ];
    let table = Table::new(vec![Point::new(2); 3]).transitions(bins);
    let mut example = Example::of(
        "lengths",
        &table,
        ["g0", "places raised", "counts after it"],
    );
    let mut both = Both::new(&table);
    for g0 in [1, 1, 0, 1] {
        let (places, _) = raised(&mut both, g0, 0, &[Value(3); 3]);
        example.row([text(g0), list(places), list(both.counts())]);
    }
    example.across();
}

/// What is done to a register between two answers.
#[derive(Clone, Copy)]
enum Event {
    Reads(Reading),
    /// With guard 0 false, unknown; with guard 1 false.
    Off(i64),
    Doubtful(i64),
    Unguarded(i64),
    Reset,
    Start,
    Stop,
}

impl Event {
    fn does(self, both: &mut Both) -> String {
        match self {
            Event::Reads(reading) => {
                both.sample(&[reading]);
                said(reading)
            }
            Event::Off(value) => {
                both.sample_guarded(0b10, 0, &[Value(value)]);
                format!("{value} (g0 false)")
            }
            Event::Doubtful(value) => {
                both.sample_guarded(0b11, 0b01, &[Value(value)]);
                format!("{value} (g0 unknown)")
            }
            Event::Unguarded(value) => {
                both.sample_guarded(0b01, 0, &[Value(value)]);
                format!("{value} (g1 false)")
            }
            Event::Reset => {
                assert_eq!(both.call(&Call::Reset).number, 0);
                "reset".into()
            }
            Event::Start => {
                assert_eq!(both.call(&Call::Start).number, 0);
                "start".into()
            }
            Event::Stop => {
                assert_eq!(both.call(&Call::Stop).number, 0);
                "stop".into()
            }
        }
    }
}

#[test]
fn history() {
    let bin = TransitionBin::cover(0, &[sequence(&[10, 20])]).guard(1);
    let table = Table::new(vec![Point::new(8).guard(0)]).transitions(vec![bin]);
    let mut example = Example::of("history", &table, ["readings and calls", "count of t0"]);
    let (ten, twenty) = (Event::Reads(Value(10)), Event::Reads(Value(20)));
    for events in [
        vec![ten, twenty],
        vec![ten, Event::Reads(Unknown), twenty],
        vec![ten, Event::Off(99), twenty],
        vec![ten, Event::Doubtful(99), twenty],
        vec![Event::Unguarded(10), twenty],
        vec![ten, Event::Unguarded(20)],
        vec![ten, Event::Stop, Event::Start, twenty],
        vec![ten, Event::Start, twenty],
        vec![ten, Event::Reset, twenty],
    ] {
        let mut both = Both::new(&table);
        let done: Vec<String> = events.iter().map(|event| event.does(&mut both)).collect();
        example.row([list(done), text(both.count(0))]);
    }
}

/// A step that repeats, and one after it: three run words.
fn three_run_words() -> Table {
    let steps = vec![Step::new(&[value(3)]).repeat(1, 2), Step::new(&[value(4)])];
    transitions(vec![TransitionBin::cover(0, &[steps])])
}

#[test]
fn run_words() {
    let table = three_run_words();
    let mut example = Example::of(
        "run_words",
        &table,
        ["reading", "run words after it", "places raised"],
    );
    let mut both = Both::new(&table);
    for reading in [Value(3), Value(3), Value(3), Value(4), Value(3), Unknown] {
        let (places, _) = raised(&mut both, 0, 0, &[reading]);
        let runs = hex(&both.register[4..7]);
        example.row([said(reading), runs, list(places)]);
    }
    example.across();
}

#[test]
fn foreign_run_words() {
    let table = three_run_words();
    let heads = ["reading", "run words after it", "count of t0 after it"];
    let mut example = Example::of("foreign_run_words", &table, heads);
    let foreign = [0x8000_0000, 0x4000_0001, 0x30];
    for (value, unknown) in [(3, 0), (4, 0), (9, 0), (4, 1)] {
        let mut words = [&[1, 7, 5, 0], foreign.as_slice()].concat();
        let call = Call::Sample {
            words: vec![0, 0, 0, 0, value, unknown],
            report: 0,
        };
        assert_eq!(on_words(&table.bytes(), &mut words, &call).number, 0);
        let reading = match unknown {
            0 => text(value),
            _ => "unknown".into(),
        };
        example.row([reading, hex(&words[4..]), text(words[2])]);
    }
    example.across();
}

// ---- crosses

#[test]
fn crosses() {
    let bins = vec![
        ValueBin::cover(0, &[Range::Span(0, 3)]),
        ValueBin::cover(0, &[Range::Span(4, 7)]),
        ValueBin::cover(1, &[value(0)]),
        ValueBin::cover(1, &[Range::Span(1, 7)]),
    ];
    let chosen = Select::bin(0, 0).and(Select::meets(1, 0, 0).negated());
    let table = Table::new(vec![Point::new(3), Point::new(3)])
        .values(bins)
        .cross(Cross::new(&[0, 1]).bin(Kind::Cover, chosen));
    let mut example = Example::of(
        "crosses",
        &table,
        ["readings", "places raised", "figure of x0 after it"],
    );
    let mut both = Both::new(&table);
    for readings in [[0, 0], [0, 1], [3, 7], [4, 0], [7, 7]] {
        let (places, _) = raised(&mut both, 0, 0, &readings.map(Value));
        example.row([list(readings), list(places), figure(both.figure(2))]);
    }
    example.across();
}

#[test]
fn parts() {
    let bins = vec![
        ValueBin::cover(0, &[Range::Span(0, 2)]),
        ValueBin::cover(0, &[Range::Span(1, 3)]),
        ValueBin::cover(1, &[value(0)]).guard(0),
    ];
    let table = Table::new(vec![Point::new(2), Point::new(1)])
        .values(bins)
        .cross(Cross::new(&[0, 1]).guard(1));
    let mut example = Example::of("parts", &table, ["readings, g0, g1", "places raised"]);
    for (p, q, guards) in [(0, 0, 3), (1, 0, 3), (1, 0, 2), (1, 0, 1), (1, 1, 3)] {
        let (places, _) = raised(&mut Both::new(&table), guards, 0, &[Value(p), Value(q)]);
        let sample = list([p, q, guards as i64 & 1, guards as i64 >> 1]);
        example.row([sample, list(places)]);
    }
    example.across();
}

#[test]
fn selection() {
    let table = |chosen: Select| {
        let bins = vec![
            ValueBin::cover(0, &[Range::Span(0, 2)]).form(Form::PerValue),
            ValueBin::cover(0, &[Range::Span(3, 5)]),
            ValueBin::ignore(0, &[value(5)]),
            ValueBin::cover(1, &[value(0)]),
            ValueBin::cover(1, &[value(1)]),
        ];
        Table::new(vec![Point::new(3), Point::new(1)])
            .values(bins)
            .cross(Cross::new(&[0, 1]).bin(Kind::Ignore, chosen))
    };
    let mut bare = table(Select::Whole(0));
    bare.crosses[0].bins.clear();
    let mut example = Example::of("selection", &bare, ["expression", "tokens", "products"]);
    let named = || Select::bin(0, 0);
    for chosen in [
        Select::Whole(1),
        named(),
        named().negated(),
        Select::meets(0, 2, 3),
        Select::meets(0, 5, 7),
        named().and(Select::bin(1, 4)),
        Select::bin(0, 1).or(Select::meets(1, 0, 0)),
        Select::meets(0, 1, 1).or(Select::bin(0, 1).and(Select::bin(1, 3).negated())),
    ] {
        let said = select(&chosen, &bare.crosses[0]).replace("||", "\\|\\|");
        let tokens = chosen.tokens();
        // A product that is selected counts nothing at its own place.
        let table = table(chosen);
        let selected = (0..8).filter(|product| {
            let readings = [Value(product / 2), Value(product % 2)];
            let (places, _) = raised(&mut Both::new(&table), 0, 0, &readings);
            !places.contains(&(6 + *product as usize))
        });
        example.row([format!("`{said}`"), text(tokens), list(selected)]);
    }
}

#[test]
fn cross_bins() {
    let bit = |point, v| ValueBin::cover(point, &[value(v)]);
    let mut cross = Cross::new(&[0, 1])
        .guard(0)
        .bin(Kind::Cover, Select::bin(0, 0))
        .bin(Kind::Ignore, Select::bin(0, 0).and(Select::bin(1, 2)))
        .bin(Kind::Illegal, Select::bin(0, 1).and(Select::bin(1, 3)));
    cross.bins[2].guard = Some(1);
    let table = Table::new(vec![Point::new(1), Point::new(1)])
        .values(vec![bit(0, 0), bit(0, 1), bit(1, 0), bit(1, 1)])
        .cross(cross);
    let mut example = Example::of(
        "cross_bins",
        &table,
        [
            "readings, g0, g1",
            "places above 3 raised",
            "report",
            "figure of x0",
        ],
    );
    for (p, q, guards) in [
        (0, 0, 3),
        (0, 1, 3),
        (1, 0, 3),
        (1, 1, 3),
        (1, 1, 1),
        (0, 1, 2),
    ] {
        let mut both = Both::new(&table);
        let (places, report) = raised(&mut both, guards, 0, &[Value(p), Value(q)]);
        let crossed = places.into_iter().filter(|&place| place > 3);
        let sample = list([p, q, guards as i64 & 1, guards as i64 >> 1]);
        let figure = figure(both.figure(2));
        example.row([sample, list(crossed), list(report), figure]);
    }
    example.across();
}

// ---- places, totals, figures

#[test]
fn places_and_totals() {
    let bins = vec![
        ValueBin::cover(0, &[Range::Span(0, 2)]).form(Form::PerValue),
        ValueBin::ignore(0, &[value(2)]),
        ValueBin::illegal(0, &[value(6)]),
        ValueBin::default(0),
    ];
    let transitions = vec![
        TransitionBin::cover(0, &[sequence(&[6, 6])]),
        TransitionBin::illegal(0, &[sequence(&[1, 0])]),
        TransitionBin::ignore(1, &[sequence(&[0, 0])]),
    ];
    let both_one = || Select::meets(0, 1, 1).and(Select::meets(1, 1, 1));
    let cross = Cross::new(&[0, 1])
        .bin(Kind::Cover, Select::meets(0, 0, 0))
        .bin(Kind::Cover, both_one())
        .bin(Kind::Illegal, both_one());
    let table = Table::new(vec![Point::new(3), Point::new(1)])
        .values(bins)
        .transitions(transitions)
        .cross(cross);
    let mut example = Example::of(
        "places_and_totals",
        &table,
        ["places", "item", "what", "total"],
    );
    let labels = Both::new(&table).rules.as_ref().ok().unwrap().labels();
    let mut first = 0;
    while first < labels.len() {
        let label = &labels[first];
        let alike = labels[first..].iter().take_while(|other| *other == label);
        let places = first..first + alike.count();
        first = places.end;
        let total = if label.at_least.is_some() {
            "in"
        } else {
            "out"
        };
        let item = ["p0", "p1", "x0"][label.item];
        example.row([list(places), text(item), text(label.what), text(total)]);
    }
    // The totals are the figures' own: after one covered bin they are 1 of 3, 1 of 2, 1 of 2.
    let mut both = Both::new(&table);
    both.sample(&[Value(0), Value(0)]);
    let figures: Vec<Option<f64>> = (0..3).map(|item| both.figure(item)).collect();
    assert_eq!(figures, [Some(100.0 / 3.0), Some(50.0), Some(50.0)]);
    let words = common::measure(&table.bytes()).words as usize;
    assert_eq!(words, 2 + labels.len() + 2 + 6);
}

#[test]
fn item_figures() {
    let bins = [0, 1, 2].map(|v| ValueBin::cover(0, &[value(v)]));
    let table = Table::new(vec![Point::new(2).at_least(2)]).values(bins.to_vec());
    let mut example = Example::of(
        "item_figures",
        &table,
        ["readings", "counts", "figure of p0"],
    );
    for readings in [vec![0, 1, 2], vec![0, 0, 1], vec![0, 0, 1, 1, 3]] {
        let mut both = Both::new(&table);
        both.values(&readings);
        let counts = list(both.counts());
        example.row([list(readings), counts, figure(both.figure(0))]);
    }
    example.across();
}

#[test]
fn group_figures() {
    let of = |weights: [u16; 3]| {
        let points = weights.map(|weight| Point::new(2).weight(weight)).to_vec();
        let bin = |point, v| ValueBin::cover(point, &[value(v)]);
        let bins = vec![
            bin(0, 0),
            bin(0, 1),
            bin(1, 0),
            bin(1, 1),
            bin(1, 2),
            bin(2, 0),
            ValueBin::ignore(2, &[value(0)]),
        ];
        Table::new(points).values(bins)
    };
    let mut example = Example::of(
        "group_figures",
        &of([1; 3]),
        ["weights of p0, p1, p2", "group figure"],
    );
    for weights in [[1, 2, 1], [1, 1, 1], [0, 1, 9], [0, 0, 9]] {
        let mut both = Both::new(&of(weights));
        both.sample(&[Value(0); 3]);
        assert_eq!(both.figure(0), Some(50.0));
        assert_eq!(both.figure(1), Some(100.0 / 3.0));
        assert_eq!(both.figure(2), None);
        example.row([list(weights), figure(both.group())]);
    }
    example.across();
}

// ---- calls

#[test]
fn register_calls() {
    let table = Table::new(vec![Point::new(1)])
        .values(vec![ValueBin::cover(0, &[value(1)])])
        .transitions(vec![TransitionBin::cover(0, &[sequence(&[0, 1])])]);
    let mut example = Example::of(
        "register_calls",
        &table,
        ["call", "number", "words after it"],
    );
    let mut both = Both::new(&table);
    let sample = |value: u32, unknown: u32| Call::Sample {
        words: vec![0, 0, 0, 0, value, unknown],
        report: 0,
    };
    for (what, call) in [
        ("reset", Call::Reset),
        ("sample 0", sample(0, 0)),
        ("sample 1", sample(1, 0)),
        ("sample unknown", sample(0, 1)),
        ("sample 0", sample(0, 0)),
        ("start", Call::Start),
        ("stop", Call::Stop),
        ("sample 1", sample(1, 0)),
        ("start", Call::Start),
        ("sample 1", sample(1, 0)),
    ] {
        let number = both.call(&call).number;
        both.compare_words();
        example.row([text(what), text(number), list(&both.register[..7])]);
    }
}

#[test]
fn reports() {
    let table = Table::new(vec![Point::new(2)])
        .values(vec![ValueBin::illegal(0, &[value(3)])])
        .transitions(vec![TransitionBin::illegal(0, &[sequence(&[3, 3])])]);
    let mut example = Example::of("reports", &table, ["reading", "report after it"]);
    let mut both = Both::new(&table);
    for value in [1, 3, 3] {
        let words = both.words(&[Value(value)]);
        let outcome = both.call(&Call::Sample { words, report: 3 });
        assert_eq!(outcome.number, 0);
        let words = outcome.report.iter().map(|&word| match word {
            UNTOUCHED => "as it was".into(),
            word => word.to_string(),
        });
        example.row([text(value), list(words)]);
    }
    example.across();
}

#[test]
fn refused_tables() {
    let table = || {
        let bins = vec![
            ValueBin::cover(0, &[value(1)]),
            ValueBin::default(0),
            ValueBin::ignore(1, &[value(0)]),
        ];
        let cross = Cross::new(&[0, 1]).bin(Kind::Cover, Select::bin(0, 0).negated());
        Table::new(vec![Point::new(4), Point::new(4)])
            .values(bins)
            .transitions(vec![TransitionBin::cover(1, &[sequence(&[1, 2])])])
            .cross(cross)
    };
    let mut example = Example::of("refused_tables", &table(), ["number", "byte", "change"]);
    let mut refused: Vec<(u32, usize, String)> = Vec::new();
    let mut note = |what: &str, bytes: &[u8]| {
        let measure = common::measure(bytes);
        refused.push((measure.number, measure.place, what.into()));
    };
    let set = |changes: &[(usize, usize, &str, i64)]| {
        let mut written = table().written();
        for &(section, record, name, value) in changes {
            written.set(section, record, name, value);
        }
        written.bytes
    };
    note("as it stands", &table().bytes());
    note("65,537 bytes of any kind", &[7; 65_537]);
    note("no bytes at all", &[]);
    note("a count of 16 points, and nothing after it", &[16, 0]);
    note("a count of 17 points, and nothing after it", &[17, 0]);
    note("a width of 33", &set(&[(POINTS, 0, "width", 33)]));
    note("a bin of point 2", &set(&[(VALUE_BINS, 0, "point", 2)]));
    note("b2 with a guard", &set(&[(VALUE_BINS, 2, "guard", 0)]));
    note("b0 from 1 to 0", &set(&[(VALUE_RANGES, 0, "b", 0)]));
    note("b0 from 16 to 1", &set(&[(VALUE_RANGES, 0, "a", 16)]));
    note("b0 with no ranges", &set(&[(VALUE_BINS, 0, "ranges", 0)]));
    note("b0 with number 1", &set(&[(VALUE_BINS, 0, "number", 1)]));
    note(
        "x0 with a third point that it does not count",
        &set(&[(CROSSES, 0, "point 2", 1)]),
    );
    note("t0 as 1[*1:33] => 2", &set(&[(STEPS, 0, "most", 33)]));
    let mut second = table();
    second.value_bins.push(ValueBin::default(0));
    let mut written = second.written();
    written.set(VALUE_BINS, 3, "guard", 64);
    note("a second default bin at p0, with guard 64", &written.bytes);
    let not_twice = (TOKENS, 1, "op", 3);
    note(
        "`! !` with no more tokens, and hi 1 in the second",
        &set(&[not_twice, (TOKENS, 1, "hi", 1)]),
    );
    note(
        "b0 owns two ranges, while section 3 still has two in all",
        &set(&[(VALUE_BINS, 0, "ranges", 2)]),
    );
    note("a second default bin at p0", &second.bytes());
    note("t0 as 1[*1:32] => 2", &set(&[(STEPS, 0, "most", 32)]));
    note("x0 of p0 and p0", &set(&[(CROSSES, 0, "point 1", 0)]));
    note("c0 names b2", &set(&[(TOKENS, 1, "bin", 2)]));
    note("c0 names b9", &set(&[(TOKENS, 1, "bin", 9)]));
    note("`! !` with no more tokens", &set(&[not_twice]));
    note("a byte more", &[table().bytes(), vec![0]].concat());
    let per_value = |last| {
        let bin = ValueBin::cover(0, &[Range::Span(0, last)]).form(Form::PerValue);
        Table::new(vec![Point::new(9)]).values(vec![bin]).bytes()
    };
    assert_eq!(common::measure(&per_value(255)).number, 0);
    let over = per_value(256);
    note(
        "another table, of one bin for each of 257 values, and a byte more",
        &[over.clone(), vec![0]].concat(),
    );
    note("another table, of one bin for each of 257 values", &over);
    for number in [0, 1, 2, 3, 15, 16, 17, 4, 5, 6] {
        let own = refused.iter().filter(|(n, _, _)| *n == number);
        for (_, place, what) in own {
            let place = match number {
                0 | 1 => "none".into(),
                _ => place.to_string(),
            };
            example.row([text(number), place, what.clone()]);
        }
    }
}

#[test]
fn order_of_refusals() {
    let table = Table::new(vec![Point::new(2)]).values(vec![ValueBin::illegal(0, &[value(3)])]);
    let mut example = Example::of("order_of_refusals", &table, ["call", "number"]);
    let bytes = table.bytes();
    assert_eq!(common::measure(&bytes).words, 8);
    let full = [0, u32::MAX, 0, 0, 0, 0, 0, 0];
    let running = [1, u32::MAX, 0, 0, 0, 0, 0, 0];
    let fresh = [1, 0, 0, 0, 0, 0, 0, 0];
    let fine = [0, 0, 0, 0, 3, 0];
    let wide = [0, 0, 0, 0, 4, 0];
    let sample = |words: &[u32], report| Call::Sample {
        words: words.to_vec(),
        report,
    };
    let mut row = |what: &str, words: &[u32], call: Call| {
        let mut own = words.to_vec();
        let outcome = on_words(&bytes, &mut own, &call);
        if outcome.number != 0 {
            assert_eq!(own, words);
            assert!(outcome.report.iter().all(|&word| word == UNTOUCHED));
            let empty = [Answer::Nothing, Answer::Count(0), Answer::Item(None)];
            assert!(empty.contains(&outcome.answer));
        }
        example.row([text(what), text(outcome.number)]);
    };
    let seven = [9; 7];
    row(
        "a sample of 5 words with 7 words of register, all 9",
        &seven,
        sample(&wide[..5], 0),
    );
    row(
        "the same with 8 words, all 9",
        &[9; 8],
        sample(&wide[..5], 0),
    );
    row(
        "a sample of 5 words with a register that is stopped and full",
        &full,
        sample(&wide[..5], 0),
    );
    row("6 words, value 4, no report", &full, sample(&wide, 0));
    row("value 3, no report", &full, sample(&fine, 0));
    row("value 3, a report of one word", &full, sample(&fine, 1));
    row(
        "the same with a register that runs and is full",
        &running,
        sample(&fine, 1),
    );
    row(
        "the same with a register just reset",
        &fresh,
        sample(&fine, 1),
    );
    row("start, 8 words, all 9", &[9; 8], Call::Start);
    row("reset, 8 words, all 9", &[9; 8], Call::Reset);
    row(
        "the count of place 5, 8 words, all 9",
        &[9; 8],
        Call::PlaceCount(5),
    );
    row("the count of place 5", &fresh, Call::PlaceCount(5));
    row("the count of place 4", &fresh, Call::PlaceCount(4));
    row("the figure of item 1", &fresh, Call::ItemFigure(1));
}
