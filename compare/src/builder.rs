//! A table builder with named fields, which writes the table's bytes.
//!
//! The builder checks nothing: it also writes tables that a reader refuses.
//! [`Table::written`] keeps the place of each field, so that a test can spoil
//! one by name.

use crate::table::{
    CROSSES, CROSS_BINS, POINTS, SEQUENCES, STEPS, STEP_RANGES, TOKENS, TRANSITION_BINS,
    VALUE_BINS, VALUE_RANGES,
};

pub use crate::table::{Form, Kind, Range};

#[derive(Clone, Debug, Default)]
pub struct Table {
    pub points: Vec<Point>,
    pub value_bins: Vec<ValueBin>,
    pub transition_bins: Vec<TransitionBin>,
    pub crosses: Vec<Cross>,
}

#[derive(Clone, Debug)]
pub struct Point {
    pub width: u8,
    pub signed: bool,
    pub guard: Option<u8>,
    pub weight: u16,
    pub at_least: u32,
    pub auto_max: u16,
}

#[derive(Clone, Debug)]
pub struct ValueBin {
    pub point: u8,
    pub kind: Kind,
    pub form: Form,
    pub guard: Option<u8>,
    pub ranges: Vec<Range>,
}

#[derive(Clone, Debug)]
pub struct TransitionBin {
    pub point: u8,
    pub kind: Kind,
    pub guard: Option<u8>,
    pub sequences: Vec<Vec<Step>>,
}

#[derive(Clone, Debug)]
pub struct Step {
    pub ranges: Vec<Range>,
    pub least: u8,
    pub most: u8,
}

#[derive(Clone, Debug)]
pub struct Cross {
    pub points: Vec<u8>,
    pub guard: Option<u8>,
    pub weight: u16,
    pub at_least: u32,
    pub bins: Vec<CrossBin>,
}

#[derive(Clone, Debug)]
pub struct CrossBin {
    pub kind: Kind,
    pub guard: Option<u8>,
    pub select: Select,
}

/// A select expression. `bin` counts in the table's value bins.
#[derive(Clone, Debug)]
pub enum Select {
    Whole(u8),
    Bin { position: u8, bin: u16 },
    Meets { position: u8, lo: i64, hi: i64 },
    Not(Box<Select>),
    And(Box<Select>, Box<Select>),
    Or(Box<Select>, Box<Select>),
}

impl Point {
    /// Unsigned, no guard, weight 1, at-least 1, at most 64 auto bins.
    pub fn new(width: u8) -> Point {
        Point {
            width,
            signed: false,
            guard: None,
            weight: 1,
            at_least: 1,
            auto_max: 64,
        }
    }

    pub fn signed(width: u8) -> Point {
        Point {
            signed: true,
            ..Point::new(width)
        }
    }

    pub fn guard(self, guard: u8) -> Point {
        Point {
            guard: Some(guard),
            ..self
        }
    }

    pub fn weight(self, weight: u16) -> Point {
        Point { weight, ..self }
    }

    pub fn at_least(self, at_least: u32) -> Point {
        Point { at_least, ..self }
    }

    pub fn auto_max(self, auto_max: u16) -> Point {
        Point { auto_max, ..self }
    }
}

impl ValueBin {
    pub fn new(point: u8, kind: Kind, ranges: &[Range]) -> ValueBin {
        ValueBin {
            point,
            kind,
            form: Form::One,
            guard: None,
            ranges: ranges.to_vec(),
        }
    }

    pub fn cover(point: u8, ranges: &[Range]) -> ValueBin {
        ValueBin::new(point, Kind::Cover, ranges)
    }

    pub fn ignore(point: u8, ranges: &[Range]) -> ValueBin {
        ValueBin::new(point, Kind::Ignore, ranges)
    }

    pub fn illegal(point: u8, ranges: &[Range]) -> ValueBin {
        ValueBin::new(point, Kind::Illegal, ranges)
    }

    pub fn default(point: u8) -> ValueBin {
        ValueBin::new(point, Kind::Default, &[])
    }

    pub fn form(self, form: Form) -> ValueBin {
        ValueBin { form, ..self }
    }

    pub fn guard(self, guard: u8) -> ValueBin {
        ValueBin {
            guard: Some(guard),
            ..self
        }
    }
}

impl TransitionBin {
    pub fn new(point: u8, kind: Kind, sequences: &[Vec<Step>]) -> TransitionBin {
        TransitionBin {
            point,
            kind,
            guard: None,
            sequences: sequences.to_vec(),
        }
    }

    pub fn cover(point: u8, sequences: &[Vec<Step>]) -> TransitionBin {
        TransitionBin::new(point, Kind::Cover, sequences)
    }

    pub fn ignore(point: u8, sequences: &[Vec<Step>]) -> TransitionBin {
        TransitionBin::new(point, Kind::Ignore, sequences)
    }

    pub fn illegal(point: u8, sequences: &[Vec<Step>]) -> TransitionBin {
        TransitionBin::new(point, Kind::Illegal, sequences)
    }

    pub fn guard(self, guard: u8) -> TransitionBin {
        TransitionBin {
            guard: Some(guard),
            ..self
        }
    }
}

impl Step {
    /// One reading in the ranges.
    pub fn new(ranges: &[Range]) -> Step {
        Step {
            ranges: ranges.to_vec(),
            least: 1,
            most: 1,
        }
    }

    pub fn repeat(self, least: u8, most: u8) -> Step {
        Step {
            least,
            most,
            ..self
        }
    }
}

/// The sequence of single values, one reading each.
pub fn sequence(values: &[i64]) -> Vec<Step> {
    values.iter().map(|&v| Step::new(&[value(v)])).collect()
}

/// The range of one value.
pub fn value(value: i64) -> Range {
    Range::Span(value, value)
}

impl Cross {
    pub fn new(points: &[u8]) -> Cross {
        Cross {
            points: points.to_vec(),
            guard: None,
            weight: 1,
            at_least: 1,
            bins: Vec::new(),
        }
    }

    pub fn guard(self, guard: u8) -> Cross {
        Cross {
            guard: Some(guard),
            ..self
        }
    }

    pub fn bin(mut self, kind: Kind, select: Select) -> Cross {
        self.bins.push(CrossBin {
            kind,
            guard: None,
            select,
        });
        self
    }
}

impl Select {
    pub fn bin(position: u8, bin: u16) -> Select {
        Select::Bin { position, bin }
    }

    pub fn meets(position: u8, lo: i64, hi: i64) -> Select {
        Select::Meets { position, lo, hi }
    }

    pub fn negated(self) -> Select {
        Select::Not(Box::new(self))
    }

    pub fn and(self, other: Select) -> Select {
        Select::And(Box::new(self), Box::new(other))
    }

    pub fn or(self, other: Select) -> Select {
        Select::Or(Box::new(self), Box::new(other))
    }

    /// Tokens that the expression takes.
    pub fn tokens(&self) -> usize {
        match self {
            Select::Whole(_) | Select::Bin { .. } | Select::Meets { .. } => 1,
            Select::Not(inner) => 1 + inner.tokens(),
            Select::And(left, right) | Select::Or(left, right) => {
                1 + left.tokens() + right.tokens()
            }
        }
    }
}

/// One field of the written bytes; a count has no record.
#[derive(Clone, Debug)]
pub struct Field {
    pub section: usize,
    pub record: Option<usize>,
    pub name: &'static str,
    pub place: usize,
    pub size: usize,
}

/// A table's bytes and its fields in order.
#[derive(Clone, Debug, Default)]
pub struct Written {
    pub bytes: Vec<u8>,
    pub fields: Vec<Field>,
}

impl Written {
    pub fn field(&self, section: usize, record: usize, name: &str) -> &Field {
        let wanted =
            |f: &&Field| f.section == section && f.record == Some(record) && f.name == name;
        self.fields.iter().find(wanted).expect("no such field")
    }

    pub fn count(&self, section: usize) -> &Field {
        let wanted = |f: &&Field| f.section == section && f.record.is_none();
        self.fields.iter().find(wanted).expect("no such section")
    }

    /// Place of a record's first byte.
    pub fn record(&self, section: usize, record: usize) -> usize {
        let wanted = |f: &&Field| f.section == section && f.record == Some(record);
        self.fields
            .iter()
            .find(wanted)
            .expect("no such record")
            .place
    }

    /// Writes a value over a field; returns the field's place.
    pub fn set(&mut self, section: usize, record: usize, name: &str, value: i64) -> usize {
        let field = self.field(section, record, name).clone();
        self.overwrite(&field, value)
    }

    /// Writes a value over a section's count; returns the count's place.
    pub fn set_count(&mut self, section: usize, value: i64) -> usize {
        let field = self.count(section).clone();
        self.overwrite(&field, value)
    }

    pub fn overwrite(&mut self, field: &Field, value: i64) -> usize {
        let bytes = value.to_le_bytes();
        self.bytes[field.place..field.place + field.size].copy_from_slice(&bytes[..field.size]);
        field.place
    }
}

/// Appends fields to a [`Written`] table.
#[derive(Default)]
struct Writer {
    written: Written,
    section: usize,
    record: Option<usize>,
}

impl Writer {
    fn count(&mut self, section: usize, count: usize) {
        self.section = section;
        self.record = None;
        self.field("count", 2, count as i64);
    }

    fn next_record(&mut self) {
        self.record = Some(self.record.map_or(0, |r| r + 1));
    }

    fn field(&mut self, name: &'static str, size: usize, value: i64) {
        self.written.fields.push(Field {
            section: self.section,
            record: self.record,
            name,
            place: self.written.bytes.len(),
            size,
        });
        self.written.bytes.extend(&value.to_le_bytes()[..size]);
    }

    fn guard(&mut self, guard: Option<u8>) {
        self.field("guard", 1, guard.unwrap_or(255) as i64);
    }

    fn kind(&mut self, kind: Kind) {
        self.field("kind", 1, kind as i64);
    }

    fn ranges(&mut self, section: usize, ranges: &[Range]) {
        self.count(section, ranges.len());
        for range in ranges {
            let (kind, a, b) = match *range {
                Range::Span(lo, hi) => (0, lo, hi),
                Range::Pattern(bits, mask) => (1, bits, mask),
            };
            self.next_record();
            self.field("kind", 1, kind);
            self.field("a", 8, a);
            self.field("b", 8, b);
        }
    }

    fn token(&mut self, op: i64, position: u8, bin: u16, lo: i64, hi: i64) {
        self.next_record();
        self.field("op", 1, op);
        self.field("position", 1, position as i64);
        self.field("bin", 2, bin as i64);
        self.field("lo", 8, lo);
        self.field("hi", 8, hi);
    }

    /// Prefix order.
    fn select(&mut self, select: &Select) {
        match select {
            Select::Whole(position) => self.token(0, *position, 0, 0, 0),
            Select::Bin { position, bin } => self.token(1, *position, *bin, 0, 0),
            Select::Meets { position, lo, hi } => self.token(2, *position, 0, *lo, *hi),
            Select::Not(inner) => {
                self.token(3, 0, 0, 0, 0);
                self.select(inner);
            }
            Select::And(left, right) => {
                self.token(4, 0, 0, 0, 0);
                self.select(left);
                self.select(right);
            }
            Select::Or(left, right) => {
                self.token(5, 0, 0, 0, 0);
                self.select(left);
                self.select(right);
            }
        }
    }
}

impl Table {
    pub fn new(points: Vec<Point>) -> Table {
        Table {
            points,
            ..Table::default()
        }
    }

    pub fn values(mut self, bins: Vec<ValueBin>) -> Table {
        self.value_bins.extend(bins);
        self
    }

    pub fn transitions(mut self, bins: Vec<TransitionBin>) -> Table {
        self.transition_bins.extend(bins);
        self
    }

    pub fn cross(mut self, cross: Cross) -> Table {
        self.crosses.push(cross);
        self
    }

    pub fn bytes(&self) -> Vec<u8> {
        self.written().bytes
    }

    /// The bytes together with the place of every field.
    pub fn written(&self) -> Written {
        let mut writer = Writer::default();
        self.write_points(&mut writer);
        self.write_values(&mut writer);
        self.write_transitions(&mut writer);
        self.write_crosses(&mut writer);
        writer.written
    }

    fn write_points(&self, writer: &mut Writer) {
        writer.count(POINTS, self.points.len());
        for point in &self.points {
            writer.next_record();
            writer.field("width", 1, point.width as i64);
            writer.field("signed", 1, point.signed as i64);
            writer.guard(point.guard);
            writer.field("weight", 2, point.weight as i64);
            writer.field("at-least", 4, point.at_least as i64);
            writer.field("auto-max", 2, point.auto_max as i64);
        }
    }

    fn write_values(&self, writer: &mut Writer) {
        writer.count(VALUE_BINS, self.value_bins.len());
        for bin in &self.value_bins {
            let (form, number) = match bin.form {
                Form::One => (0, 0),
                Form::PerValue => (1, 0),
                Form::Number(number) => (2, number),
            };
            writer.next_record();
            writer.field("point", 1, bin.point as i64);
            writer.kind(bin.kind);
            writer.field("form", 1, form);
            writer.field("number", 2, number as i64);
            writer.guard(bin.guard);
            writer.field("ranges", 2, bin.ranges.len() as i64);
        }
        let ranges: Vec<Range> = self
            .value_bins
            .iter()
            .flat_map(|b| b.ranges.clone())
            .collect();
        writer.ranges(VALUE_RANGES, &ranges);
    }

    fn write_transitions(&self, writer: &mut Writer) {
        writer.count(TRANSITION_BINS, self.transition_bins.len());
        for bin in &self.transition_bins {
            writer.next_record();
            writer.field("point", 1, bin.point as i64);
            writer.kind(bin.kind);
            writer.guard(bin.guard);
            writer.field("sequences", 1, bin.sequences.len() as i64);
        }
        let bins = self.transition_bins.iter();
        let sequences: Vec<&Vec<Step>> = bins.flat_map(|b| &b.sequences).collect();
        writer.count(SEQUENCES, sequences.len());
        for sequence in &sequences {
            writer.next_record();
            writer.field("steps", 1, sequence.len() as i64);
        }
        let steps: Vec<&Step> = sequences.into_iter().flatten().collect();
        writer.count(STEPS, steps.len());
        for step in &steps {
            writer.next_record();
            writer.field("ranges", 1, step.ranges.len() as i64);
            writer.field("least", 1, step.least as i64);
            writer.field("most", 1, step.most as i64);
        }
        let ranges: Vec<Range> = steps.iter().flat_map(|s| s.ranges.clone()).collect();
        writer.ranges(STEP_RANGES, &ranges);
    }

    fn write_crosses(&self, writer: &mut Writer) {
        const NAMES: [&str; 4] = ["point 0", "point 1", "point 2", "point 3"];
        writer.count(CROSSES, self.crosses.len());
        for cross in &self.crosses {
            writer.next_record();
            writer.field("points", 1, cross.points.len() as i64);
            for (position, name) in NAMES.into_iter().enumerate() {
                let point = cross.points.get(position).copied().unwrap_or(255);
                writer.field(name, 1, point as i64);
            }
            writer.guard(cross.guard);
            writer.field("weight", 2, cross.weight as i64);
            writer.field("at-least", 4, cross.at_least as i64);
            writer.field("cross bins", 1, cross.bins.len() as i64);
        }
        let bins: Vec<&CrossBin> = self.crosses.iter().flat_map(|c| &c.bins).collect();
        writer.count(CROSS_BINS, bins.len());
        for bin in &bins {
            writer.next_record();
            writer.kind(bin.kind);
            writer.guard(bin.guard);
            writer.field("tokens", 1, bin.select.tokens() as i64);
        }
        writer.count(TOKENS, bins.iter().map(|b| b.select.tokens()).sum());
        for bin in &bins {
            writer.select(&bin.select);
        }
    }
}
