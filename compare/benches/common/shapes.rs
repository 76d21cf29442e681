//! Shapes of tables, each the worst case of some way of working, and samples for them.

use super::{largest, medium, small};
use compare::builder::{
    value, Cross, Form, Kind, Point, Range, Select, Step, Table, TransitionBin, ValueBin,
};

/// A table and the readings that its samples take in turn, at every point.
pub struct Shape {
    pub name: String,
    pub table: Table,
    pub readings: Vec<u32>,
}

impl Shape {
    fn new(name: &str, table: Table, readings: impl IntoIterator<Item = u32>) -> Shape {
        Shape {
            name: name.to_string(),
            table,
            readings: readings.into_iter().collect(),
        }
    }

    /// Samples with all guards true, cut to each point's width.
    pub fn samples(&self) -> Vec<Vec<u32>> {
        let sample = |&reading: &u32| {
            let mut words = vec![u32::MAX, u32::MAX, 0, 0];
            for point in &self.table.points {
                let ones = (1u64 << point.width) - 1;
                words.extend([(u64::from(reading) & ones) as u32, 0]);
            }
            words
        };
        self.readings.iter().map(sample).collect()
    }
}

/// The three sizes; the samples raise bins of every point.
pub fn sizes() -> Vec<Shape> {
    let readings = [1u32, 2, 17, 40, 1, 3, 100, 7];
    vec![
        Shape::new("small", small(), readings),
        Shape::new("medium", medium(), readings),
        Shape::new("largest", largest(), readings),
    ]
}

/// One bin per value over many spans: the costliest count of places.
pub fn per_value() -> Shape {
    let mut spans: Vec<Range> = (0..255).map(|i| value(i * 3)).collect();
    spans.extend((0..255).map(|i| value(i * 3)));
    let bin = ValueBin::cover(0, &spans).form(Form::PerValue);
    let table = Table::new(vec![Point::new(32)]).values(vec![bin]);
    Shape::new("per value", table, [0, 3, 300, 764])
}

/// The shapes other than the three sizes.
pub fn others() -> Vec<Shape> {
    vec![
        auto_bins(),
        named_bins("2 x 250 bins, ordered", |i| i),
        named_bins("2 x 250 bins, scattered", |i| i * 97 % 250),
        crosses(),
        falling_spans(),
        long_sequences(),
    ]
}

/// Readings all over 32 bits, the upper half of them at least.
fn spread(count: u32) -> impl Iterator<Item = u32> {
    (1..=count).map(|i| i.wrapping_mul(0x9E37_79B9))
}

fn auto_bins() -> Shape {
    let points = (0..16).map(|_| Point::new(32).auto_max(256)).collect();
    Shape::new("16 x 256 auto bins", Table::new(points), spread(64))
}

/// Bin i lists 50 values from 100 i on; this is the order in which they stand.
fn named_bins(name: &str, order: impl Fn(i64) -> i64) -> Shape {
    let mut bins = Vec::new();
    for point in 0..2u8 {
        for i in (0..250).map(&order) {
            bins.push(ValueBin::cover(
                point,
                &[Range::Span(100 * i, 100 * i + 49)],
            ));
        }
    }
    let table = Table::new(vec![Point::new(16); 2]).values(bins);
    Shape::new(name, table, spread(64).map(|reading| reading % 25_000))
}

/// 8 crosses of point 0, which has 250 bins, with 4 auto bins each, and 16 cross
/// bins of 4 `intersect` leaves in each.
fn with_crosses(bins: Vec<ValueBin>, leaf: impl Fn(i64) -> Select) -> Table {
    let mut points = vec![Point::new(32)];
    points.extend((0..8).map(|_| Point::new(16).auto_max(4)));
    let mut table = Table::new(points).values(bins);
    for c in 0..8u8 {
        let mut cross = Cross::new(&[0, c + 1]);
        for b in 0..16i64 {
            let at = |nth: i64| leaf(i64::from(c) * 64 + b * 4 + nth);
            let left = at(0).and(at(1).negated());
            cross = cross.bin(Kind::Cover, left.or(at(2).and(at(3))));
        }
        table = table.cross(cross);
    }
    table
}

fn crosses() -> Shape {
    let bins = (0..250)
        .map(|i| ValueBin::cover(0, &[Range::Span(100 * i, 100 * i + 49)]))
        .collect();
    let leaf = |i: i64| Select::meets(0, 40 * i, 40 * i + 3_000);
    let readings = spread(64).map(|reading| reading % 25_000);
    Shape::new("8 crosses of 250 x 4", with_crosses(bins, leaf), readings)
}

fn falling_spans() -> Shape {
    let spans: Vec<Range> = (0..1_000)
        .rev()
        .map(|i| Range::Span(100 * i, 100 * i + 49))
        .collect();
    let bins = vec![
        ValueBin::cover(0, &[Range::Span(0, 200_000)]).form(Form::Number(16)),
        ValueBin::ignore(0, &spans),
    ];
    let table = Table::new(vec![Point::new(32)]).values(bins);
    let readings = spread(64).map(|reading| reading % 100_000);
    Shape::new("1000 falling spans", table, readings)
}

fn long_sequences() -> Shape {
    let steps: Vec<Step> = (0..16)
        .map(|i| Step::new(&[value(i % 2), value(7)]))
        .collect();
    let bins = (0..16)
        .map(|i| TransitionBin::cover(i % 4, std::slice::from_ref(&steps)))
        .collect();
    let table = Table::new(vec![Point::new(8); 4]).transitions(bins);
    Shape::new("16 sequences of 16", table, [0, 1, 0, 1, 7, 1, 0, 7, 0, 9])
}

/// 250 bins of two patterns each, 8 crosses, and an ignore bin of this many spans
/// that hold most of what fits.
pub fn patterns(count: i64) -> Shape {
    let bins = (0..250).map(|i| {
        let low = Range::Pattern(i, 0x3FF);
        let high = Range::Pattern(i << 20, 0x3FF << 20);
        ValueBin::cover(0, &[low, high])
    });
    let spans: Vec<Range> = (0..count)
        .map(|i| Range::Span(2_048 * i, 2_048 * i + 2_000))
        .collect();
    let mut all: Vec<ValueBin> = bins.collect();
    all.push(ValueBin::ignore(0, &spans));
    let leaf = |i: i64| Select::meets(0, 1_500 * i, 1_500 * i + 1_000);
    let name = format!("500 patterns, {count} spans");
    Shape::new(&name, with_crosses(all, leaf), spread(64))
}

/// 32 bins that overlap, an ignore bin of this many spans of two values, each
/// beginning `stride` after the one before, and 512 `intersect` leaves: whoever
/// walks all spans for each span, bin and leaf takes half a minute at 900.
fn many_spans(name: &str, count: i64, stride: i64) -> Shape {
    let spans: Vec<Range> = (0..count)
        .map(|i| Range::Span(stride * i, stride * i + 1))
        .collect();
    let mut bins: Vec<ValueBin> = (0..32)
        .map(|i| ValueBin::cover(0, &[Range::Span(i, 5_000 + i)]))
        .collect();
    bins.push(ValueBin::ignore(0, &spans));
    let leaf = |i: i64| Select::meets(0, i % 7, stride * count - 1 - i % 5);
    let table = with_crosses(bins, leaf);
    Shape::new(&format!("{count} {name}"), table, [3_000, 4_000])
}

/// Spans that touch, so that nothing is left for the leaves.
pub fn touching_spans(count: i64) -> Shape {
    many_spans("touching spans", count, 2)
}

/// Spans with a value between any two, so that none can be joined.
pub fn spans_apart(count: i64) -> Shape {
    many_spans("spans apart", count, 3)
}
