//! Every worked reading of the rules, on register machine and book; with the feature
//! `library`, on the library too.

mod common;

use common::Reading::{Unknown, Value};
use common::{Both, Reading};
use compare::builder::{
    sequence, value, Cross, Form, Kind, Point, Range, Select, Step, Table, TransitionBin, ValueBin,
};
use compare::calls::Call;
use compare::register::signed_value;
use compare::table::Type;

/// The places that each of these values raises at a single point.
fn raised_by(table: &Table, values: std::ops::RangeInclusive<i64>) -> Vec<Vec<usize>> {
    let one = |v: i64| {
        let mut both = Both::new(table);
        both.values(&[v]);
        let counts = both.counts();
        (0..counts.len())
            .filter(|&place| counts[place] == 1)
            .collect()
    };
    values.map(one).collect()
}

fn dealt(ranges: &[Range], number: u16) -> Table {
    let bin = ValueBin::cover(0, ranges).form(Form::Number(number));
    Table::new(vec![Point::new(8)]).values(vec![bin])
}

#[test]
fn ten_values_in_three_bins() {
    let table = dealt(&[Range::Span(1, 10)], 3);
    let mut expected: Vec<Vec<usize>> = vec![vec![]];
    expected.extend([0, 0, 0, 1, 1, 1, 2, 2, 2, 2].map(|bin| vec![bin]));
    expected.push(vec![]);
    assert_eq!(raised_by(&table, 0..=11), expected);
}

#[test]
fn repeats_are_kept_when_dealing() {
    let table = dealt(&[Range::Span(1, 10), value(1), value(4), value(7)], 4);
    let expected = [
        vec![0, 3],
        vec![0],
        vec![0],
        vec![1, 3],
        vec![1],
        vec![1],
        vec![2, 3],
        vec![2],
        vec![2],
        vec![3],
    ];
    assert_eq!(raised_by(&table, 1..=10), expected);
}

#[test]
fn two_values_in_three_bins() {
    let table = dealt(&[Range::Span(5, 6)], 3);
    assert_eq!(raised_by(&table, 4..=7), [vec![], vec![0], vec![1], vec![]]);
    let mut both = Both::new(&table);
    both.values(&[5]);
    assert_eq!(both.figure(0), Some(50.0));
    both.values(&[6]);
    assert_eq!(both.figure(0), Some(100.0));
}

fn transitions(bins: Vec<TransitionBin>) -> Table {
    Table::new(vec![Point::new(8)]).transitions(bins)
}

fn count_after(table: &Table, values: &[i64]) -> u32 {
    let mut both = Both::new(table);
    both.values(values);
    both.count(0)
}

#[test]
fn three_step_sequence() {
    let table = transitions(vec![TransitionBin::cover(0, &[sequence(&[10, 20, 30])])]);
    assert_eq!(count_after(&table, &[10, 20, 10, 20, 30]), 1);
    assert_eq!(count_after(&table, &[10, 20, 20, 30]), 0);
}

#[test]
fn repetition() {
    let threes = vec![Step::new(&[value(3)]).repeat(2, 3)];
    let cover = TransitionBin::cover(0, &[threes]);
    let plain = transitions(vec![cover.clone()]);
    assert_eq!(count_after(&plain, &[3, 3, 3]), 2);
    let ignore = TransitionBin::ignore(0, &[sequence(&[3, 3])]);
    let ignored = transitions(vec![cover, ignore]);
    assert_eq!(count_after(&ignored, &[3, 3, 3]), 1);
}

#[test]
fn unknown_breaks_a_sequence() {
    let table = transitions(vec![TransitionBin::cover(0, &[sequence(&[10, 20])])]);
    let mut both = Both::new(&table);
    both.values(&[10]);
    both.sample(&[Unknown]);
    both.values(&[20]);
    assert_eq!(both.count(0), 0);
    assert_eq!(both.unknown(0), 1);
}

#[test]
fn false_guard_leaves_the_history() {
    let bin = TransitionBin::cover(0, &[sequence(&[10, 20])]);
    let table = Table::new(vec![Point::new(8).guard(5)]).transitions(vec![bin]);
    let mut both = Both::new(&table);
    both.values(&[10]);
    both.sample_guarded(!(1 << 5), 0, &[Value(77)]);
    both.sample_guarded(u64::MAX, 1 << 5, &[Unknown]);
    both.values(&[20]);
    assert_eq!(both.count(0), 1);
    assert_eq!(both.unknown(0), 0);
}

#[test]
fn restart_breaks_a_sequence() {
    let table = transitions(vec![TransitionBin::cover(0, &[sequence(&[10, 20])])]);
    let mut both = Both::new(&table);
    both.values(&[10]);
    both.call(&Call::Stop);
    both.call(&Call::Start);
    both.values(&[20]);
    assert_eq!(both.count(0), 0);
    // Starting a running register is no restart.
    both.values(&[10]);
    both.call(&Call::Start);
    both.values(&[20]);
    assert_eq!(both.count(0), 1);
}

#[test]
fn pattern() {
    let bin = ValueBin::cover(0, &[Range::Pattern(0b1100, 0b1100)]);
    let table = Table::new(vec![Point::new(4)]).values(vec![bin]);
    let held: Vec<i64> = (0..16)
        .filter(|&v| count_after(&table, &[v]) == 1)
        .collect();
    assert_eq!(held, [12, 13, 14, 15]);
}

#[test]
fn ignored_bin_leaves_the_total() {
    let bins = vec![
        ValueBin::cover(0, &[Range::Span(1, 2)]),
        ValueBin::cover(0, &[Range::Span(3, 4)]),
        ValueBin::ignore(0, &[Range::Span(1, 2)]),
    ];
    let table = Table::new(vec![Point::new(8)]).values(bins);
    let mut both = Both::new(&table);
    both.values(&[1, 2]);
    assert_eq!(both.counts(), [0, 0]);
    assert_eq!(both.figure(0), Some(0.0));
    both.values(&[3]);
    assert_eq!(both.counts(), [0, 1]);
    assert_eq!(both.figure(0), Some(100.0));
}

#[test]
fn group_figure() {
    let points = vec![Point::new(2), Point::new(2).weight(2)];
    let bin = |point, v| ValueBin::cover(point, &[value(v)]);
    let bins = vec![bin(0, 0), bin(0, 1), bin(1, 0), bin(1, 1), bin(1, 2)];
    let mut both = Both::new(&Table::new(points).values(bins));
    both.sample(&[Value(0), Value(0)]);
    assert_eq!(both.figure(0), Some(50.0));
    assert_eq!(both.figure(1), Some(100.0 / 3.0));
    assert_eq!(both.group(), Some(38_888_888));
}

#[test]
fn cross_of_two_points() {
    let bins = vec![
        ValueBin::cover(0, &[Range::Span(0, 3)]),
        ValueBin::cover(0, &[Range::Span(4, 7)]),
        ValueBin::cover(1, &[value(0)]),
        ValueBin::cover(1, &[Range::Span(1, 7)]),
    ];
    let select = Select::bin(0, 0).and(Select::meets(1, 0, 0).negated());
    let table = Table::new(vec![Point::new(3), Point::new(3)])
        .values(bins)
        .cross(Cross::new(&[0, 1]).bin(Kind::Cover, select));
    // Places: two bins each, the cross bin, four products.
    let expected = [
        ([0, 0], [0, 1, 0, 0, 0], Some(25.0)),
        ([0, 1], [1, 0, 0, 0, 0], Some(25.0)),
        ([4, 0], [0, 0, 0, 1, 0], Some(25.0)),
        ([4, 1], [0, 0, 0, 0, 1], Some(25.0)),
    ];
    for (values, counts, figure) in expected {
        let mut both = Both::new(&table);
        both.sample(&values.map(Value));
        assert_eq!(both.counts()[4..], counts);
        assert_eq!(both.figure(2), figure);
    }
    let mut both = Both::new(&table);
    for values in [[0, 0], [0, 1], [4, 0], [4, 1]] {
        both.sample(&values.map(Value));
    }
    assert_eq!(both.figure(2), Some(100.0));
    assert_eq!(both.group(), Some(100_000_000));
}

#[test]
fn most_sum() {
    let with_most = |most| {
        let steps = vec![
            Step::new(&[value(1)]),
            Step::new(&[value(2)]).repeat(1, most),
        ];
        transitions(vec![TransitionBin::cover(0, &[steps])]).bytes()
    };
    assert_eq!(common::measure(&with_most(31)).number, 0);
    let three = |a, b, c| {
        let one = |most| Step::new(&[value(1)]).repeat(1, most);
        transitions(vec![TransitionBin::cover(
            0,
            &[vec![one(a), one(b), one(c)]],
        )])
        .bytes()
    };
    assert_eq!(common::measure(&with_most(32)).number, 4);
    assert_eq!(common::measure(&three(10, 11, 11)).number, 0);
    assert_eq!(common::measure(&three(11, 11, 11)).number, 4);
}

const WHOLE: [u8; 31] = [
    0x01, 0x00, 0x01, 0x00, 0xFF, 0x01, 0x00, 0x01, 0x00, 0x00, 0x00, 0x40, 0x00, 0, 0, 0, 0, 0, 0,
    0, 0, 0, 0, 0, 0, 0, 0, 0, 0, 0, 0,
];

#[test]
fn last_sample() {
    let sample = [0, 0, 0, 0, 1, 0];
    let mut words = [1, u32::MAX - 1, 0, 5, 0];
    assert_eq!(common::sample(&WHOLE, &mut words, &sample), 0);
    assert_eq!(words, [1, u32::MAX, 0, 6, 0]);
    assert_eq!(common::sample(&WHOLE, &mut words, &sample), 9);
    assert_eq!(words, [1, u32::MAX, 0, 6, 0]);
}

#[test]
fn whole_table() {
    let table = Table::new(vec![Point::new(1)]);
    assert_eq!(table.bytes(), WHOLE);
    assert_eq!(common::measure(&WHOLE).words, 5);
    assert_eq!(common::measure(&WHOLE).illegal_places, 0);
    let mut both = Both::new(&table);
    let readings: [Reading; 3] = [Value(1), Value(1), Unknown];
    for reading in readings {
        both.sample(&[reading]);
    }
    assert_eq!(both.register[..5], [1, 3, 0, 2, 1]);
    assert_eq!(both.figure(0), Some(50.0));
    assert_eq!(both.group(), Some(50_000_000));
}

#[test]
fn twos_complement() {
    let ty = |width| Type {
        width,
        signed: true,
    };
    assert_eq!(signed_value(ty(8), 0xF6), -10);
    assert_eq!(signed_value(ty(8), 0x80), -128);
    assert_eq!(signed_value(ty(8), 0x7F), 127);
    assert_eq!(signed_value(ty(32), u32::MAX), -1);
    assert_eq!(signed_value(ty(32), 1 << 31), -(1 << 31));
    assert_eq!(signed_value(ty(1), 1), -1);
    let bins = vec![
        ValueBin::cover(0, &[value(-10)]),
        ValueBin::cover(0, &[value(-128)]),
    ];
    let mut both = Both::new(&Table::new(vec![Point::signed(8)]).values(bins));
    for bits in [0xF6, 0x80, 0xF6] {
        both.sample_words(vec![0, 0, 0, 0, bits, 0]);
    }
    assert_eq!(both.counts(), [2, 1]);
}

/// At each width, the lowest, zero and highest value, each with its own bin.
#[test]
fn ends_of_every_width() {
    for width in 1..=32u8 {
        for signed in [false, true] {
            let point = if signed {
                Point::signed(width)
            } else {
                Point::new(width)
            };
            let ty = Type { width, signed };
            let ends = [ty.lowest(), 0, ty.highest()];
            let bins = ends.map(|end| ValueBin::cover(0, &[value(end)])).to_vec();
            let table = Table::new(vec![point]).values(bins);
            for end in ends {
                let mut both = Both::new(&table);
                both.values(&[end]);
                let expected: Vec<u32> = ends.iter().map(|&e| u32::from(e == end)).collect();
                assert_eq!(both.counts(), expected);
            }
        }
    }
}
