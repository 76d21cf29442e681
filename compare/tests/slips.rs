//! The slips to keep out, each as a test that the slip fails.

mod common;

use common::Both;
use common::Reading::{Unknown, Value};
use compare::builder::{
    sequence, value, Cross, Form, Kind, Point, Range, Select, Step, Table, TransitionBin, ValueBin,
};

/// Reading unknown as 0: at a value bin, an auto bin, a default bin, a
/// pattern, a step and a cross.
#[test]
fn unknown_is_not_zero() {
    let points = vec![
        Point::new(2),
        Point::new(2),
        Point::new(2),
        Point::new(2),
        Point::new(2),
    ];
    let bins = vec![
        ValueBin::cover(0, &[value(0)]),
        ValueBin::illegal(0, &[value(0)]).guard(0),
        ValueBin::cover(2, &[value(3)]),
        ValueBin::default(2),
        ValueBin::cover(3, &[Range::Pattern(0, 0)]),
    ];
    let step = TransitionBin::cover(4, &[sequence(&[0, 0])]);
    let table = Table::new(points)
        .values(bins)
        .transitions(vec![step])
        .cross(Cross::new(&[1, 3]));
    let mut both = Both::new(&table);
    let reports = [both.sample(&[Unknown; 5]), both.sample(&[Unknown; 5])];
    assert_eq!(reports, [[0], [0]]);
    assert!(both.counts().iter().all(|&count| count == 0));
    assert_eq!((0..5).map(|p| both.unknown(p)).collect::<Vec<_>>(), [2; 5]);
    both.sample(&[Value(0); 5]);
    assert_eq!(both.figure(3), Some(100.0));
}

/// One unknown bit is enough, whatever the value word says under it.
#[test]
fn any_unknown_bit_counts() {
    let table = Table::new(vec![Point::new(4).auto_max(16)]);
    let mut both = Both::new(&table);
    for (bits, unknown) in [(0, 8), (8, 8), (7, 1), (15, 15)] {
        both.sample_words(vec![0, 0, 0, 0, bits, unknown]);
    }
    assert!(both.counts().iter().all(|&count| count == 0));
    assert_eq!(both.unknown(0), 4);
}

/// Dropping ignored values before dealing: 1:10 in 3 less 1..3 is still
/// 4-6 in the second bin and 7-10 in the third.
#[test]
fn ignored_values_are_dealt_first() {
    let bins = vec![
        ValueBin::cover(0, &[Range::Span(1, 10)]).form(Form::Number(3)),
        ValueBin::ignore(0, &[Range::Span(1, 2)]),
        ValueBin::illegal(0, &[value(3)]),
    ];
    let mut both = Both::new(&Table::new(vec![Point::new(8)]).values(bins));
    both.values(&[4, 5, 6, 7, 8, 9, 10]);
    assert_eq!(both.counts(), [0, 3, 4, 0]);
    assert_eq!(both.figure(0), Some(100.0));
    both.values(&[1, 2, 3]);
    assert_eq!(both.counts(), [0, 3, 4, 1]);
}

/// The same for auto bins.
#[test]
fn ignored_values_are_dealt_first_to_auto_bins() {
    let bins = vec![ValueBin::ignore(0, &[Range::Span(0, 3)])];
    let mut both = Both::new(&Table::new(vec![Point::new(4).auto_max(4)]).values(bins));
    both.values(&[3, 4, 7, 8, 15]);
    assert_eq!(both.counts(), [0, 2, 1, 1]);
    assert_eq!(both.figure(0), Some(100.0));
}

/// Not beginning a match at the reading that breaks another.
#[test]
fn a_breaking_reading_begins_a_match() {
    let bin = TransitionBin::cover(0, &[sequence(&[10, 20, 30])]);
    let mut both = Both::new(&Table::new(vec![Point::new(8)]).transitions(vec![bin]));
    both.values(&[10, 20, 10, 20, 30]);
    assert_eq!(both.count(0), 1);
    both.values(&[10, 10, 20, 30]);
    assert_eq!(both.count(0), 2);
}

/// Matches that overlap are all followed: 1=>2=>1=>3 in 1,2,1,2,1,3.
#[test]
fn overlapping_matches() {
    let bin = TransitionBin::cover(0, &[sequence(&[1, 2, 1, 3])]);
    let mut both = Both::new(&Table::new(vec![Point::new(8)]).transitions(vec![bin]));
    both.values(&[1, 2, 1, 2, 1, 3]);
    assert_eq!(both.count(0), 1);
}

/// Raising a bin twice when two lengths match, two sequences match, two ranges
/// hold the value, or two selected products are hit.
#[test]
fn a_bin_is_raised_once() {
    let threes = Step::new(&[value(3)]);
    let bin = TransitionBin::cover(
        0,
        &[
            vec![threes.clone().repeat(2, 5)],
            vec![threes.clone(), threes.repeat(1, 4)],
        ],
    );
    let mut both = Both::new(&Table::new(vec![Point::new(8)]).transitions(vec![bin]));
    both.values(&[3, 3, 3, 3]);
    assert_eq!(both.count(0), 3);

    let ranges = [Range::Span(0, 9), Range::Span(5, 9), value(7), value(7)];
    let bins = vec![
        ValueBin::cover(0, &ranges),
        ValueBin::cover(0, &ranges).form(Form::PerValue),
        ValueBin::cover(0, &[value(7), value(7), value(7)]).form(Form::Number(1)),
    ];
    let mut both = Both::new(&Table::new(vec![Point::new(8)]).values(bins));
    both.values(&[7]);
    assert_eq!(both.counts(), [1, 0, 0, 0, 0, 0, 0, 0, 1, 0, 0, 1]);

    let bins = vec![
        ValueBin::cover(0, &[value(0)]),
        ValueBin::cover(0, &[Range::Span(0, 1)]),
        ValueBin::cover(1, &[value(0)]),
    ];
    let cross = Cross::new(&[0, 1])
        .bin(Kind::Cover, Select::Whole(0))
        .bin(Kind::Cover, Select::bin(0, 0));
    let points = vec![Point::new(1), Point::new(1)];
    let mut both = Both::new(&Table::new(points).values(bins).cross(cross));
    both.sample(&[Value(0), Value(0)]);
    assert_eq!(both.counts(), [1, 1, 1, 1, 1, 0, 0]);
}

/// Dividing by bins that are empty: at a point, and in a cross.
#[test]
fn empty_bins_leave_the_total() {
    let bins = vec![
        ValueBin::cover(0, &[Range::Span(1, 2)]),
        ValueBin::cover(0, &[Range::Span(3, 4)]),
        ValueBin::cover(0, &[value(9)]).form(Form::Number(3)),
        ValueBin::illegal(0, &[Range::Span(1, 2)]),
        ValueBin::default(0),
    ];
    let cross = Cross::new(&[0, 1])
        .bin(Kind::Cover, Select::bin(0, 0))
        .bin(Kind::Cover, Select::bin(0, 1).and(Select::meets(1, 0, 0)));
    let table = Table::new(vec![Point::new(4), Point::new(1)])
        .values(bins)
        .cross(cross);
    let mut both = Both::new(&table);
    both.sample(&[Value(3), Value(0)]);
    // The point keeps 3-4 and 9; the cross its second bin, 3-4 with 1, 9 with 0 and with 1.
    assert_eq!(both.figure(0), Some(50.0));
    assert_eq!(both.figure(2), Some(25.0));
}

/// An item whose bins are all empty has no figure and drops out of the group.
#[test]
fn no_figure_at_all() {
    let bins = vec![
        ValueBin::cover(0, &[value(1)]),
        ValueBin::ignore(0, &[Range::Span(0, 15)]),
    ];
    let table = Table::new(vec![Point::new(4)]).values(bins.clone());
    let mut both = Both::new(&table);
    both.values(&[1]);
    assert_eq!(both.figure(0), None);
    assert_eq!(both.group(), None);
    let table = Table::new(vec![Point::new(4), Point::new(1)]).values(bins);
    let mut both = Both::new(&table);
    both.sample(&[Value(1), Value(1)]);
    assert_eq!(both.group(), Some(50_000_000));
}
