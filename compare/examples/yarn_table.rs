//! Writes the coverage table of examples/verilator to standard output: four
//! points of the yarn tester's controller, and a cross of two of them.

use compare::builder::{
    sequence, value, Cross, Kind, Point, Range, Select, Table, TransitionBin, ValueBin,
};
use std::io::Write;

const THREAD: u8 = 0;
const SPEED: u8 = 1;
const GRADE: u8 = 2;

pub fn table() -> Table {
    let points = vec![
        // The thread sensor: unknown while it does not answer in time.
        Point::new(1),
        // The wheel's speed.
        Point::new(4).weight(2),
        // The grade, sampled only while the wheel turns (guard 0).
        Point::new(2).guard(0),
        // The timeout flag: auto bins for 0 and 1.
        Point::new(1),
    ];
    let bins = vec![
        ValueBin::cover(THREAD, &[value(0)]),
        ValueBin::cover(THREAD, &[value(1)]),
        ValueBin::cover(SPEED, &[value(0)]),
        ValueBin::cover(SPEED, &[Range::Span(1, 5)]),
        ValueBin::cover(SPEED, &[Range::Span(6, 14)]),
        ValueBin::illegal(SPEED, &[value(15)]),
        ValueBin::cover(GRADE, &[value(0)]),
        ValueBin::cover(GRADE, &[value(1)]),
        ValueBin::cover(GRADE, &[value(2)]),
        ValueBin::cover(GRADE, &[value(3)]),
    ];
    let transitions = vec![
        // A break that heals at once.
        TransitionBin::cover(THREAD, &[sequence(&[1, 0, 1])]),
        // The grade falls step by step, and never by two.
        TransitionBin::cover(GRADE, &[sequence(&[0, 1, 2])]),
        TransitionBin::illegal(GRADE, &[sequence(&[0, 2]), sequence(&[1, 3])]),
    ];
    // No grade while the wheel stands: value bin 2 is speed 0.
    let standing = Select::bin(0, 2);
    Table::new(points)
        .values(bins)
        .transitions(transitions)
        .cross(Cross::new(&[SPEED, GRADE]).bin(Kind::Ignore, standing))
}

#[allow(dead_code)]
fn main() -> std::io::Result<()> {
    std::io::stdout().write_all(&table().bytes())
}
