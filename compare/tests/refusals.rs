//! Every refusal number, at each place where it can be given.

mod common;

use common::{four, full, FAULTS};
use compare::builder::{
    sequence, value, Cross, Form, Kind, Point, Range, Select, Step, Table, TransitionBin, ValueBin,
    Written,
};
use compare::calls::UNTOUCHED;
use compare::random::{self, Spoiled};
use compare::register;
use compare::table::{
    self, Refusal, CROSSES, CROSS_BINS, POINTS, RECORD_SIZE, SEQUENCES, STEPS, STEP_RANGES, TOKENS,
    TRANSITION_BINS, VALUE_BINS, VALUE_RANGES,
};
use std::collections::BTreeSet;

/// What is wrong with a count or a field, as a refusal number.
const COUNT: u32 = 3;
const FIELD: u32 = 15;
const VALUE: u32 = 16;
const UNUSED: u32 = 17;

/// The number and the place, 0 and 0 if the table is accepted.
fn refusal(bytes: &[u8]) -> (u32, usize) {
    let measure = common::measure(bytes);
    match table::check(bytes) {
        Ok(_) => {
            assert_eq!((measure.number, measure.place), (0, 0));
            (0, 0)
        }
        Err(refusal) => {
            assert_eq!(table::decode(bytes), Err(refusal));
            let Refusal { number, place } = refusal;
            assert_eq!((measure.number, measure.place), (number, place));
            assert_eq!((measure.words, measure.illegal_places), (0, 0));
            assert!((0..12).all(|section| table::section(bytes, section).is_empty()));
            (number, place)
        }
    }
}

/// A table with one field overwritten, and the field's place.
fn spoiled(table: &Table, section: usize, record: usize, name: &str, v: i64) -> (Vec<u8>, usize) {
    let mut written = table.written();
    let place = written.set(section, record, name, v);
    (written.bytes, place)
}

/// These values of a field are refused with the number at the field.
fn bad(number: u32, section: usize, record: usize, name: &str, values: &[i64]) {
    for &v in values {
        let (bytes, place) = spoiled(&full(), section, record, name, v);
        let what = format!("section {section} record {record} {name} = {v}");
        assert_eq!(refusal(&bytes), (number, place), "{what}");
    }
}

/// These values of a field are accepted.
fn good(section: usize, record: usize, name: &str, values: &[i64]) {
    for &v in values {
        let (bytes, _) = spoiled(&full(), section, record, name, v);
        let what = format!("section {section} record {record} {name} = {v}");
        assert_eq!(refusal(&bytes).0, 0, "{what}");
    }
}

#[test]
fn full_table_is_accepted() {
    let written = full().written();
    assert_eq!(refusal(&written.bytes), (0, 0));
    // 2 words, 3 points, places 1+2+1+1+1+1, 6+0, 8+1 and 1+24, mosts 2+5+2+2.
    let measure = table::measure(&written.bytes);
    assert_eq!(measure.words, 2 + 3 + 7 + 6 + 9 + 25 + 11);
    assert_eq!(measure.illegal_places, 2);
}

#[test]
fn sections_as_they_stand() {
    let written = full().written();
    for (section, size) in RECORD_SIZE.iter().enumerate().skip(POINTS) {
        let count = written.count(section);
        let records =
            u16::from_le_bytes([written.bytes[count.place], written.bytes[count.place + 1]]);
        let start = count.place + 2;
        let end = start + records as usize * size;
        let part = table::section(&written.bytes, section as u32);
        assert_eq!(part, &written.bytes[start..end]);
    }
    for number in [0, 11, 12, u32::MAX] {
        assert!(table::section(&written.bytes, number).is_empty());
    }
}

#[test]
fn one_too_long() {
    let mut bytes = full().bytes();
    bytes.resize(65_536, 0);
    assert_eq!(refusal(&bytes), (5, full().bytes().len()));
    bytes.push(0);
    assert_eq!(refusal(&bytes), (1, 0));
    assert_eq!(refusal(&vec![0xFF; 65_537]), (1, 0));
}

/// Every cut of an accepted table is 2, where the count or record cut begins.
#[test]
fn two_at_every_cut() {
    let written = full().written();
    for length in 0..written.bytes.len() {
        let starts = written.fields.iter().filter(|f| {
            let first = written
                .fields
                .iter()
                .find(|g| g.section == f.section && g.record == f.record);
            first.is_some_and(|g| g.place == f.place)
        });
        let begun = starts
            .map(|f| f.place)
            .filter(|&place| place <= length)
            .max();
        assert_eq!(refusal(&written.bytes[..length]), (2, begun.unwrap()));
    }
}

/// Each count and field with each edge value: it causes the numbers that it can
/// cause, and no others, at its own place.
#[test]
fn every_field_at_fault() {
    let mut met = BTreeSet::new();
    for Spoiled { bytes, field, .. } in [full(), four()].iter().flat_map(random::every_fault) {
        let (number, place) = refusal(&bytes);
        let field = field.filter(|field| field.place == place);
        if let (COUNT | FIELD | VALUE | UNUSED, Some(field)) = (number, field) {
            met.insert((number, field.section, field.name));
        }
    }
    assert_eq!(met, BTreeSet::from(FAULTS));
}

#[test]
fn counts() {
    let largest = [
        (POINTS, 17),
        (VALUE_BINS, 513),
        (VALUE_RANGES, 1_025),
        (TRANSITION_BINS, 65),
        (SEQUENCES, 65),
        (STEPS, 257),
        (STEP_RANGES, 513),
        (CROSSES, 9),
        (CROSS_BINS, 129),
        (TOKENS, 1_025),
    ];
    for (section, over) in largest {
        for count in [over, 65_535] {
            let mut written = full().written();
            let place = written.set_count(section, count);
            assert_eq!(refusal(&written.bytes), (3, place), "section {section}");
            // With nothing after the count it is still 3.
            assert_eq!(refusal(&written.bytes[..place + 2]), (3, place));
            // Half a count is 2.
            assert_eq!(refusal(&written.bytes[..place + 1]), (2, place));
        }
    }
    assert_eq!(refusal(&[0, 0]), (3, 0));
    assert_eq!(refusal(&[17, 0]), (3, 0));
    assert_eq!(refusal(&[16, 0]), (2, 2));
}

#[test]
fn points() {
    bad(FIELD, POINTS, 1, "width", &[0, 33, 255]);
    bad(FIELD, POINTS, 1, "signed", &[2, 255]);
    bad(FIELD, POINTS, 1, "guard", &[64, 254]);
    bad(FIELD, POINTS, 1, "at-least", &[0]);
    bad(FIELD, POINTS, 1, "auto-max", &[0, 257, 65_535]);
    good(POINTS, 1, "guard", &[0, 63, 255]);
    good(POINTS, 1, "weight", &[0, 65_535]);
    good(POINTS, 1, "at-least", &[1, 0xFFFF_FFFF]);
    good(POINTS, 1, "auto-max", &[1, 256]);
    good(POINTS, 1, "width", &[4, 32]);
}

#[test]
fn value_bins() {
    bad(FIELD, VALUE_BINS, 0, "point", &[3, 255]);
    bad(FIELD, VALUE_BINS, 0, "kind", &[4, 255]);
    bad(FIELD, VALUE_BINS, 0, "form", &[3, 255]);
    for other in [2, 3, 4] {
        bad(FIELD, VALUE_BINS, other, "form", &[1, 2, 3]);
    }
    bad(UNUSED, VALUE_BINS, 0, "number", &[1, 256, 65_535]);
    bad(UNUSED, VALUE_BINS, 5, "number", &[1]);
    bad(FIELD, VALUE_BINS, 1, "number", &[0, 257, 65_535]);
    good(VALUE_BINS, 1, "number", &[1, 3]);
    bad(FIELD, VALUE_BINS, 0, "guard", &[64, 254]);
    bad(FIELD, VALUE_BINS, 2, "guard", &[0, 63, 64]);
    good(VALUE_BINS, 0, "guard", &[0, 63, 255]);
    good(VALUE_BINS, 3, "guard", &[0, 63]);
    good(VALUE_BINS, 4, "guard", &[0, 63]);
    for owner in [0, 1, 2, 3, 5] {
        bad(COUNT, VALUE_BINS, owner, "ranges", &[0]);
    }
    bad(COUNT, VALUE_BINS, 4, "ranges", &[1, 65_535]);
}

#[test]
fn value_ranges() {
    for range in 0..6 {
        bad(FIELD, VALUE_RANGES, range, "kind", &[2, 255]);
    }
    // Patterns: not in dealt, ignore or illegal bins, not at signed points.
    for range in [1, 2, 3, 4] {
        bad(FIELD, VALUE_RANGES, range, "kind", &[1]);
    }
    bad(VALUE, VALUE_RANGES, 0, "a", &[-1, 16, i64::MIN, i64::MAX]);
    bad(VALUE, VALUE_RANGES, 0, "b", &[-1, 16, 0, i64::MAX]);
    bad(VALUE, VALUE_RANGES, 4, "a", &[-9, 8]);
    bad(VALUE, VALUE_RANGES, 4, "b", &[8, -4]);
    good(VALUE_RANGES, 0, "a", &[0, 2]);
    good(VALUE_RANGES, 0, "b", &[1, 15]);
    good(VALUE_RANGES, 4, "a", &[-8, 2]);
    good(VALUE_RANGES, 4, "b", &[-3, 7]);
    // The pattern 10??.
    bad(VALUE, VALUE_RANGES, 5, "a", &[-1, 16, i64::MIN]);
    bad(VALUE, VALUE_RANGES, 5, "b", &[-1, 28, 0, 4, i64::MIN]);
    good(VALUE_RANGES, 5, "a", &[0, 4, 8, 12]);
    good(VALUE_RANGES, 5, "b", &[8, 9, 15]);
    let mut written = full().written();
    written.set(VALUE_RANGES, 5, "a", 0);
    written.set(VALUE_RANGES, 5, "b", 0);
    assert_eq!(refusal(&written.bytes), (0, 0));
    // Bits outside the mask.
    let (bytes, _) = spoiled(&full(), VALUE_RANGES, 5, "a", 9);
    assert_eq!(
        refusal(&bytes),
        (VALUE, full().written().field(VALUE_RANGES, 5, "b").place)
    );
}

#[test]
fn transitions() {
    bad(FIELD, TRANSITION_BINS, 0, "point", &[3, 255]);
    bad(FIELD, TRANSITION_BINS, 0, "kind", &[3, 255]);
    bad(FIELD, TRANSITION_BINS, 0, "guard", &[64, 254]);
    bad(FIELD, TRANSITION_BINS, 1, "guard", &[0, 63]);
    bad(COUNT, TRANSITION_BINS, 0, "sequences", &[0]);
    good(TRANSITION_BINS, 2, "guard", &[0, 255]);
    bad(COUNT, SEQUENCES, 0, "steps", &[0, 17, 255]);
    bad(COUNT, STEPS, 2, "ranges", &[0]);
    bad(FIELD, STEPS, 2, "least", &[0, 33, 255]);
    bad(FIELD, STEPS, 2, "most", &[0, 1, 33, 255]);
    good(STEPS, 2, "least", &[1, 3]);
    good(STEPS, 2, "most", &[2, 30]);
    bad(FIELD, STEP_RANGES, 0, "kind", &[2]);
    bad(VALUE, STEP_RANGES, 0, "a", &[-1, 16]);
    bad(VALUE, STEP_RANGES, 0, "b", &[0, 16]);
    // Point 1 is signed.
    bad(FIELD, STEP_RANGES, 6, "kind", &[1]);
    bad(VALUE, STEP_RANGES, 6, "a", &[-9]);
    // An illegal bin's step at an unsigned point may have a pattern.
    good(STEP_RANGES, 8, "kind", &[1]);
    bad(VALUE, STEP_RANGES, 8, "b", &[8]);
}

#[test]
fn crosses() {
    bad(FIELD, CROSSES, 0, "points", &[0, 1, 5, 255]);
    bad(FIELD, CROSSES, 0, "point 0", &[3, 255]);
    bad(FIELD, CROSSES, 0, "point 1", &[3, 255]);
    bad(UNUSED, CROSSES, 0, "point 2", &[0, 2, 254]);
    bad(UNUSED, CROSSES, 0, "point 3", &[0, 2, 254]);
    bad(FIELD, CROSSES, 0, "guard", &[64, 254]);
    bad(FIELD, CROSSES, 0, "at-least", &[0]);
    bad(COUNT, CROSSES, 0, "cross bins", &[17, 255]);
    good(CROSSES, 0, "guard", &[63, 255]);
    good(CROSSES, 0, "weight", &[0, 65_535]);
    bad(FIELD, CROSS_BINS, 0, "kind", &[3, 255]);
    bad(FIELD, CROSS_BINS, 0, "guard", &[64, 254]);
    bad(FIELD, CROSS_BINS, 1, "guard", &[0, 63]);
    bad(COUNT, CROSS_BINS, 0, "tokens", &[0, 33, 255]);
    good(CROSS_BINS, 0, "guard", &[0, 63]);
    // Tokens: and, named bin, not, meeting; whole point.
    bad(FIELD, TOKENS, 0, "op", &[6, 255]);
    bad(UNUSED, TOKENS, 0, "position", &[1]);
    bad(UNUSED, TOKENS, 0, "bin", &[1]);
    bad(UNUSED, TOKENS, 0, "lo", &[1, -1]);
    bad(UNUSED, TOKENS, 0, "hi", &[1, i64::MIN]);
    bad(FIELD, TOKENS, 1, "position", &[2, 255]);
    bad(UNUSED, TOKENS, 1, "lo", &[1]);
    bad(UNUSED, TOKENS, 1, "hi", &[1]);
    bad(UNUSED, TOKENS, 2, "position", &[1]);
    bad(UNUSED, TOKENS, 2, "bin", &[1]);
    bad(UNUSED, TOKENS, 2, "hi", &[1]);
    bad(FIELD, TOKENS, 3, "position", &[2]);
    bad(UNUSED, TOKENS, 3, "bin", &[1]);
    bad(VALUE, TOKENS, 3, "lo", &[-9, 8, i64::MIN]);
    bad(VALUE, TOKENS, 3, "hi", &[-1, 8, i64::MAX]);
    bad(FIELD, TOKENS, 4, "position", &[2]);
    bad(UNUSED, TOKENS, 4, "bin", &[5]);
    bad(UNUSED, TOKENS, 4, "lo", &[1]);
    bad(UNUSED, TOKENS, 4, "hi", &[1]);
    good(TOKENS, 1, "bin", &[1, 6]);
    good(TOKENS, 3, "lo", &[-8, 1]);
    good(TOKENS, 3, "hi", &[0, 7]);
    good(TOKENS, 4, "position", &[0]);
}

/// An owner that asks for one record more or less shows at the owned count.
#[test]
fn four_owned_sums() {
    let owners = [
        (VALUE_BINS, "ranges", VALUE_RANGES),
        (TRANSITION_BINS, "sequences", SEQUENCES),
        (SEQUENCES, "steps", STEPS),
        (STEPS, "ranges", STEP_RANGES),
        (CROSSES, "cross bins", CROSS_BINS),
        (CROSS_BINS, "tokens", TOKENS),
    ];
    for (section, name, owned) in owners {
        let mut written = full().written();
        let field = written.field(section, 0, name).clone();
        let old = written.bytes[field.place];
        written.overwrite(&field, i64::from(old) + 1);
        let place = written.count(owned).place;
        assert_eq!(refusal(&written.bytes), (4, place), "{name}");
        assert_eq!(refusal(&written.bytes[..place + 2]), (4, place), "{name}");
        assert_eq!(refusal(&written.bytes[..place + 1]), (2, place), "{name}");
        let count = i64::from(written.bytes[place]);
        for other in [count - 1, count + 2, 0] {
            written.set_count(owned, other);
            assert_eq!(refusal(&written.bytes), (4, place), "{name}");
        }
    }
}

/// A count of ranges has no largest of its own.
#[test]
fn four_many_ranges_in_one_bin() {
    let mut written = full().written();
    written.set(VALUE_BINS, 0, "ranges", 65_535);
    let place = written.count(VALUE_RANGES).place;
    assert_eq!(refusal(&written.bytes), (4, place));
    written.set_count(VALUE_RANGES, 1_025);
    assert_eq!(refusal(&written.bytes), (3, place));
    let mut written = full().written();
    written.set(TRANSITION_BINS, 0, "sequences", 255);
    assert_eq!(refusal(&written.bytes), (4, written.count(SEQUENCES).place));
    let mut written = full().written();
    written.set(STEPS, 0, "ranges", 255);
    assert_eq!(
        refusal(&written.bytes),
        (4, written.count(STEP_RANGES).place)
    );
}

#[test]
fn four_second_default() {
    let mut table = full();
    table.value_bins.push(ValueBin::default(1));
    assert_eq!(refusal(&table.bytes()), (0, 0));
    table.value_bins.push(ValueBin::default(0));
    table.value_bins.push(ValueBin::cover(0, &[value(0)]));
    let mut written = table.written();
    let place = written.record(VALUE_BINS, 8);
    assert_eq!(refusal(&written.bytes), (4, place));
    // A fault of the same record comes first, one of a later record too late.
    written.set(VALUE_BINS, 9, "kind", 9);
    assert_eq!(refusal(&written.bytes), (4, place));
    let field = written.set(VALUE_BINS, 8, "ranges", 1);
    assert_eq!(refusal(&written.bytes), (3, field));
}

#[test]
fn four_sequence_sums() {
    let with = |first: Vec<Step>, second: Vec<Step>| {
        let bin = TransitionBin::cover(0, &[first, second]);
        Table::new(vec![Point::new(4)])
            .transitions(vec![bin])
            .written()
    };
    let step = |least, most| Step::new(&[value(1)]).repeat(least, most);
    let fine = || vec![step(1, 1), step(1, 1)];
    let short = with(vec![step(1, 32)], fine());
    assert_eq!(refusal(&short.bytes), (4, short.record(STEPS, 0)));
    let short = with(fine(), vec![step(1, 2)]);
    assert_eq!(refusal(&short.bytes), (4, short.record(STEPS, 2)));
    assert_eq!(refusal(&with(vec![step(2, 32)], fine()).bytes), (0, 0));
    let long = with(vec![step(1, 1), step(1, 31), step(1, 1)], fine());
    assert_eq!(refusal(&long.bytes), (4, long.record(STEPS, 2)));
    assert_eq!(refusal(&with(vec![step(2, 2); 16], fine()).bytes), (0, 0));
    // It shows before the next sequence's steps, and after a field of its own.
    let mut long = with(vec![step(1, 17), step(1, 17)], fine());
    long.set(STEPS, 2, "least", 0);
    assert_eq!(refusal(&long.bytes), (4, long.record(STEPS, 1)));
    let field = long.set(STEPS, 1, "least", 0);
    assert_eq!(refusal(&long.bytes), (FIELD, field));
}

#[test]
fn four_point_twice() {
    let mut written = full().written();
    written.set(CROSSES, 0, "point 1", 0);
    let place = written.record(CROSSES, 0);
    assert_eq!(refusal(&written.bytes), (4, place));
    let field = written.set(CROSSES, 0, "at-least", 0);
    assert_eq!(refusal(&written.bytes), (FIELD, field));
    let points = vec![Point::new(1); 4];
    let twice = Table::new(points.clone())
        .cross(Cross::new(&[3, 1, 0, 3]))
        .written();
    assert_eq!(refusal(&twice.bytes), (4, twice.record(CROSSES, 0)));
    let four = Table::new(points).cross(Cross::new(&[3, 1, 0, 2])).bytes();
    assert_eq!(refusal(&four), (0, 0));
    // A point twice, and bytes missing after it.
    assert_eq!(refusal(&twice.bytes[..twice.record(CROSSES, 0) + 13]).0, 4);
}

#[test]
fn four_named_bin() {
    // Ignore, illegal and default bins, another point's, past the section.
    for bin in [2, 3, 4, 5, 7, 511, 512, 65_535] {
        let mut written = full().written();
        written.set(TOKENS, 1, "bin", bin);
        let place = written.record(TOKENS, 1);
        assert_eq!(refusal(&written.bytes), (4, place), "bin {bin}");
        let field = written.set(TOKENS, 1, "hi", 1);
        assert_eq!(refusal(&written.bytes), (UNUSED, field));
    }
    // A table without value bins.
    let cross = Cross::new(&[0, 1]).bin(Kind::Cover, Select::bin(0, 0));
    let table = Table::new(vec![Point::new(1), Point::new(1)]).cross(cross);
    assert_eq!(refusal(&table.bytes()).0, 4);
}

/// Tokens by op, all of position 0.
fn with_ops(ops: &[i64]) -> Written {
    let mut select = Select::Whole(0);
    for _ in 1..ops.len() {
        select = select.negated();
    }
    let table = Table::new(vec![Point::new(1), Point::new(1)])
        .cross(Cross::new(&[0, 1]).bin(Kind::Cover, select));
    let mut written = table.written();
    for (token, &op) in ops.iter().enumerate() {
        written.set(TOKENS, token, "op", op);
    }
    written
}

#[test]
fn four_expressions() {
    let whole: [&[i64]; 6] = [
        &[0],
        &[3, 0],
        &[4, 0, 0],
        &[5, 3, 0, 4, 0, 3, 2],
        &[4, 4, 4, 0, 0, 0, 0],
        &[4, 0, 5, 0, 4, 0, 0],
    ];
    for ops in whole {
        assert_eq!(refusal(&with_ops(ops).bytes), (0, 0), "{ops:?}");
    }
    let broken: [&[i64]; 12] = [
        &[0, 0],
        &[3],
        &[4],
        &[4, 0],
        &[0, 4, 0],
        &[4, 0, 0, 0],
        &[3, 3, 0],
        &[3, 4, 0, 0],
        &[4, 3, 5, 0, 0, 0],
        &[4, 0, 3],
        &[3, 0, 0],
        &[0, 3],
    ];
    for ops in broken {
        let written = with_ops(ops);
        let last = written.record(TOKENS, ops.len() - 1);
        assert_eq!(refusal(&written.bytes), (4, last), "{ops:?}");
    }
    // A field of a later token of the same bin comes first.
    let mut written = with_ops(&[0, 0, 0]);
    let field = written.set(TOKENS, 2, "hi", 1);
    assert_eq!(refusal(&written.bytes), (UNUSED, field));
    // 32 tokens: 15 ands, 16 leaves and a not; 31 nots are no expression.
    let mut ops = vec![4; 15];
    ops.extend([0; 15]);
    ops.extend([3, 0]);
    assert_eq!(refusal(&with_ops(&ops).bytes), (0, 0));
    let mut nots = vec![3; 31];
    nots.push(0);
    assert_eq!(refusal(&with_ops(&nots).bytes).0, 4);
}

#[test]
fn five_left_over() {
    let mut bytes = full().bytes();
    let length = bytes.len();
    bytes.push(0);
    assert_eq!(refusal(&bytes), (5, length));
    // 5 comes before 6.
    let mut bytes = per_value(257).bytes();
    assert_eq!(refusal(&bytes), (6, bytes.len()));
    let length = bytes.len();
    bytes.extend([1, 2]);
    assert_eq!(refusal(&bytes), (5, length));
}

/// One point with this many places: one bin per value.
fn per_value(values: i64) -> Table {
    let bin = ValueBin::cover(0, &[Range::Span(0, values - 1)]).form(Form::PerValue);
    Table::new(vec![Point::new(32)]).values(vec![bin])
}

#[test]
fn six_places() {
    assert_eq!(refusal(&per_value(256).bytes()), (0, 0));
    assert_eq!(refusal(&per_value(257).bytes()).0, 6);
    assert_eq!(refusal(&per_value(1 << 32).bytes()).0, 6);
    // Distinct values count once, whatever the order of the spans.
    let spans = [
        Range::Span(100, 255),
        Range::Span(0, 99),
        Range::Span(50, 200),
        value(0),
    ];
    let bin = ValueBin::cover(0, &spans).form(Form::PerValue);
    let table = Table::new(vec![Point::new(32)]).values(vec![bin]);
    assert_eq!(refusal(&table.bytes()), (0, 0));
    // Illegal, default and transition bins count as well; ignore bins do not.
    let one_more = [
        table
            .clone()
            .values(vec![ValueBin::illegal(0, &[value(0)])]),
        table.clone().values(vec![ValueBin::default(0)]),
        table.clone().values(vec![ValueBin::cover(0, &[value(0)])]),
        table
            .clone()
            .transitions(vec![TransitionBin::cover(0, &[sequence(&[1, 2])])]),
        table
            .clone()
            .transitions(vec![TransitionBin::illegal(0, &[sequence(&[1, 2])])]),
    ];
    for table in one_more {
        assert_eq!(refusal(&table.bytes()), (6, table.bytes().len()));
    }
    let ignoring = table
        .values(vec![ValueBin::ignore(0, &[Range::Span(0, 255)])])
        .transitions(vec![TransitionBin::ignore(0, &[sequence(&[1, 2])])]);
    assert_eq!(refusal(&ignoring.bytes()), (0, 0));
    // A dealt bin has its number of places, also with fewer values.
    let dealt = |number| ValueBin::cover(0, &[value(1)]).form(Form::Number(number));
    let table = Table::new(vec![Point::new(4)]);
    assert_eq!(
        refusal(&table.clone().values(vec![dealt(256)]).bytes()),
        (0, 0)
    );
    assert_eq!(
        refusal(&table.values(vec![dealt(128), dealt(129)]).bytes()).0,
        6
    );
    // 256 auto bins and an illegal one.
    let auto = Table::new(vec![Point::new(8).auto_max(256)]);
    assert_eq!(refusal(&auto.bytes()), (0, 0));
    let auto = auto.values(vec![ValueBin::illegal(0, &[value(0)])]);
    assert_eq!(refusal(&auto.bytes()).0, 6);
}

#[test]
fn six_products() {
    let of = |parts: &[u16]| {
        let points = parts.iter().map(|&n| Point::new(8).auto_max(n)).collect();
        let positions: Vec<u8> = (0..parts.len() as u8).collect();
        Table::new(points).cross(Cross::new(&positions))
    };
    assert_eq!(refusal(&of(&[32, 32]).bytes()), (0, 0));
    assert_eq!(refusal(&of(&[256, 4]).bytes()), (0, 0));
    assert_eq!(refusal(&of(&[4, 4, 8, 8]).bytes()), (0, 0));
    assert_eq!(
        refusal(&of(&[5, 205]).bytes()),
        (6, of(&[5, 205]).bytes().len())
    );
    assert_eq!(refusal(&of(&[256, 256, 256, 256]).bytes()).0, 6);
    // A point with no part makes no product, however large the others are.
    let none = of(&[256, 256, 256, 1]).values(vec![ValueBin::default(3)]);
    assert_eq!(refusal(&none.bytes()), (0, 0));
    // Empty parts are multiplied too.
    let emptied = of(&[33, 32]).values(vec![ValueBin::ignore(0, &[Range::Span(0, 255)])]);
    assert_eq!(refusal(&emptied.bytes()).0, 6);
}

/// One point of width 2, one illegal bin, four auto bins: 8 words.
fn small() -> Vec<u8> {
    let point = Point::new(2);
    let bins = vec![ValueBin::illegal(0, &[value(3)])];
    Table::new(vec![point]).values(bins).bytes()
}

const SAMPLE: [u32; 6] = [0, 0, 0, 0, 3, 0];

/// Every call but reset, on one register: their numbers. No word may change.
fn numbers(bytes: &[u8], register: &[u32]) -> Vec<u32> {
    let mut words = register.to_vec();
    let mut report = [UNTOUCHED; 2];
    let numbers = vec![
        register::start(bytes, &mut words),
        register::stop(bytes, &mut words),
        register::sample(bytes, &mut words, &SAMPLE, &mut report),
        register::place_count(bytes, &words, 0).0,
        register::unknown_count(bytes, &words, 0).0,
        register::item_figure(bytes, &words, 0).0,
        register::group_figure(bytes, &words).0,
    ];
    assert_eq!(words, register);
    assert_eq!(report, [UNTOUCHED; 2]);
    numbers
}

#[test]
fn table_numbers_in_every_call() {
    let mut left_over = small();
    left_over.push(0);
    let mut no_points = small();
    no_points[0] = 0;
    let mut wrong_width = small();
    wrong_width[2] = 33;
    // The illegal bin's number, and the first byte of its span.
    let mut wrong_number = small();
    wrong_number[18] = 1;
    let mut wrong_value = small();
    wrong_value[26] = 4;
    let twice = Table::new(vec![Point::new(1); 2]).cross(Cross::new(&[1, 1]));
    let refused = [
        (vec![0; 65_537], 1),
        (small()[..20].to_vec(), 2),
        (no_points, 3),
        (wrong_width, 15),
        (wrong_value, 16),
        (wrong_number, 17),
        (twice.bytes(), 4),
        (left_over, 5),
        (per_value(257).bytes(), 6),
    ];
    for (bytes, number) in refused {
        let register = [7; 9];
        assert_eq!(numbers(&bytes, &register), [number; 7]);
        let mut words = register;
        assert_eq!(register::reset(&bytes, &mut words), number);
        assert_eq!(words, register);
        assert_eq!(register::place_count(&bytes, &register, 0), (number, 0));
        assert_eq!(register::item_figure(&bytes, &register, 0), (number, None));
        assert_eq!(register::group_figure(&bytes, &register), (number, None));
    }
}

#[test]
fn seven_short_register() {
    let bytes = small();
    for length in 0..8 {
        // Words that would be 8 as well.
        let register = vec![9; length];
        assert_eq!(numbers(&bytes, &register), [7; 7]);
        let mut words = register.clone();
        assert_eq!(register::reset(&bytes, &mut words), 7);
        assert_eq!(words, register);
    }
}

#[test]
fn eight_impossible_register() {
    let bytes = small();
    let flag = [2, 5, 0, 0, 0, 0, 0, 0];
    let place = [1, 5, 0, 0, 0, 0, 6, 0];
    let unknown = [0, 5, 0, 0, 0, 0, 0, 6];
    for register in [flag, place, unknown] {
        assert_eq!(numbers(&bytes, &register), [8; 7]);
        assert_eq!(register::place_count(&bytes, &register, 99), (8, 0));
        assert_eq!(register::unknown_count(&bytes, &register, 99), (8, 0));
        assert_eq!(register::item_figure(&bytes, &register, 99), (8, None));
        // Reset does not look.
        let mut words = [register.as_slice(), &[77]].concat();
        assert_eq!(register::reset(&bytes, &mut words), 0);
        assert_eq!(words, [1, 0, 0, 0, 0, 0, 0, 0, 77]);
    }
}

/// Run words and words beyond are not looked at.
#[test]
fn eight_leaves_run_words() {
    let bin = TransitionBin::cover(0, &[sequence(&[1, 2])]);
    let bytes = Table::new(vec![Point::new(2)])
        .transitions(vec![bin])
        .bytes();
    let register = [1, 0, 0, 0, u32::MAX, u32::MAX, 9, 9];
    assert_eq!(register::place_count(&bytes, &register, 0), (0, 0));
    assert_eq!(register::item_figure(&bytes, &register, 0), (0, Some(0.0)));
}

/// Each fault of a sample on top of those that come after it.
#[test]
fn sample_order() {
    let bytes = small();
    let mut register = vec![0, u32::MAX, 0, 0, 0, 0, 0, 0];
    let wide = [0, 0, 0, 0, 4, 0];
    let unknown_wide = [0, 0, 0, 0, 0, 4];
    let call = |register: &mut Vec<u32>, sample: &[u32], report: usize| {
        let before = register.clone();
        let mut words = vec![UNTOUCHED; report];
        let number = register::sample(&bytes, register, sample, &mut words);
        if number != 0 {
            assert_eq!(*register, before);
            assert_eq!(words, vec![UNTOUCHED; report]);
        }
        number
    };
    assert_eq!(call(&mut vec![3; 7], &wide[..5], 0), 7);
    assert_eq!(call(&mut vec![3; 8], &wide[..5], 0), 8);
    for length in [0, 3, 4, 5] {
        assert_eq!(call(&mut register, &wide[..length], 0), 12);
    }
    assert_eq!(call(&mut register, &[0, 0, 0, 0, 4, 0, 0], 0), 12);
    assert_eq!(call(&mut register, &[0, 0, 0, 0, 4, 0, 0, 0], 0), 12);
    assert_eq!(call(&mut register, &wide, 0), 13);
    assert_eq!(call(&mut register, &unknown_wide, 0), 13);
    assert_eq!(call(&mut register, &SAMPLE, 0), 11);
    assert_eq!(call(&mut register, &SAMPLE, 1), 10);
    register[0] = 1;
    assert_eq!(call(&mut register, &SAMPLE, 1), 9);
    register[1] = u32::MAX - 1;
    assert_eq!(call(&mut register, &SAMPLE, 1), 0);
    assert_eq!(register, [1, u32::MAX, 1, 0, 0, 0, 0, 0]);
}

/// 13 is tested whatever the guards say; width 32 has no bit above.
#[test]
fn thirteen_under_a_false_guard() {
    let bytes = Table::new(vec![Point::new(31).guard(0), Point::new(32)]).bytes();
    let words = table::measure(&bytes).words as usize;
    let mut register = vec![0; words];
    assert_eq!(register::reset(&bytes, &mut register), 0);
    let mut sample = [0, 0, 0, 0, 1 << 31, 0, u32::MAX, u32::MAX];
    assert_eq!(
        register::sample(&bytes, &mut register, &sample, &mut []),
        13
    );
    sample[4] = 0;
    sample[5] = 1 << 31;
    assert_eq!(
        register::sample(&bytes, &mut register, &sample, &mut []),
        13
    );
    sample[5] = u32::MAX >> 1;
    assert_eq!(register::sample(&bytes, &mut register, &sample, &mut []), 0);
}

#[test]
fn report_words_after_the_illegal_places_stay() {
    let bytes = small();
    let mut register = [1, 0, 0, 0, 0, 0, 0, 0];
    let mut report = [UNTOUCHED; 3];
    assert_eq!(
        register::sample(&bytes, &mut register, &SAMPLE, &mut report),
        0
    );
    assert_eq!(report, [1, UNTOUCHED, UNTOUCHED]);
    let other = [0, 0, 0, 0, 1, 0];
    assert_eq!(
        register::sample(&bytes, &mut register, &other, &mut report),
        0
    );
    assert_eq!(report, [0, UNTOUCHED, UNTOUCHED]);
}

#[test]
fn fourteen_no_such_thing() {
    let bytes = full().bytes();
    let measure = table::measure(&bytes);
    let mut register = vec![0; measure.words as usize];
    assert_eq!(register::reset(&bytes, &mut register), 0);
    let places = measure.words as usize - 2 - 3 - 11;
    for beyond in [0, 1, usize::MAX - places] {
        assert_eq!(
            register::place_count(&bytes, &register, places + beyond),
            (14, 0)
        );
    }
    for point in [3, 4, usize::MAX] {
        assert_eq!(register::unknown_count(&bytes, &register, point), (14, 0));
    }
    for item in [4, 5, usize::MAX] {
        assert_eq!(register::item_figure(&bytes, &register, item), (14, None));
    }
    assert_eq!(register::place_count(&bytes, &register, places - 1), (0, 0));
    assert_eq!(register::unknown_count(&bytes, &register, 2), (0, 0));
    assert_eq!(register::item_figure(&bytes, &register, 2), (0, Some(0.0)));
    // The cross's ignore bin leaves it no total.
    assert_eq!(register::item_figure(&bytes, &register, 3), (0, None));
}

/// Start and stop where they change nothing; questions of a stopped register.
#[test]
fn start_and_stop() {
    let bin = TransitionBin::cover(0, &[sequence(&[1, 2])]);
    let bytes = Table::new(vec![Point::new(2)])
        .transitions(vec![bin])
        .bytes();
    let mut register = [1, 3, 2, 0, 1, 2, 9];
    assert_eq!(register::start(&bytes, &mut register), 0);
    assert_eq!(register, [1, 3, 2, 0, 1, 2, 9]);
    assert_eq!(register::stop(&bytes, &mut register), 0);
    assert_eq!(register::stop(&bytes, &mut register), 0);
    assert_eq!(register, [0, 3, 2, 0, 1, 2, 9]);
    assert_eq!(register::place_count(&bytes, &register, 0), (0, 2));
    assert_eq!(
        register::group_figure(&bytes, &register),
        (0, Some(100_000_000))
    );
    assert_eq!(register::start(&bytes, &mut register), 0);
    assert_eq!(register, [1, 3, 2, 0, 0, 0, 9]);
}
