//! The static library against this program, on tables: valid ones, ones with
//! each field, count and relation broken, cut, over-long, with bytes left over,
//! and bytes drawn at random. A mismatch is shown in full.

mod common;

use common::{four, full, FAULTS};
use compare::builder::Written;
use compare::random::{self, Rng, Spoiled};
use compare::table::{self, RECORD_SIZE};
use compare::{hex, library};
use std::collections::{BTreeMap, BTreeSet};

const TABLES: usize = 120_000;

fn rng(salt: u64) -> Rng {
    println!("COMPARE_SEED={:#x}", random::seed());
    Rng::new(random::seed() ^ salt)
}

/// Measures the table and asks for some sections, by both; the number.
fn same(bytes: &[u8], what: &str, sections: std::ops::RangeInclusive<u32>) -> u32 {
    let expected = table::measure(bytes);
    let measured = library::measure(bytes);
    assert_eq!(
        measured,
        expected,
        "{what}\nmeasure of {} bytes: library left, second program right\n{}",
        bytes.len(),
        hex(bytes)
    );
    for number in sections {
        let part = library::section(bytes, number);
        assert_eq!(
            part,
            (expected.number, table::section(bytes, number)),
            "{what}\nsection {number}: library left, second program right\n{}",
            hex(bytes)
        );
    }
    expected.number
}

/// The section, 1 to 10, in whose count or records the byte stands, and where in
/// the record it stands, if not in the count; the walk stops where the counts run
/// out.
fn section_of(bytes: &[u8], place: usize) -> (usize, Option<usize>) {
    let mut at = 0;
    for (section, size) in RECORD_SIZE.iter().enumerate().skip(1) {
        let count = match bytes.get(at..at + 2) {
            Some(count) => usize::from(count[0]) + 256 * usize::from(count[1]),
            None => return (section, None),
        };
        let end = at + 2 + count * size;
        if place < end || section == 10 {
            return (
                section,
                place.checked_sub(at + 2).map(|in_all| in_all % size),
            );
        }
        at = end;
    }
    unreachable!("the tenth section is the last")
}

/// The field that stands there in a record of the section; else its count.
fn name_of(written: &Written, section: usize, at: Option<usize>) -> &'static str {
    let Some(at) = at else { return "count" };
    let place = written.record(section, 0) + at;
    let field = written.fields.iter().find(|f| f.place == place);
    field.expect("a fault where a field begins").name
}

fn drawn(rng: &mut Rng) -> (Vec<u8>, String) {
    match rng.below(20) {
        0 => {
            let length = rng.below(200);
            let bytes = (0..length).map(|_| rng.u64() as u8).collect();
            (bytes, "random bytes".into())
        }
        1 => {
            let length = rng.below(400);
            let small = |rng: &mut Rng| match rng.chance(70) {
                true => rng.below(3) as u8,
                false => rng.u64() as u8,
            };
            let bytes = (0..length).map(|_| small(rng)).collect();
            (bytes, "random small bytes".into())
        }
        2 | 3 => (random::table(rng).bytes(), "valid".into()),
        4 => (random::near_limit(rng).bytes(), "near a limit".into()),
        _ => {
            let table = match rng.below(10) {
                0 => random::near_limit(rng),
                1..=4 => random::crossed(rng),
                _ => random::small(rng),
            };
            random::damaged(rng, &table)
        }
    }
}

#[test]
fn tables_agree() {
    let mut rng = rng(11);
    let full = full().written();
    let mut numbers: BTreeMap<u32, usize> = BTreeMap::new();
    let mut sections: BTreeMap<(u32, usize), usize> = BTreeMap::new();
    let mut fields: BTreeMap<(u32, usize, &str), usize> = BTreeMap::new();
    for _ in 0..TABLES {
        let (bytes, what) = drawn(&mut rng);
        let asked = rng.below(13) as u32;
        let number = same(&bytes, &what, asked..=asked);
        *numbers.entry(number).or_default() += 1;
        let (section, at) = section_of(&bytes, table::measure(&bytes).place);
        match number {
            2 | 4 => *sections.entry((number, section)).or_default() += 1,
            3 | 15..=17 => {
                let name = name_of(&full, section, at);
                *fields.entry((number, section, name)).or_default() += 1;
            }
            _ => {}
        }
    }
    println!("{numbers:?}\n{sections:?}\n{fields:?}");
    for number in [0, 1, 2, 3, 4, 5, 6, 15, 16, 17] {
        assert!(numbers.get(&number).is_some_and(|&n| n > 100), "{number}");
    }
    for section in 1..=10 {
        let met = sections.get(&(2, section)).copied().unwrap_or(0);
        assert!(met > 20, "2 in section {section}: {met}");
    }
    assert_eq!(
        fields.keys().copied().collect::<BTreeSet<_>>(),
        BTreeSet::from(FAULTS)
    );
    // 4 is tested at the owned counts and at the records that can disagree.
    for section in [2, 3, 5, 6, 7, 8, 9, 10] {
        let met = sections.get(&(4, section)).copied().unwrap_or(0);
        assert!(met > 20, "4 in section {section}: {met}");
    }
}

/// Each field of some tables with each edge value, and each cut. Each count and
/// field causes at its own place the numbers that it can cause, and no others.
#[test]
fn every_fault_agrees() {
    let mut rng = rng(12);
    let mut tables = vec![full(), four()];
    tables.extend((0..12).map(|_| random::crossed(&mut rng)));
    let mut faults = 0;
    let mut met: BTreeMap<(u32, usize, &str), usize> = BTreeMap::new();
    for Spoiled { bytes, what, field } in tables.iter().flat_map(random::every_fault) {
        let number = same(&bytes, &what, 1..=1);
        let place = library::measure(&bytes).place;
        if let (3 | 15..=17, Some(field)) = (number, field.filter(|f| f.place == place)) {
            *met.entry((number, field.section, field.name)).or_default() += 1;
        }
        faults += 1;
    }
    println!("{faults} faults\n{met:?}");
    assert_eq!(
        met.keys().copied().collect::<BTreeSet<_>>(),
        BTreeSet::from(FAULTS)
    );
    assert!(faults > 10_000);
}

/// All sections of valid tables, numbers outside 1 to 10, and over-long tables.
#[test]
fn sections_agree() {
    let mut rng = rng(13);
    for _ in 0..2_000 {
        let bytes = random::table(&mut rng).bytes();
        same(&bytes, "valid", 0..=12);
    }
    let bytes = random::table(&mut rng).bytes();
    same(&bytes, "valid", u32::MAX..=u32::MAX);
    for length in [65_535, 65_536, 65_537, 70_000] {
        let mut long = bytes.clone();
        long.resize(length, 0);
        same(&long, "over-long", 0..=11);
    }
    same(&[], "empty", 0..=11);
}
