//! The table reader on random and damaged tables, and the book's two ways of
//! holding a bin's values.

use compare::book::{Book, Rules};
use compare::random::{self, Caller, Rng, Spoiled};
use compare::table::{self, RECORD_SIZE};
use std::collections::BTreeMap;

fn rng(salt: u64) -> Rng {
    println!("COMPARE_SEED={:#x}", random::seed());
    Rng::new(random::seed() ^ salt)
}

/// The ten parts and their counts are the whole table.
#[test]
fn sections_make_up_the_table() {
    let mut rng = rng(1);
    for _ in 0..2_000 {
        let bytes = random::table(&mut rng).bytes();
        let mut whole = Vec::new();
        for number in 1..=10 {
            let part = table::section(&bytes, number);
            let count = part.len() / RECORD_SIZE[number as usize];
            whole.extend((count as u16).to_le_bytes());
            whole.extend(part);
        }
        assert_eq!(whole, bytes);
    }
}

/// Damaged tables of all kinds: the same number by every way of asking, the
/// fault inside the table, and each number of a table met.
#[test]
fn damaged_tables() {
    let mut rng = rng(2);
    let mut numbers: BTreeMap<u32, usize> = BTreeMap::new();
    for _ in 0..60_000 {
        let (bytes, what) = {
            let table = match rng.chance(5) {
                true => random::near_limit(&mut rng),
                false => random::small(&mut rng),
            };
            random::damaged(&mut rng, &table)
        };
        let number = match table::check(&bytes) {
            Ok(layout) => {
                let measure = table::measure(&bytes);
                assert_eq!(
                    (measure.number, measure.words),
                    (0, layout.words() as u32),
                    "{what}"
                );
                0
            }
            Err(refusal) => {
                assert!(refusal.place <= bytes.len(), "{what}");
                let measure = table::measure(&bytes);
                assert_eq!(
                    (measure.number, measure.place),
                    (refusal.number, refusal.place)
                );
                assert_eq!(table::decode(&bytes), Err(refusal));
                refusal.number
            }
        };
        *numbers.entry(number).or_default() += 1;
    }
    println!("{numbers:?}");
    for number in [0, 1, 2, 3, 4, 5, 6, 15, 16, 17] {
        assert!(numbers.get(&number).is_some_and(|&n| n > 50), "{number}");
    }
}

/// Every cut is 2; every field with every edge value is read without harm.
#[test]
fn every_fault() {
    let mut rng = rng(5);
    let mut faults = 0;
    for _ in 0..20 {
        let table = random::small(&mut rng);
        if table::check(&table.bytes()).is_err() {
            continue;
        }
        for Spoiled { bytes, what, .. } in random::every_fault(&table) {
            faults += 1;
            let refusal = table::check(&bytes).err();
            assert_eq!(table::decode(&bytes).err(), refusal, "{what}");
            if what.starts_with("cut") {
                assert_eq!(refusal.map(|r| r.number), Some(2), "{what}");
            }
        }
    }
    println!("{faults} faults");
    assert!(faults > 10_000);
}

/// A fault depends on nothing after it: what follows the record or count at
/// fault may be anything, and cutting the table there gives 2 or the fault.
#[test]
fn front_to_back() {
    let mut rng = rng(3);
    let mut cut = 0;
    for _ in 0..20_000 {
        let table = random::small(&mut rng);
        let (mut bytes, what) = random::damaged(&mut rng, &table);
        let Err(refusal) = table::check(&bytes) else {
            continue;
        };
        if !matches!(refusal.number, 3 | 4 | 15..=17) {
            continue;
        }
        // The shortest front that already has the fault.
        let shows = |length: &usize| table::check(&bytes[..*length]) == Err(refusal);
        let front = (refusal.place..=bytes.len()).find(shows).expect(&what);
        assert!(front <= refusal.place + 20, "{what}");
        for length in 0..front {
            let number = table::check(&bytes[..length]).unwrap_err().number;
            assert_eq!(number, 2, "{what} cut to {length}");
        }
        for byte in &mut bytes[front..] {
            *byte = rng.u64() as u8;
        }
        assert_eq!(table::check(&bytes), Err(refusal), "{what}");
        cut += 1;
    }
    println!("{cut} faults");
    assert!(cut > 5_000);
}

/// Listing values one by one and cutting spans give the same register.
#[test]
fn listed_and_spread_values_agree() {
    let mut rng = rng(4);
    let mut figures = 0;
    for _ in 0..1_500 {
        let table = random::table(&mut rng);
        let bytes = table.bytes();
        let by_width = [0, 10, 16].map(|width| Rules::read_listing(&bytes, width));
        let mut caller = Caller::new(&table);
        let mut books = [Book::new(), Book::new(), Book::new()];
        for _ in 0..4 {
            let sample = caller.sample_words(&mut rng);
            for (book, rules) in books.iter_mut().zip(&by_width) {
                let mut report = vec![0; rules.as_ref().ok().unwrap().illegal_places()];
                assert_eq!(book.sample(rules, &sample, &mut report), 0);
            }
        }
        let answers: Vec<(Vec<u32>, Vec<Option<f64>>)> = books
            .iter()
            .zip(&by_width)
            .map(|(book, rules)| {
                let items = 0..rules.as_ref().ok().unwrap().items();
                let figures = items.map(|item| book.item_figure(rules, item).1).collect();
                (book.words(rules.as_ref().ok().unwrap()), figures)
            })
            .collect();
        assert_eq!(answers[0], answers[1], "table {}", compare::hex(&bytes));
        assert_eq!(answers[2], answers[1], "table {}", compare::hex(&bytes));
        figures += answers[0].1.len();
    }
    assert!(figures > 1_500);
}
