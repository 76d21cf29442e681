//! A batch against the same samples one by one: on the register machine, on the
//! book and, with the feature `library`, on the library itself; each batch also
//! between these three. Random batches with samples refused in the middle, words
//! cut anywhere, short reports and no words; on registers just reset, stopped,
//! full, short or impossible, and with refused tables.

mod common;

use common::Both;
use compare::calls::{self, Answer, Call, Outcome, UNTOUCHED};
use compare::random::{self, Caller, Rng};
use compare::{hex, table};
use std::collections::BTreeMap;

const LISTS: usize = 6_000;
const FOREIGN: usize = 12_000;

/// What the batches reached, to show that the comparison is not hollow.
#[derive(Default, Debug)]
struct Reached {
    numbers: BTreeMap<u32, usize>,
    empty: usize,
    taken: usize,
    refused_after_some: BTreeMap<u32, usize>,
    reported: usize,
    beyond: usize,
}

impl Reached {
    fn note(&mut self, call: &Call, outcome: &Outcome) {
        let (Call::Samples { words, .. }, Answer::Taken(taken)) = (call, outcome.answer) else {
            panic!("{call:?} {outcome:?}");
        };
        *self.numbers.entry(outcome.number).or_default() += 1;
        self.empty += usize::from(words.is_empty());
        self.taken += taken;
        if outcome.number != 0 && taken > 0 {
            *self.refused_after_some.entry(outcome.number).or_default() += 1;
        }
        self.reported += usize::from(outcome.report.contains(&1));
        self.beyond += usize::from(outcome.report.contains(&UNTOUCHED));
    }
}

/// What a table says of a batch: words of a sample, words of a report.
#[derive(Clone, Copy, Debug)]
struct Sizes {
    sample: usize,
    illegal: usize,
}

impl Sizes {
    fn of(bytes: &[u8]) -> Sizes {
        let layout = table::check(bytes).unwrap();
        Sizes {
            sample: 4 + 2 * layout.points,
            illegal: layout.illegal_places,
        }
    }
}

/// The batch as single calls: the i-th has the reports from i x illegal places to
/// their end. With no words only the table and the register are tested.
fn one_by_one(sizes: Sizes, batch: &Call, mut single: impl FnMut(&Call) -> Outcome) -> Outcome {
    let Call::Samples { words, reports } = batch else {
        panic!("{batch:?}");
    };
    let mut report = vec![UNTOUCHED; *reports];
    let (mut number, mut taken) = (0, 0);
    if words.is_empty() {
        number = single(&Call::GroupFigure).number;
    }
    for sample in words.chunks(sizes.sample) {
        let begin = taken * sizes.illegal;
        let outcome = single(&Call::Sample {
            words: sample.to_vec(),
            report: report.len() - begin,
        });
        report[begin..].copy_from_slice(&outcome.report);
        number = outcome.number;
        if number != 0 {
            break;
        }
        taken += 1;
    }
    let answer = Answer::Taken(taken);
    Outcome {
        number,
        answer,
        report,
    }
}

type Machine = fn(&[u8], &mut [u32], &Call) -> Outcome;

const MACHINES: &[(&str, Machine)] = &[
    ("register", calls::on_register),
    #[cfg(feature = "library")]
    ("library", calls::on_library),
];

/// Every machine, by one call and one by one, answers and leaves what the register
/// machine does by one call; or a panic that shows everything.
fn alike(bytes: &[u8], sizes: Sizes, before: &[u32], batch: &Call) -> (Outcome, Vec<u32>) {
    let mut words = before.to_vec();
    let expected = calls::on_register(bytes, &mut words, batch);
    let same = |what: &str, outcome: Outcome, own: Vec<u32>| {
        assert!(
            outcome == expected && own == words,
            "{what}, {batch:?}\nanswered {outcome:?}\nexpected {expected:?}\n\
             words before {before:?}\nafter {own:?}\nexpected {words:?}\ntable {}",
            hex(bytes)
        );
    };
    for (name, machine) in MACHINES {
        let mut own = before.to_vec();
        let outcome = machine(bytes, &mut own, batch);
        same(&format!("{name}, one call"), outcome, own);
        let mut own = before.to_vec();
        let outcome = one_by_one(sizes, batch, |call| machine(bytes, &mut own, call));
        same(&format!("{name}, one by one"), outcome, own);
    }
    (expected, words)
}

/// Batches among other calls after a reset: register, book and library alike.
#[test]
fn batches_in_call_lists() {
    let seed = random::seed();
    println!("COMPARE_SEED={seed:#x}");
    let mut reached = Reached::default();
    for list in 0..LISTS {
        let mut rng = Rng::of_list(seed ^ 0xBA7C, list);
        let drawn = random::table(&mut rng);
        let mut both = Both::new(&drawn);
        let sizes = Sizes::of(&both.bytes);
        let mut caller = Caller::new(&drawn);
        for _ in 0..2 + rng.below(6) {
            if rng.chance(40) {
                both.call(&caller.call(&mut rng));
                continue;
            }
            let batch = caller.batch(&mut rng);
            let before = both.register.clone();
            let outcome = both.call(&batch);
            let (expected, words) = alike(&both.bytes, sizes, &before, &batch);
            assert_eq!((&outcome, &both.register), (&expected, &words));
            reached.note(&batch, &outcome);
        }
        both.compare_words();
    }
    println!("{LISTS} lists, {reached:#?}");
    for number in [0, 10, 11, 12, 13] {
        let met = reached.numbers.get(&number).copied().unwrap_or(0);
        assert!(met > 50, "number {number} met only {met} times");
    }
    for number in [11, 12, 13] {
        let met = reached.refused_after_some.get(&number).copied();
        assert!(met > Some(50), "number {number} after some: {met:?}");
    }
    assert!(reached.empty > 500 && reached.taken > 10_000);
    assert!(reached.reported > 500 && reached.beyond > 500);
}

/// Batches on registers that other hands wrote, and with refused tables.
#[test]
fn batches_on_foreign_registers() {
    let seed = random::seed();
    println!("COMPARE_SEED={seed:#x}");
    let mut reached = Reached::default();
    for list in 0..FOREIGN {
        let mut rng = Rng::of_list(seed ^ 0xF0BA, list);
        let drawn = random::table(&mut rng);
        let bytes = drawn.bytes();
        let sizes = Sizes::of(&bytes);
        let layout = table::check(&bytes).unwrap();
        let before = random::foreign_register(&mut rng, &layout);
        let batch = Caller::new(&drawn).batch(&mut rng);
        let (outcome, _) = alike(&bytes, sizes, &before, &batch);
        reached.note(&batch, &outcome);
        if rng.chance(20) {
            let (damaged, _) = random::damaged(&mut rng, &drawn);
            if let Err(refusal) = table::check(&damaged) {
                let (outcome, words) = alike(&damaged, sizes, &before, &batch);
                assert_eq!(outcome.number, refusal.number);
                assert_eq!((outcome.answer, words), (Answer::Taken(0), before));
                *reached.numbers.entry(outcome.number).or_default() += 1;
            }
        }
    }
    println!("{FOREIGN} batches, {reached:#?}");
    for number in (0..=13).filter(|number| *number != 1) {
        let met = reached.numbers.get(&number).copied().unwrap_or(0);
        assert!(met > 10, "number {number} met only {met} times");
    }
    // A register that is full after the batch's first samples.
    assert!(reached.refused_after_some.get(&9).copied() > Some(10));
}

/// Three samples cut at every word, with reports of every length; and the same
/// samples as two batches, cut between any two of them.
#[test]
fn every_cut() {
    for list in 0..40 {
        let mut rng = Rng::of_list(0xC07, list);
        let mut drawn = std::iter::repeat_with(|| random::small(&mut rng));
        let drawn = drawn.find(|drawn| table::check(&drawn.bytes()).is_ok());
        let drawn = drawn.unwrap();
        let bytes = drawn.bytes();
        let sizes = Sizes::of(&bytes);
        let mut caller = Caller::new(&drawn);
        let words: Vec<u32> = (0..3).flat_map(|_| caller.sample_words(&mut rng)).collect();
        let mut register = vec![UNTOUCHED; table::check(&bytes).unwrap().words()];
        assert_eq!(
            calls::on_register(&bytes, &mut register, &Call::Reset).number,
            0
        );
        let batch = |words: &[u32], reports: usize| Call::Samples {
            words: words.to_vec(),
            reports,
        };
        for reports in 0..=3 * sizes.illegal {
            for end in 0..=words.len() {
                alike(&bytes, sizes, &register, &batch(&words[..end], reports));
            }
        }
        let room = 3 * sizes.illegal;
        let (all, end) = alike(&bytes, sizes, &register, &batch(&words, room));
        assert_eq!((all.number, all.answer), (0, Answer::Taken(3)));
        for taken in 0..=3 {
            let (front, back) = words.split_at(taken * sizes.sample);
            let (first, mid) = alike(&bytes, sizes, &register, &batch(front, room));
            assert_eq!((first.number, first.answer), (0, Answer::Taken(taken)));
            let left = room - taken * sizes.illegal;
            let (second, last) = alike(&bytes, sizes, &mid, &batch(back, left));
            assert_eq!(
                (second.number, second.answer),
                (0, Answer::Taken(3 - taken))
            );
            assert_eq!(last, end);
            let own = &first.report[..taken * sizes.illegal];
            assert_eq!([own, &second.report].concat(), all.report);
        }
    }
}
