//! The static library against this program's register machine, over call lists:
//! on registers just reset, on ones that other hands wrote, short ones and ones
//! with impossible counts; with tables that are refused in between. Numbers,
//! answers, every register word (those beyond too) and every report word.

use compare::calls::{self, Answer, Call, Outcome, UNTOUCHED};
use compare::classes::{classes, Class};
use compare::random::{self, Caller, Rng};
use compare::{hex, table};
use std::collections::BTreeMap;

const LISTS: usize = 60_000;

/// What the lists reached, to show that the comparison is not hollow.
#[derive(Default, Debug)]
struct Reached {
    calls: usize,
    numbers: BTreeMap<u32, usize>,
    samples: usize,
    reported: usize,
    near_last_sample: usize,
    item_figures: usize,
    group_figures: usize,
    refused_tables: usize,
    /// Lists on a table of the class in which a sample was accepted.
    classes: BTreeMap<Class, usize>,
}

/// Both take the call; the answer, or a panic that shows everything.
fn same(bytes: &[u8], words: &mut Vec<u32>, call: &Call, list: usize) -> Outcome {
    let before = words.clone();
    let mut by_library_words = before.clone();
    let expected = calls::on_register(bytes, words, call);
    let answered = calls::on_library(bytes, &mut by_library_words, call);
    assert!(
        answered == expected && by_library_words == *words,
        "list {list}, {call:?}\nlibrary        {answered:?}\nsecond program {expected:?}\n\
         words before   {before:?}\nlibrary        {by_library_words:?}\nsecond program {words:?}\n\
         table {}",
        hex(bytes)
    );
    expected
}

impl Reached {
    fn note(&mut self, call: &Call, before: &[u32], outcome: &Outcome) {
        self.calls += 1;
        *self.numbers.entry(outcome.number).or_default() += 1;
        if outcome.number != 0 {
            return;
        }
        match (call, outcome.answer) {
            (Call::Sample { .. }, _) => {
                self.samples += 1;
                self.reported += usize::from(outcome.report.contains(&1));
                self.near_last_sample += usize::from(before[1] > u32::MAX - 8);
            }
            (_, Answer::Item(Some(figure))) => self.item_figures += usize::from(figure > 0.0),
            (_, Answer::Group(Some(figure))) => self.group_figures += usize::from(figure > 0),
            _ => {}
        }
    }
}

fn run_list(rng: &mut Rng, list: usize, reached: &mut Reached) {
    let drawn = random::table(rng);
    let bytes = drawn.bytes();
    let layout = table::check(&bytes).unwrap();
    let mut words = match rng.below(10) {
        0..=4 => {
            let mut words = vec![UNTOUCHED; layout.words() + rng.below(4)];
            let outcome = same(&bytes, &mut words, &Call::Reset, list);
            assert_eq!(outcome.number, 0);
            words
        }
        _ => random::foreign_register(rng, &layout),
    };
    let length = match rng.below(20) {
        0 => 40,
        _ => 3 + rng.below(9),
    };
    let mut caller = Caller::new(&drawn);
    let samples_before = reached.samples;
    for _ in 0..length {
        let call = caller.call(rng);
        if rng.chance(4) {
            let (damaged, _) = random::damaged(rng, &drawn);
            if let Err(refusal) = table::check(&damaged) {
                let outcome = same(&damaged, &mut words, &call, list);
                assert_eq!(outcome.number, refusal.number);
                *reached.numbers.entry(outcome.number).or_default() += 1;
                reached.refused_tables += 1;
            }
        }
        if rng.chance(2) && words.len() > 1 {
            words[1] = u32::MAX - rng.below(3) as u32;
        }
        let before = words.clone();
        let outcome = same(&bytes, &mut words, &call, list);
        reached.note(&call, &before, &outcome);
    }
    if reached.samples > samples_before {
        for class in classes(&drawn) {
            *reached.classes.entry(class).or_default() += 1;
        }
    }
}

#[test]
fn call_lists_agree() {
    let seed = random::seed();
    println!("COMPARE_SEED={seed:#x}");
    let mut reached = Reached::default();
    for list in 0..LISTS {
        let mut rng = Rng::of_list(seed ^ 0xCA11, list);
        run_list(&mut rng, list, &mut reached);
    }
    println!("{LISTS} lists, {reached:#?}");
    for number in 0..=14 {
        let met = reached.numbers.get(&number).copied().unwrap_or(0);
        assert!(met > 50, "number {number} met only {met} times");
    }
    assert!(reached.samples > 50_000);
    assert!(reached.reported > 5_000);
    assert!(reached.near_last_sample > 200);
    assert!(reached.item_figures > 1_000 && reached.group_figures > 1_000);
    assert!(reached.refused_tables > 5_000);
    for class in Class::ALL {
        let met = reached.classes.get(&class).copied().unwrap_or(0);
        assert!(met > LISTS / 100, "{class:?} in only {met} lists");
    }
}
