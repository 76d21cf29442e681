//! Register machine and book agree on random call lists.

mod common;

use common::Both;
use compare::calls::{self, Call};
use compare::random::{self, Caller, Rng};
use compare::register::{Model, PlaceKind};
use std::collections::BTreeMap;

const LISTS: usize = 12_000;

/// What the lists reached, to show that the comparison is not hollow.
#[derive(Default, Debug)]
struct Reached {
    lists: usize,
    calls: usize,
    numbers: BTreeMap<u32, usize>,
    accepted_samples: usize,
    /// Samples that raised some place of the kind.
    raised: BTreeMap<PlaceKind, usize>,
    reported: usize,
    unknown: usize,
    figures: usize,
    groups: usize,
    restarts: usize,
    run_words: usize,
}

impl Reached {
    fn note(&mut self, kinds: &[PlaceKind], before: &[u32], after: &[u32], number: u32) {
        self.calls += 1;
        *self.numbers.entry(number).or_default() += 1;
        let raised = |place: &usize| after[2 + place] > before[2 + place];
        let mut seen: Vec<PlaceKind> = (0..kinds.len()).filter(raised).map(|p| kinds[p]).collect();
        seen.sort();
        seen.dedup();
        for kind in seen {
            *self.raised.entry(kind).or_default() += 1;
        }
    }
}

fn run_list(rng: &mut Rng, reached: &mut Reached) {
    let table = random::table(rng);
    let mut both = Both::new(&table);
    let model = Model::read(&both.bytes).unwrap();
    let kinds = model.place_kinds();
    let runs = model.layout().runs_at()..model.layout().words();
    let length = match rng.below(20) {
        0 => 60,
        _ => 6 + rng.below(20),
    };
    let list = Caller::new(&table).list(rng, length);
    for call in &list {
        if rng.chance(5) {
            let (bytes, _) = random::damaged(rng, &table);
            if compare::table::check(&bytes).is_err() {
                let number = both.refused_call(&bytes, call);
                *reached.numbers.entry(number).or_default() += 1;
            }
        }
        let before = both.register.clone();
        let mut decoded = before.clone();
        let outcome = both.call(call);
        reached.note(&kinds, &before, &both.register, outcome.number);
        match call {
            Call::Sample { words, report } => {
                let mut report = vec![calls::UNTOUCHED; *report];
                let number = model.sample(&mut decoded, words, &mut report);
                assert_eq!((number, report), (outcome.number, outcome.report.clone()));
                assert_eq!(decoded, both.register);
                let illegal = &outcome.report[..outcome.report.len().min(kinds.len())];
                reached.reported += usize::from(illegal.contains(&1));
                reached.accepted_samples += usize::from(outcome.number == 0);
                let unknowns = model.layout().unknown_at()..model.layout().runs_at();
                let grown = unknowns.clone().any(|at| both.register[at] > before[at]);
                reached.unknown += usize::from(outcome.number == 0 && grown);
            }
            Call::ItemFigure(_) => {
                let some = matches!(outcome.answer, calls::Answer::Item(Some(f)) if f > 0.0);
                reached.figures += usize::from(some);
            }
            Call::GroupFigure => {
                let some = matches!(outcome.answer, calls::Answer::Group(Some(f)) if f > 0);
                reached.groups += usize::from(some);
            }
            Call::Start => reached.restarts += usize::from(before[0] == 0),
            _ => {}
        }
    }
    both.compare_words();
    reached.lists += 1;
    reached.run_words += both.register[runs]
        .iter()
        .filter(|&&word| word != 0)
        .count();
}

#[test]
fn register_and_book_agree() {
    let seed = random::seed();
    println!("COMPARE_SEED={seed:#x}");
    let mut reached = Reached::default();
    for list in 0..LISTS {
        let mut rng = Rng::of_list(seed, list);
        run_list(&mut rng, &mut reached);
    }
    println!("{reached:#?}");
    assert!(reached.lists >= 10_000);
    assert!(reached.accepted_samples > 60_000);
    for kind in [
        PlaceKind::CoverValue,
        PlaceKind::Auto,
        PlaceKind::IllegalValue,
        PlaceKind::Default,
        PlaceKind::CoverTransition,
        PlaceKind::IllegalTransition,
        PlaceKind::CoverCross,
        PlaceKind::IllegalCross,
        PlaceKind::Product,
    ] {
        let raised = reached.raised.get(&kind).copied().unwrap_or(0);
        assert!(raised > 1_000, "{kind:?} raised by only {raised} samples");
    }
    for number in [0, 1, 2, 3, 4, 5, 6, 10, 11, 12, 13, 14] {
        let met = reached.numbers.get(&number).copied().unwrap_or(0);
        assert!(met > 50, "number {number} met only {met} times");
    }
    assert!(reached.reported > 3_000);
    assert!(reached.unknown > 5_000);
    assert!(reached.figures > 500 && reached.groups > 500);
    assert!(reached.restarts > 1_000);
    assert!(reached.run_words > 5_000);
}
