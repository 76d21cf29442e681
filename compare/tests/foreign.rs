//! Registers that other hands wrote: the words are taken at their word.
//!
//! The expected words come from sets of lengths (for the run words), from the
//! book after a single sample (for bins of values and crosses), and from the
//! book's figures over the register's own counts.

mod common;

use compare::book::{Book, Rules};
use compare::builder::{Kind, Range, Step, Table};
use compare::calls::UNTOUCHED;
use compare::random::{self, Caller, Rng};
use compare::register::{self, Model, PlaceKind};
use compare::table::Layout;
use std::collections::{BTreeMap, BTreeSet};

const REGISTERS: usize = 8_000;

type Lengths = BTreeSet<u32>;

fn lengths(word: u32) -> Lengths {
    (1..=32)
        .filter(|length| word >> (length - 1) & 1 == 1)
        .collect()
}

fn word(lengths: &Lengths) -> u32 {
    lengths.iter().map(|length| 1 << (length - 1)).sum()
}

/// One reading longer; 33 is lost.
fn longer(lengths: &Lengths) -> Lengths {
    lengths.iter().map(|l| l + 1).filter(|&l| l <= 32).collect()
}

fn admits(step: &Step, value: i64) -> bool {
    step.ranges.iter().any(|range| match *range {
        Range::Span(lo, hi) => lo <= value && value <= hi,
        Range::Pattern(bits, mask) => value & mask == bits,
    })
}

/// Lengths at which the step is done.
fn done(step: &Step, run: &[Lengths]) -> Lengths {
    let ready = step.least as usize - 1..step.most as usize;
    run[ready].iter().flatten().copied().collect()
}

/// The next run of a sequence: one set per step and reading in it.
fn next_run(steps: &[Step], run: &[Vec<Lengths>], value: i64) -> Vec<Vec<Lengths>> {
    let mut next = Vec::new();
    for (index, step) in steps.iter().enumerate() {
        let mut words = vec![Lengths::new(); step.most as usize];
        if admits(step, value) {
            words[0] = match index {
                0 => Lengths::from([1]),
                _ => longer(&done(&steps[index - 1], &run[index - 1])),
            };
            for nth in 1..words.len() {
                words[nth] = longer(&run[index][nth - 1]);
            }
        }
        next.push(words);
    }
    next
}

fn guard_true(guard: Option<u8>, sample: &[u32]) -> bool {
    let bits = |word: usize| u64::from(sample[word]) | u64::from(sample[word + 1]) << 32;
    guard.is_none_or(|g| (bits(0) & !bits(2)) >> g & 1 == 1)
}

/// Expected run words after the sample, and the raised transition bins.
fn expected_runs(table: &Table, runs: &[u32], sample: &[u32]) -> (Vec<u32>, Vec<bool>) {
    let mut words = Vec::new();
    let mut matched: Vec<Lengths> = Vec::new();
    let mut at = 0;
    for bin in &table.transition_bins {
        let point = &table.points[bin.point as usize];
        let (bits, unknown) = (
            i64::from(sample[4 + 2 * bin.point as usize]),
            sample[5 + 2 * bin.point as usize],
        );
        let negative = point.signed && bits >> (point.width - 1) & 1 == 1;
        let value = bits - if negative { 1i64 << point.width } else { 0 };
        let mut all = Lengths::new();
        for steps in &bin.sequences {
            let run: Vec<Vec<Lengths>> = steps
                .iter()
                .map(|step| {
                    let own = &runs[at..at + step.most as usize];
                    at += step.most as usize;
                    own.iter().map(|&w| lengths(w)).collect()
                })
                .collect();
            let next = if !guard_true(point.guard, sample) {
                run
            } else if unknown != 0 {
                steps
                    .iter()
                    .map(|s| vec![Lengths::new(); s.most.into()])
                    .collect()
            } else {
                let next = next_run(steps, &run, value);
                all.extend(done(steps.last().unwrap(), next.last().unwrap()));
                next
            };
            words.extend(next.iter().flatten().map(word));
        }
        matched.push(all);
    }
    let bins = || table.transition_bins.iter().zip(&matched);
    let raised = bins().map(|(bin, own)| {
        let taken: Lengths = bins()
            .filter(|(other, _)| other.point == bin.point && other.kind != Kind::Cover)
            .flat_map(|(_, lengths)| lengths.clone())
            .collect();
        let met = match bin.kind {
            Kind::Cover => own.difference(&taken).next().is_some(),
            _ => !own.is_empty(),
        };
        met && guard_true(bin.guard, sample)
    });
    (words, raised.collect())
}

/// 7 and 8 as the rules say them.
fn register_number(layout: &Layout, register: &[u32]) -> u32 {
    if register.len() < layout.words() {
        return 7;
    }
    let impossible = (2..layout.runs_at()).any(|at| register[at] > register[1]);
    if register[0] > 1 || impossible {
        8
    } else {
        0
    }
}

fn check_sample(
    table: &Table,
    register: &[u32],
    sample: &[u32],
    met: &mut BTreeMap<&'static str, usize>,
) -> u32 {
    let bytes = table.bytes();
    let model = Model::read(&bytes).unwrap();
    let layout = model.layout();
    let mut words = register.to_vec();
    let mut report = vec![UNTOUCHED; layout.illegal_places + 1];
    let number = register::sample(&bytes, &mut words, sample, &mut report);
    let expected = match register_number(layout, register) {
        0 if register[0] == 0 => 10,
        0 if register[1] == u32::MAX => 9,
        number => number,
    };
    assert_eq!(number, expected);
    if number != 0 {
        assert_eq!(words, register);
        assert!(report.iter().all(|&word| word == UNTOUCHED));
        return number;
    }
    // Bins of values and crosses do not look at the run words.
    let rules = Rules::read(&bytes);
    let mut book = Book::new();
    let mut ignored = vec![UNTOUCHED; layout.illegal_places + 1];
    assert_eq!(book.sample(&rules, sample, &mut ignored), 0);
    let fresh = book.words(rules.as_ref().unwrap());
    let runs = layout.runs_at()..layout.words();
    let (run_words, raised) = expected_runs(table, &register[runs.clone()], sample);
    let mut expected = register.to_vec();
    expected[1] += 1;
    let kinds = model.place_kinds();
    let mut cover_and_illegal = transition_order(table).into_iter();
    let mut expected_report = Vec::new();
    for (place, kind) in kinds.iter().enumerate() {
        let is_transition = matches!(
            kind,
            PlaceKind::CoverTransition | PlaceKind::IllegalTransition
        );
        let grown = match is_transition {
            true => raised[cover_and_illegal.next().unwrap()],
            false => fresh[2 + place] == 1,
        };
        if is_transition && grown {
            *met.entry("transition").or_default() += 1;
        }
        expected[2 + place] += u32::from(grown);
        if kind.is_illegal() {
            expected_report.push(u32::from(grown));
        }
    }
    for unknown in layout.unknown_at()..layout.runs_at() {
        expected[unknown] += fresh[unknown];
    }
    expected[runs].copy_from_slice(&run_words);
    expected_report.push(UNTOUCHED);
    assert_eq!(words, expected, "table {}", compare::hex(&bytes));
    assert_eq!(report, expected_report);
    0
}

/// Cover and illegal transition bins in place order.
fn transition_order(table: &Table) -> Vec<usize> {
    let bins = &table.transition_bins;
    let mut order: Vec<usize> = (0..bins.len()).collect();
    order.retain(|&bin| bins[bin].kind != Kind::Ignore);
    order.sort_by_key(|&bin| bins[bin].point);
    order
}

/// Questions, start and stop on a foreign register.
fn check_others(table: &Table, register: &[u32], met: &mut BTreeMap<&'static str, usize>) {
    let bytes = table.bytes();
    let rules = Rules::read(&bytes).ok().unwrap();
    let layout = compare::table::check(&bytes).unwrap();
    let number = register_number(&layout, register);
    let mut started = register.to_vec();
    let mut stopped = register.to_vec();
    assert_eq!(register::start(&bytes, &mut started), number);
    assert_eq!(register::stop(&bytes, &mut stopped), number);
    for item in 0..rules.items() {
        let (answered, figure) = register::item_figure(&bytes, register, item);
        let expected = match number {
            0 => rules.item_figure(item, &register[2..2 + layout.places]),
            _ => None,
        };
        assert_eq!((answered, figure), (number, expected));
    }
    let expected = match number {
        0 => rules.group_figure(&register[2..2 + layout.places]),
        _ => None,
    };
    assert_eq!(register::group_figure(&bytes, register), (number, expected));
    if expected.is_some_and(|figure| figure > 0) {
        *met.entry("group figure").or_default() += 1;
    }
    if number != 0 {
        assert_eq!((&started[..], &stopped[..]), (register, register));
        return;
    }
    let mut expected = register.to_vec();
    expected[0] = 0;
    assert_eq!(stopped, expected);
    expected[0] = 1;
    if register[0] == 0 {
        expected[layout.runs_at()..layout.words()].fill(0);
        *met.entry("restart").or_default() += 1;
    }
    assert_eq!(started, expected);
}

#[test]
fn foreign_registers() {
    let seed = random::seed() ^ 0xF0E1;
    println!("COMPARE_SEED={:#x}", random::seed());
    let mut met: BTreeMap<&'static str, usize> = BTreeMap::new();
    let mut numbers: BTreeMap<u32, usize> = BTreeMap::new();
    for index in 0..REGISTERS {
        let mut rng = Rng::new(
            seed.wrapping_add(index as u64)
                .wrapping_mul(0x9E37_79B9_7F4A_7C15),
        );
        let table = random::table(&mut rng);
        let layout = compare::table::check(&table.bytes()).unwrap();
        let mut register = random::foreign_register(&mut rng, &layout);
        let mut caller = Caller::new(&table);
        check_others(&table, &register, &mut met);
        for _ in 0..3 {
            let sample = caller.sample_words(&mut rng);
            let number = check_sample(&table, &register, &sample, &mut met);
            *numbers.entry(number).or_default() += 1;
            let mut report = vec![0; layout.illegal_places];
            register::sample(&table.bytes(), &mut register, &sample, &mut report);
        }
    }
    println!("{numbers:?} {met:?}");
    for number in [0, 7, 8, 9, 10] {
        assert!(numbers.get(&number).is_some_and(|&n| n > 300), "{number}");
    }
    for what in ["transition", "group figure", "restart"] {
        assert!(met.get(what).is_some_and(|&n| n > 300), "{what}");
    }
}
