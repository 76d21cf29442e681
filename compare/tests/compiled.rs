//! The compiled sampler against the register machine: over random tables and
//! samples, register words, reports and numbers are the same.

use compare::calls::UNTOUCHED;
use compare::compiled::Compiled;
use compare::random::{self, Caller, Rng};
use compare::register::Model;
use compare::table;
use std::collections::BTreeMap;

const TABLES: usize = 8_000;
const SAMPLES: usize = 24;

#[test]
fn compiled_and_register_agree() {
    let seed = random::seed();
    println!("COMPARE_SEED={seed:#x}");
    let mut numbers: BTreeMap<u32, usize> = BTreeMap::new();
    let (mut reported, mut runs, mut wide_patterns) = (0, 0, 0);
    for list in 0..TABLES {
        let mut rng = Rng::of_list(seed ^ 0xC0DE, list);
        let drawn = random::table(&mut rng);
        let bytes = drawn.bytes();
        let model = Model::read(&bytes).unwrap();
        let mut compiled = Compiled::read(&bytes).unwrap();
        let layout = *model.layout();
        let mut words = vec![UNTOUCHED; layout.words() + rng.below(3)];
        assert_eq!(model.reset(&mut words), 0);
        if rng.chance(50) {
            let foreign = random::foreign_register(&mut rng, &layout);
            // The compiled sampler does not look for impossible counts.
            if model.stop(&mut foreign.clone()) != 8 {
                words = foreign;
            }
        }
        let mut caller = Caller::new(&drawn);
        for _ in 0..SAMPLES {
            let mut sample = caller.sample_words(&mut rng);
            match rng.below(100) {
                0 => sample.truncate(rng.below(sample.len())),
                1 => sample[4] = rng.u32(),
                _ => {}
            }
            let length = match rng.chance(2) {
                true => rng.below(layout.illegal_places + 1),
                false => layout.illegal_places + rng.below(2),
            };
            let mut by_model = (words.clone(), vec![UNTOUCHED; length]);
            let mut by_compiled = by_model.clone();
            let expected = model.sample(&mut by_model.0, &sample, &mut by_model.1);
            let number = compiled.sample(&mut by_compiled.0, &sample, &mut by_compiled.1);
            assert!(
                (number, &by_compiled) == (expected, &by_model),
                "table {list}, sample {sample:?}: {number}, not {expected}\n{drawn:?}\n\
                 before   {words:?}\ncompiled {by_compiled:?}\nregister {by_model:?}"
            );
            *numbers.entry(number).or_default() += 1;
            reported += usize::from(number == 0 && by_model.1.contains(&1));
            words = by_model.0;
        }
        let own = layout.runs_at()..layout.words();
        runs += usize::from(
            words
                .get(own)
                .is_some_and(|runs| runs.iter().any(|&w| w != 0)),
        );
        let wide = |bin: &compare::builder::ValueBin| {
            drawn.points[bin.point as usize].width > 12
                && bin
                    .ranges
                    .iter()
                    .any(|r| matches!(r, table::Range::Pattern(..)))
        };
        wide_patterns += usize::from(drawn.value_bins.iter().any(wide));
    }
    println!("{numbers:?}, {reported} reported, {runs} runs, {wide_patterns} wide patterns");
    assert!(numbers[&0] > 100_000);
    for number in [7, 9, 10, 11, 12, 13] {
        assert!(numbers.get(&number).is_some_and(|&n| n > 50), "{number}");
    }
    assert!(reported > 10_000 && runs > 1_000 && wide_patterns > 500);
}
