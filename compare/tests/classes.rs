//! The hard classes are a good share of the tables that the comparison draws.

use compare::classes::{classes, Class};
use compare::random::{self, Rng};
use std::collections::BTreeMap;

const TABLES: usize = 20_000;

#[test]
fn every_class_is_frequent() {
    let seed = random::seed();
    println!("COMPARE_SEED={seed:#x}");
    let mut met: BTreeMap<Class, usize> = BTreeMap::new();
    for list in 0..TABLES {
        let table = random::table(&mut Rng::of_list(seed ^ 0xC1A5, list));
        for class in classes(&table) {
            *met.entry(class).or_default() += 1;
        }
    }
    let share = |class: &Class| {
        let met = met.get(class).copied().unwrap_or(0);
        100.0 * met as f64 / TABLES as f64
    };
    for class in &Class::ALL {
        println!("{class:?}: {:.1} %", share(class));
    }
    for class in &Class::ALL {
        let least = match class {
            Class::HundredsExcluded => 1.5,
            _ => 4.0,
        };
        assert!(share(class) >= least, "{class:?}: {:.1} %", share(class));
    }
}
