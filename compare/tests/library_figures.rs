//! Figures by the static library, by this program's register machine and by the
//! book, on tables that tangle: every item and the group, on registers in which
//! half of the places are covered, in which a single one is (so that the figure
//! says whether the place is in its item's total), and after samples.

use compare::book::{Fed, Rules};
use compare::calls::{self, Answer, Call};
use compare::classes::{classes, Class};
use compare::hex;
use compare::random::{self, Caller, Rng};
use compare::table::{self, Layout};
use std::collections::BTreeMap;

const TABLES: usize = 1_000;

/// What the tables reached, to show that the comparison is not hollow.
#[derive(Default, Debug)]
struct Reached {
    registers: usize,
    figures: usize,
    absent: usize,
    /// Single places that are in a total, and that are in none.
    in_total: usize,
    not_in_total: usize,
    /// Tables of the class that have a figure above 0.
    classes: BTreeMap<Class, usize>,
}

/// Places that no sample word bounds, those chosen with any at-least reached.
fn covered(layout: &Layout, mut is_chosen: impl FnMut(usize) -> bool) -> Vec<u32> {
    let mut words = vec![0; layout.words()];
    words[0] = 1;
    words[1] = u32::MAX;
    for place in (0..layout.places).filter(|&place| is_chosen(place)) {
        words[2 + place] = u32::MAX;
    }
    words
}

/// All figures by all three; how many items have one above 0.
fn same(
    bytes: &[u8],
    layout: &Layout,
    rules: &Rules,
    words: &[u32],
    reached: &mut Reached,
) -> usize {
    reached.registers += 1;
    let counts = &words[2..2 + layout.places];
    let mut above = 0;
    let items = (0..rules.items()).map(Call::ItemFigure);
    for call in items.chain([Call::GroupFigure]) {
        let mut own = words.to_vec();
        let by_register = calls::on_register(bytes, &mut own, &call);
        let by_library = calls::on_library(bytes, &mut own, &call);
        let by_book = match call {
            Call::ItemFigure(item) => Answer::Item(rules.item_figure(item, counts)),
            _ => Answer::Group(rules.group_figure(counts)),
        };
        assert!(
            own == words && by_library == by_register && by_register.answer == by_book,
            "{call:?}\nlibrary {by_library:?}\nregister {by_register:?}\nbook {by_book:?}\n\
             words {words:?}\ntable {}",
            hex(bytes)
        );
        reached.figures += 1;
        match by_book {
            Answer::Item(Some(figure)) => above += usize::from(figure > 0.0),
            Answer::Item(None) | Answer::Group(None) => reached.absent += 1,
            _ => {}
        }
    }
    above
}

fn run_table(rng: &mut Rng, reached: &mut Reached) {
    let drawn = match rng.below(4) {
        0 => random::table(rng),
        _ => random::tangled(rng),
    };
    let bytes = drawn.bytes();
    // Too many places or products; nothing else is drawn that is refused.
    let Ok(layout) = table::check(&bytes) else {
        return;
    };
    let rules: Fed = Rules::read(&bytes);
    let rules = rules.expect("an accepted table");
    let mut above = 0;
    let half = covered(&layout, |_| rng.chance(50));
    above += same(&bytes, &layout, &rules, &half, reached);
    for _ in 0..2 {
        let single = rng.below(layout.places.max(1));
        let words = covered(&layout, |place| place == single);
        match same(&bytes, &layout, &rules, &words, reached) {
            0 => reached.not_in_total += 1,
            _ => reached.in_total += 1,
        }
    }
    let mut words = vec![0; layout.words()];
    let mut caller = Caller::new(&drawn);
    calls::on_register(&bytes, &mut words, &Call::Reset);
    for _ in 0..10 {
        let sample = Call::Sample {
            words: caller.sample_words(rng),
            report: layout.illegal_places,
        };
        calls::on_register(&bytes, &mut words, &sample);
    }
    above += same(&bytes, &layout, &rules, &words, reached);
    if above > 0 {
        for class in classes(&drawn) {
            *reached.classes.entry(class).or_default() += 1;
        }
    }
}

#[test]
fn figures_agree_on_tangled_tables() {
    let seed = random::seed();
    println!("COMPARE_SEED={seed:#x}");
    let mut reached = Reached::default();
    for list in 0..TABLES {
        run_table(&mut Rng::of_list(seed ^ 0xF16, list), &mut reached);
    }
    println!("{reached:#?}");
    assert!(reached.registers > 3 * TABLES && reached.figures > 10 * TABLES);
    assert!(reached.absent > TABLES / 4);
    assert!(reached.in_total > TABLES / 4 && reached.not_in_total > TABLES / 4);
    for class in Class::ALL {
        let met = reached.classes.get(&class).copied().unwrap_or(0);
        assert!(met > TABLES / 20, "{class:?} in only {met} tables");
    }
}
