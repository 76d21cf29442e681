//! Time of a batch of 256 samples, the library in one call against the compiled
//! sampler, sample by sample, for which the table is compiled beforehand and which
//! does not look at all counts again. On the same words, in turn, round by round.
//! Run with the feature `library`.

mod common;

use common::shapes::{others, sizes, Shape};
use common::Contest;
use compare::compiled::Compiled;
use compare::{library, register, table};
use std::cell::RefCell;
use std::hint::black_box;

const SAMPLES: usize = 256;

fn measured(shape: &Shape) {
    let (name, bytes) = (&shape.name, shape.table.bytes());
    let measure = table::measure(&bytes);
    assert_eq!(measure.number, 0, "{name}");
    let singles = shape.samples();
    let words = singles[0].len();
    let batch: Vec<u32> = (0..SAMPLES)
        .flat_map(|index| singles[index % singles.len()].clone())
        .collect();
    let mut compiled = Compiled::read(&bytes).expect("an accepted table");
    let report = measure.illegal_places as usize;
    let lent = || {
        let mut words = vec![0; measure.words as usize];
        register::reset(&bytes, &mut words);
        RefCell::new((words, vec![0; report * SAMPLES]))
    };
    let [ours, theirs] = [lent(), lent()];
    let contest = Contest {
        pass: 1,
        library: Box::new(|_| {
            let (words, reports) = &mut *ours.borrow_mut();
            let batch = black_box(&batch);
            let taken = library::samples(&bytes, words, batch, reports);
            assert_eq!(taken, (0, SAMPLES));
        }),
        second: Box::new(|_| {
            let (register, reports) = &mut *theirs.borrow_mut();
            for (index, sample) in black_box(&batch).chunks(words).enumerate() {
                let report = &mut reports[index * report..][..report];
                assert_eq!(compiled.sample(register, sample, report), 0);
            }
        }),
        compiled: None,
        agree: Box::new(|| assert!(ours == theirs, "{name}")),
    };
    println!("{}", contest.run().line(name, bytes.len()));
}

fn main() {
    println!(
        "Microseconds of {SAMPLES} samples: the smallest and the largest of the rounds, in each of which the programs ran in turn.\n\
         The ratio is that of the smallest, the library's batch over the compiled sampler.\n\
         {:<24} {:>7} {:>24} {:>24} {:>8} {:>7}",
        "table", "bytes", "library, one call", "compiled sampler", "ratio", "rounds"
    );
    for shape in sizes().iter().chain(&others()) {
        measured(shape);
    }
}
