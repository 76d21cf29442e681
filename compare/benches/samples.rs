//! Time of one sample, the library against this program's direct sampler, which
//! checks the table and the register at every call as the library does, and
//! against the compiled sampler, for which the table is compiled beforehand and
//! which does not look at all counts again. All on the same words, in turn, round
//! by round. Run with the feature `library`.

mod common;

use common::shapes::{others, sizes, Shape};
use common::{grown, heading, Contest};
use compare::compiled::Compiled;
use compare::{library, register, table};
use std::cell::RefCell;
use std::hint::black_box;

/// A register and its report.
type Lent = RefCell<(Vec<u32>, Vec<u32>)>;

/// Prints the line; the library's seconds for one sample.
fn measured(shape: &Shape) -> f64 {
    let (name, bytes) = (&shape.name, shape.table.bytes());
    let measure = table::measure(&bytes);
    assert_eq!(measure.number, 0, "{name}");
    let samples = shape.samples();
    let mut compiled = Compiled::read(&bytes).expect("an accepted table");
    let lent = || -> Lent {
        let mut words = vec![0; measure.words as usize];
        register::reset(&bytes, &mut words);
        RefCell::new((words, vec![0; measure.illegal_places as usize]))
    };
    let [ours, theirs, third] = [lent(), lent(), lent()];
    let contest = Contest {
        pass: samples.len(),
        library: Box::new(|index| {
            let (words, report) = &mut *ours.borrow_mut();
            let sample = black_box(&samples[index % samples.len()]);
            assert_eq!(library::sample(&bytes, words, sample, report), 0);
        }),
        second: Box::new(|index| {
            let (words, report) = &mut *theirs.borrow_mut();
            let sample = black_box(&samples[index % samples.len()]);
            assert_eq!(register::sample(&bytes, words, sample, report), 0);
        }),
        compiled: Some(Box::new(|index| {
            let (words, report) = &mut *third.borrow_mut();
            let sample = black_box(&samples[index % samples.len()]);
            assert_eq!(compiled.sample(words, sample, report), 0);
        })),
        agree: Box::new(|| {
            assert!(ours == theirs, "{name}");
            assert!(third == theirs, "{name}, compiled");
        }),
    };
    let times = contest.run();
    println!("{}", times.line(name, bytes.len()));
    times.seconds()
}

fn main() {
    println!("{}", heading("one sample", "bytes", true));
    for shape in sizes().iter().chain(&others()) {
        measured(shape);
    }
    grown(&mut measured);
}
