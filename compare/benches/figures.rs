//! Time of one group figure, the library against this program, which checks the
//! table and the register at every call as the library does; on the same words,
//! in turn, round by round. Run with the feature `library`.

mod common;

use common::shapes::{others, sizes, Shape};
use common::{grown, heading, Contest};
use compare::{library, register};
use std::cell::Cell;
use std::hint::black_box;

/// Prints the line; the library's seconds for one figure.
fn measured(shape: &Shape) -> f64 {
    let (name, bytes) = (&shape.name, shape.table.bytes());
    let model = register::Model::read(&bytes).expect("an accepted table");
    let mut words = vec![0; model.layout().words()];
    let mut report = vec![0; model.layout().illegal_places];
    model.reset(&mut words);
    for sample in shape.samples() {
        assert_eq!(model.sample(&mut words, &sample, &mut report), 0);
    }
    let (ours, theirs) = (Cell::new((0, None)), Cell::new((0, None)));
    let contest = Contest {
        pass: 1,
        library: Box::new(|_| ours.set(library::group_figure(black_box(&bytes), &words))),
        second: Box::new(|_| theirs.set(register::group_figure(black_box(&bytes), &words))),
        compiled: None,
        agree: Box::new(|| assert_eq!(ours.get(), theirs.get(), "{name}")),
    };
    let times = contest.run();
    println!("{}", times.line(name, bytes.len()));
    times.seconds()
}

fn main() {
    println!("{}", heading("one group figure", "bytes", false));
    for shape in sizes().iter().chain(&others()) {
        measured(shape);
    }
    grown(&mut measured);
}
