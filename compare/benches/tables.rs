//! Time to measure a table, the library against this program's own check, on the
//! same bytes; both in turn, round by round. Run with the feature `library`.

mod common;

use common::shapes::{others, patterns, per_value, sizes, touching_spans};
use common::{heading, Contest};
use compare::{library, table};
use std::hint::black_box;

fn main() {
    println!("{}", heading("measuring a table", "bytes", false));
    let mut shapes = sizes();
    shapes.push(per_value());
    shapes.extend(others());
    shapes.extend([patterns(500), touching_spans(900)]);
    for shape in shapes {
        let (name, bytes) = (&shape.name, shape.table.bytes());
        assert_eq!(table::measure(&bytes).number, 0, "{name}");
        let contest = Contest {
            pass: 1,
            library: Box::new(|_| {
                black_box(library::measure(black_box(&bytes)));
            }),
            second: Box::new(|_| {
                black_box(table::measure(black_box(&bytes)));
            }),
            compiled: None,
            agree: Box::new(|| {
                assert_eq!(library::measure(&bytes), table::measure(&bytes), "{name}")
            }),
        };
        println!("{}", contest.run().line(name, bytes.len()));
    }
}
