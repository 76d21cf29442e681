//! The library under comparison, as C calls it: what a refused call writes is seen too.

use crate::table::Measure;
use fluviquen::raw;
pub use fluviquen::raw::{place_count, reset, sample, samples, start, stop, unknown_count};

pub fn measure(table: &[u8]) -> Measure {
    let (number, words, illegal_places, place) = raw::measure(table);
    Measure {
        number,
        words,
        illegal_places,
        place,
    }
}

/// The table's refusal number, and the part that holds the section's records.
pub fn section(table: &[u8], number: u32) -> (u32, &[u8]) {
    let (refusal, start, len) = raw::section(table, number);
    (refusal, &table[start..start + len])
}

/// A figure that is not there has `present` 0 and is 0 itself.
fn figure<T>(present: u32, value: T, is_zero: bool) -> Option<T> {
    assert!(
        present <= 1 && (present == 1 || is_zero),
        "present {present}"
    );
    (present == 1).then_some(value)
}

pub fn item_figure(table: &[u8], register: &[u32], item: usize) -> (u32, Option<f64>) {
    let (number, present, percent) = raw::item_figure(table, register, item);
    (number, figure(present, percent, percent.to_bits() == 0))
}

pub fn group_figure(table: &[u8], register: &[u32]) -> (u32, Option<u32>) {
    let (number, present, millionths) = raw::group_figure(table, register);
    (number, figure(present, millionths, millionths == 0))
}
