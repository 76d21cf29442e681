//! The calls as C has them: the refusal number, and what the call wrote, also
//! where it was refused. Every call writes its answers, so what they hold before
//! never shows.

use crate::sys::*;

/// Number, words of a register, words of a report, the byte at fault.
pub fn measure(table: &[u8]) -> (u32, u32, u32, usize) {
    let (mut words, mut illegal_places, mut place) = (u32::MAX, u32::MAX, usize::MAX);
    let (table, size) = (table.as_ptr(), table.len());
    let (w, i, p) = (&mut words, &mut illegal_places, &mut place);
    // Here and below, the pointers and lengths are those of live slices and locals.
    let number = unsafe { fluviquen_measure(table, size, w, i, p) };
    (number, words, illegal_places, place)
}

/// Number, start and length of a section's records.
pub fn section(table: &[u8], number: u32) -> (u32, usize, usize) {
    let (mut start, mut len) = (usize::MAX, usize::MAX);
    let refusal =
        unsafe { fluviquen_section(table.as_ptr(), table.len(), number, &mut start, &mut len) };
    (refusal, start, len)
}

pub fn reset(table: &[u8], register: &mut [u32]) -> u32 {
    let (words, len) = (register.as_mut_ptr(), register.len());
    unsafe { fluviquen_reset(table.as_ptr(), table.len(), words, len) }
}

pub fn start(table: &[u8], register: &mut [u32]) -> u32 {
    let (words, len) = (register.as_mut_ptr(), register.len());
    unsafe { fluviquen_start(table.as_ptr(), table.len(), words, len) }
}

pub fn stop(table: &[u8], register: &mut [u32]) -> u32 {
    let (words, len) = (register.as_mut_ptr(), register.len());
    unsafe { fluviquen_stop(table.as_ptr(), table.len(), words, len) }
}

pub fn sample(table: &[u8], register: &mut [u32], sample: &[u32], report: &mut [u32]) -> u32 {
    let (words, len) = (register.as_mut_ptr(), register.len());
    let (out, room) = (report.as_mut_ptr(), report.len());
    let (table, size) = (table.as_ptr(), table.len());
    unsafe {
        fluviquen_sample(
            table,
            size,
            words,
            len,
            sample.as_ptr(),
            sample.len(),
            out,
            room,
        )
    }
}

/// Number, and how many samples were taken.
pub fn samples(
    table: &[u8],
    register: &mut [u32],
    samples: &[u32],
    reports: &mut [u32],
) -> (u32, usize) {
    let mut taken = usize::MAX;
    let (words, len) = (register.as_mut_ptr(), register.len());
    let (out, room) = (reports.as_mut_ptr(), reports.len());
    let (table, size) = (table.as_ptr(), table.len());
    let number = unsafe {
        fluviquen_samples(
            table,
            size,
            words,
            len,
            samples.as_ptr(),
            samples.len(),
            out,
            room,
            &mut taken,
        )
    };
    (number, taken)
}

/// Number and count.
pub fn place_count(table: &[u8], register: &[u32], place: usize) -> (u32, u32) {
    let mut count = u32::MAX;
    let (words, len) = (register.as_ptr(), register.len());
    let (table, size) = (table.as_ptr(), table.len());
    let number = unsafe { fluviquen_place_count(table, size, words, len, place, &mut count) };
    (number, count)
}

/// Number and count.
pub fn unknown_count(table: &[u8], register: &[u32], point: usize) -> (u32, u32) {
    let mut count = u32::MAX;
    let (words, len) = (register.as_ptr(), register.len());
    let (table, size) = (table.as_ptr(), table.len());
    let number = unsafe { fluviquen_unknown_count(table, size, words, len, point, &mut count) };
    (number, count)
}

/// Number, whether there is a figure, and the percentage.
pub fn item_figure(table: &[u8], register: &[u32], item: usize) -> (u32, u32, f64) {
    let (mut present, mut percent) = (u32::MAX, f64::NAN);
    let (words, len) = (register.as_ptr(), register.len());
    let (table, size) = (table.as_ptr(), table.len());
    let (p, q) = (&mut present, &mut percent);
    let number = unsafe { fluviquen_item_figure(table, size, words, len, item, p, q) };
    (number, present, percent)
}

/// Number, whether there is a figure, and the millionths of a percent.
pub fn group_figure(table: &[u8], register: &[u32]) -> (u32, u32, u32) {
    let (mut present, mut millionths) = (u32::MAX, u32::MAX);
    let (words, len) = (register.as_ptr(), register.len());
    let (table, size) = (table.as_ptr(), table.len());
    let (p, q) = (&mut present, &mut millionths);
    let number = unsafe { fluviquen_group_figure(table, size, words, len, p, q) };
    (number, present, millionths)
}
