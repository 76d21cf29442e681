//! A second program for the coverage register, written from the rules alone.
//!
//! * [`builder`] writes tables from named fields.
//! * [`table`] reads a table's bytes, or refuses them with a number and a byte place.
//! * [`register`] is the direct sampler over register words.
//! * [`book`] keeps only the accepted samples and recomputes everything from them.
//! * [`calls`] names the calls, so that register and book can be given the same list.
//! * [`classes`] says which hard cases a table has.
//! * [`compiled`] is a table turned once into what samples fastest.
//! * `library` calls the library itself (feature `library`).
//! * [`replay`] says what the program `replay` writes for a table and a log.
//! * [`random`] draws tables, damaged tables, call lists and foreign registers.

pub mod book;
pub mod builder;
pub mod calls;
pub mod classes;
pub mod compiled;
#[cfg(feature = "library")]
pub mod library;
pub mod random;
pub mod register;
pub mod replay;
pub mod table;

/// Bytes as spaced hex, for messages.
pub fn hex(bytes: &[u8]) -> String {
    let words: Vec<String> = bytes.iter().map(|b| format!("{b:02X}")).collect();
    words.join(" ")
}
