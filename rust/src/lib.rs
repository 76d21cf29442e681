//! Safe functions over the Fluviquen coverage register.
//!
//! A *table* (bytes) describes coverpoints, bins, transition sequences and
//! crosses; a *register* (32-bit words that the caller lends) counts which of
//! them a simulated chip has been through. Every answer of the library beneath
//! is proved; this crate only passes slices on and gives refusals a name.
//!
//! ```
//! use fluviquen::{item_figure, sample, Table};
//!
//! // One unsigned point of two bits (section 1), an illegal bin (2) for 3 (3).
//! let mut bytes = vec![1, 0, 2, 0, 255, 1, 0, 1, 0, 0, 0, 64, 0];
//! bytes.extend([1, 0, 0, 2, 0, 0, 0, 255, 1, 0]);
//! bytes.extend([1, 0, 0, 3, 0, 0, 0, 0, 0, 0, 0, 3, 0, 0, 0, 0, 0, 0, 0]);
//! bytes.extend([0; 14]);
//! let table = Table::new(&bytes)?;
//! let mut register = table.register();
//! let mut report = table.report();
//! let mut alarms = 0;
//! for reading in [0, 3, 1] {
//!     // Guard bits, unknown guard bits, then the point's value and unknown bits.
//!     sample(&bytes, &mut register, &[0, 0, 0, 0, reading, 0], &mut report)?;
//!     if report.contains(&1) {
//!         alarms += 1; // the sample raised an illegal bin
//!     }
//! }
//! assert_eq!(alarms, 1);
//! // Auto bins 0 and 1 of 0, 1 and 2; 3 is the illegal bin's.
//! assert_eq!(item_figure(&bytes, &register, 0)?, Some(200.0 / 3.0));
//!
//! // The span of the illegal bin, from 3 to 2: a refusal says why, and where.
//! bytes[34] = 2;
//! let refusal = Table::new(&bytes).unwrap_err();
//! assert_eq!((refusal.number(), refusal.place()), (16, Some(34)));
//! assert!(refusal.to_string().starts_with("table refused: 16 at byte 34 (a, b, lo or hi"));
//! # Ok::<(), fluviquen::Refusal>(())
//! ```

pub mod raw;
mod refusal;
mod register;
mod sys;

pub use refusal::{Halted, Refusal};
pub use register::Register;

fn accepted_at(number: u32, place: usize) -> Result<(), Refusal> {
    match number {
        0 => Ok(()),
        number => Err(Refusal::from_number(number, place).expect("a number of the library")),
    }
}

/// A call's number. Where it refuses the table, measuring tells the place: a
/// table's refusal depends on its bytes alone.
fn accepted(table: &[u8], number: u32) -> Result<(), Refusal> {
    match accepted_at(number, 0) {
        Err(refusal) if refusal.is_of_table() => accepted_at(number, raw::measure(table).3),
        answer => answer,
    }
}

/// What a table needs: the words of a register and of a report.
#[derive(Clone, Copy, Debug, PartialEq, Eq)]
pub struct Measure {
    pub words: usize,
    pub illegal_places: usize,
}

/// Measures a table, or says why it is refused, and at which byte.
pub fn measure(table: &[u8]) -> Result<Measure, Refusal> {
    let (number, words, illegal_places, place) = raw::measure(table);
    accepted_at(number, place)?;
    Ok(Measure {
        words: words as usize,
        illegal_places: illegal_places as usize,
    })
}

/// The records of section 1 to 10, without their count; empty for another number.
pub fn section(table: &[u8], number: u32) -> Result<&[u8], Refusal> {
    let (refusal, start, len) = raw::section(table, number);
    accepted(table, refusal)?;
    Ok(&table[start..start + len])
}

/// A table that was accepted, with what it needs.
#[derive(Clone, Copy, Debug)]
pub struct Table<'a> {
    bytes: &'a [u8],
    measure: Measure,
}

impl<'a> Table<'a> {
    pub fn new(bytes: &'a [u8]) -> Result<Table<'a>, Refusal> {
        let measure = measure(bytes)?;
        Ok(Table { bytes, measure })
    }

    pub fn bytes(&self) -> &'a [u8] {
        self.bytes
    }

    pub fn measure(&self) -> Measure {
        self.measure
    }

    /// The words of a register of the right length, reset; [`Register`] holds them
    /// with their table.
    pub fn register(&self) -> Vec<u32> {
        let mut words = vec![0; self.measure.words];
        reset(self.bytes, &mut words).expect("an accepted table and a register of its length");
        words
    }

    /// A report of the right length.
    pub fn report(&self) -> Vec<u32> {
        vec![0; self.measure.illegal_places]
    }
}

/// Begins anew: running, all counts 0. Words beyond the register stay.
pub fn reset(table: &[u8], register: &mut [u32]) -> Result<(), Refusal> {
    accepted(table, raw::reset(table, register))
}

/// Runs a stopped register again: sequences begin anew, counts stay.
pub fn start(table: &[u8], register: &mut [u32]) -> Result<(), Refusal> {
    accepted(table, raw::start(table, register))
}

/// Stops a register: it takes no samples until it is started.
pub fn stop(table: &[u8], register: &mut [u32]) -> Result<(), Refusal> {
    accepted(table, raw::stop(table, register))
}

/// Takes a sample: guard bits (two words), unknown guard bits (two words), then
/// each point's value and unknown bits, a negative value in two's complement and
/// masked to the point's width. The report has 1 at each illegal place that the
/// sample raised, and 0 at the others.
pub fn sample(
    table: &[u8],
    register: &mut [u32],
    sample: &[u32],
    report: &mut [u32],
) -> Result<(), Refusal> {
    accepted(table, raw::sample(table, register, sample, report))
}

/// Takes samples one after another, each exactly as [`sample`] does, up to the
/// first that is refused; answers how many there were. The words of all samples
/// stand in a row, and so do the reports. What is left after the last whole sample
/// is refused as a sample of that length is; with no words at all only the table
/// and the register are tested.
pub fn samples(
    table: &[u8],
    register: &mut [u32],
    samples: &[u32],
    reports: &mut [u32],
) -> Result<usize, Halted> {
    let (number, taken) = raw::samples(table, register, samples, reports);
    match accepted(table, number) {
        Ok(()) => Ok(taken),
        Err(refusal) => Err(Halted { taken, refusal }),
    }
}

/// A place's count.
pub fn place_count(table: &[u8], register: &[u32], place: usize) -> Result<u32, Refusal> {
    let (number, count) = raw::place_count(table, register, place);
    accepted(table, number).map(|()| count)
}

/// How often a point's reading was unknown.
pub fn unknown_count(table: &[u8], register: &[u32], point: usize) -> Result<u32, Refusal> {
    let (number, count) = raw::unknown_count(table, register, point);
    accepted(table, number).map(|()| count)
}

/// An item's coverage in percent; none if it has nothing to cover. Items are the
/// points, then the crosses.
pub fn item_figure(table: &[u8], register: &[u32], item: usize) -> Result<Option<f64>, Refusal> {
    let (number, present, percent) = raw::item_figure(table, register, item);
    accepted(table, number).map(|()| (present == 1).then_some(percent))
}

/// The group's coverage in millionths of a percent; none if no weighted item has
/// anything to cover.
pub fn group_figure(table: &[u8], register: &[u32]) -> Result<Option<u32>, Refusal> {
    let (number, present, millionths) = raw::group_figure(table, register);
    accepted(table, number).map(|()| (present == 1).then_some(millionths))
}
