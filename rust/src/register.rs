//! A register with its table.

use crate::{Halted, Refusal, Table};

/// A register that owns its words and holds its table. The words are the library's
/// alone, so that they are always long enough and possible (never refused with 7 or 8).
#[derive(Clone, Debug)]
pub struct Register<'t> {
    table: Table<'t>,
    words: Vec<u32>,
}

const OWN: &str = "a register of its own table";

impl<'t> Register<'t> {
    /// A new register: running, all counts 0.
    pub fn new(table: Table<'t>) -> Register<'t> {
        let words = table.register();
        Register { table, words }
    }

    /// A register with words that were kept. They are refused if they are too few or
    /// impossible; that they belong to another table is not noticed otherwise.
    pub fn from_words(table: Table<'t>, words: Vec<u32>) -> Result<Register<'t>, Refusal> {
        crate::group_figure(table.bytes(), &words)?;
        Ok(Register { table, words })
    }

    pub fn table(&self) -> Table<'t> {
        self.table
    }

    /// The register's words, to be kept.
    pub fn words(&self) -> &[u32] {
        &self.words
    }

    pub fn into_words(self) -> Vec<u32> {
        self.words
    }

    /// Begins anew.
    pub fn reset(&mut self) {
        crate::reset(self.table.bytes(), &mut self.words).expect(OWN);
    }

    /// Runs a stopped register again: sequences begin anew, counts stay.
    pub fn start(&mut self) {
        crate::start(self.table.bytes(), &mut self.words).expect(OWN);
    }

    /// Stops the register: it takes no samples until it is started.
    pub fn stop(&mut self) {
        crate::stop(self.table.bytes(), &mut self.words).expect(OWN);
    }

    pub fn is_running(&self) -> bool {
        self.words[0] == 1
    }

    /// How many samples it has taken.
    pub fn taken(&self) -> u32 {
        self.words[1]
    }

    /// Takes a sample; see [`crate::sample`].
    pub fn sample(&mut self, sample: &[u32], report: &mut [u32]) -> Result<(), Refusal> {
        crate::sample(self.table.bytes(), &mut self.words, sample, report)
    }

    /// Takes samples one after another; see [`crate::samples`].
    pub fn samples(&mut self, samples: &[u32], reports: &mut [u32]) -> Result<usize, Halted> {
        crate::samples(self.table.bytes(), &mut self.words, samples, reports)
    }

    /// A place's count.
    pub fn count(&self, place: usize) -> Result<u32, Refusal> {
        crate::place_count(self.table.bytes(), &self.words, place)
    }

    /// The counts of all places.
    pub fn counts(&self) -> &[u32] {
        // The places are those that are not refused: words 2 to 2 + places - 1.
        let (mut places, mut end) = (0, self.words.len());
        while places < end {
            let middle = places + (end - places) / 2;
            match self.count(middle) {
                Ok(_) => places = middle + 1,
                Err(_) => end = middle,
            }
        }
        &self.words[2..2 + places]
    }

    /// How often a point's reading was unknown.
    pub fn unknown_count(&self, point: usize) -> Result<u32, Refusal> {
        crate::unknown_count(self.table.bytes(), &self.words, point)
    }

    /// An item's coverage in percent; none if it has nothing to cover.
    pub fn figure(&self, item: usize) -> Result<Option<f64>, Refusal> {
        crate::item_figure(self.table.bytes(), &self.words, item)
    }

    /// The figures of all items: the points, then the crosses.
    pub fn figures(&self) -> Vec<Option<f64>> {
        (0..).map_while(|item| self.figure(item).ok()).collect()
    }

    /// The group's coverage in millionths of a percent; none if no weighted item has
    /// anything to cover.
    pub fn group_figure(&self) -> Option<u32> {
        crate::group_figure(self.table.bytes(), &self.words).expect(OWN)
    }
}
