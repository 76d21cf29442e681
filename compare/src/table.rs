//! The table reader: bytes to a decoded table, or the refusal number with the
//! byte place of the fault.
//!
//! [`check`] walks the bytes front to back and keeps no records; a caller who
//! only wants the number or the measure pays for no more than that.
//! [`decode`] adds the records as plain structs.

/// Tables longer than this are refused with 1.
pub const TABLE_LIMIT: usize = 65_536;
/// Most places a point may have.
pub const POINT_PLACES: usize = 256;
/// Most products a cross may have.
pub const CROSS_PRODUCTS: u64 = 1_024;
/// Most readings a sequence may span.
pub const SEQUENCE_READINGS: u32 = 32;

/// Section numbers, as a caller gives them.
pub const POINTS: usize = 1;
pub const VALUE_BINS: usize = 2;
pub const VALUE_RANGES: usize = 3;
pub const TRANSITION_BINS: usize = 4;
pub const SEQUENCES: usize = 5;
pub const STEPS: usize = 6;
pub const STEP_RANGES: usize = 7;
pub const CROSSES: usize = 8;
pub const CROSS_BINS: usize = 9;
pub const TOKENS: usize = 10;

/// Bytes of one record, by section number (0 unused).
pub const RECORD_SIZE: [usize; 11] = [0, 11, 8, 17, 4, 1, 3, 17, 13, 3, 20];
/// Largest count, by section number (0 unused).
pub const LARGEST_COUNT: [usize; 11] = [0, 16, 512, 1_024, 64, 64, 256, 512, 8, 128, 1_024];

const COVER: u8 = 0;
const IGNORE: u8 = 1;
const ILLEGAL: u8 = 2;
const DEFAULT: u8 = 3;
const NO_GUARD: u8 = 255;
const NO_POINT: u8 = 255;

/// What is wrong with a count or a field, as a refusal number.
const COUNT: u32 = 3;
const FIELD: u32 = 15;
const VALUE: u32 = 16;
const UNUSED: u32 = 17;

/// A table's refusal: its number, 1 to 6 or 15 to 17, and the byte place of the
/// fault (0 for 1).
#[derive(Clone, Copy, Debug, PartialEq, Eq)]
pub struct Refusal {
    pub number: u32,
    pub place: usize,
}

/// The answer of measuring: 0 words and 0 illegal places if refused, place 0 if
/// accepted.
#[derive(Clone, Copy, Debug, PartialEq, Eq)]
pub struct Measure {
    pub number: u32,
    pub words: u32,
    pub illegal_places: u32,
    pub place: usize,
}

/// Where a section's records begin, and how many there are.
#[derive(Clone, Copy, Debug, Default, PartialEq, Eq)]
pub struct Part {
    pub start: usize,
    pub count: usize,
}

/// What an accepted table fixes about its register, without its records.
#[derive(Clone, Copy, Debug, PartialEq, Eq)]
pub struct Layout {
    /// By section number (0 unused).
    pub parts: [Part; 11],
    pub points: usize,
    /// All counters of bins and products.
    pub places: usize,
    pub illegal_places: usize,
    /// Trace words of all sequences.
    pub run_words: usize,
}

impl Layout {
    /// Word index of the first unknown count.
    pub fn unknown_at(&self) -> usize {
        2 + self.places
    }

    /// Word index of the first run word.
    pub fn runs_at(&self) -> usize {
        2 + self.places + self.points
    }

    /// Words a register needs.
    pub fn words(&self) -> usize {
        2 + self.places + self.points + self.run_words
    }
}

/// A point's value type.
#[derive(Clone, Copy, Debug, PartialEq, Eq)]
pub struct Type {
    pub width: u8,
    pub signed: bool,
}

impl Type {
    pub fn lowest(self) -> i64 {
        if self.signed {
            -(1i64 << (self.width - 1))
        } else {
            0
        }
    }

    pub fn highest(self) -> i64 {
        self.lowest() + self.ones()
    }

    /// The width's bits, all set.
    pub fn ones(self) -> i64 {
        (1i64 << self.width) - 1
    }

    pub fn holds(self, value: i64) -> bool {
        self.lowest() <= value && value <= self.highest()
    }
}

#[derive(Clone, Copy, Debug, PartialEq, Eq)]
pub enum Kind {
    Cover,
    Ignore,
    Illegal,
    Default,
}

#[derive(Clone, Copy, Debug, PartialEq, Eq)]
pub enum Form {
    /// One bin for all values.
    One,
    /// One bin per distinct value.
    PerValue,
    /// The values dealt over this many bins.
    Number(u16),
}

#[derive(Clone, Copy, Debug, PartialEq, Eq)]
pub enum Range {
    /// Lowest and highest value.
    Span(i64, i64),
    /// Bits, and the mask of the bits that matter.
    Pattern(i64, i64),
}

/// Indices of the records that a record owns in the next section.
pub type Owned = std::ops::Range<usize>;

#[derive(Clone, Debug, PartialEq, Eq)]
pub struct Point {
    pub ty: Type,
    pub guard: Option<u8>,
    pub weight: u16,
    pub at_least: u32,
    pub auto_max: u16,
}

#[derive(Clone, Debug, PartialEq, Eq)]
pub struct ValueBin {
    pub point: usize,
    pub kind: Kind,
    pub form: Form,
    pub guard: Option<u8>,
    pub ranges: Owned,
}

#[derive(Clone, Debug, PartialEq, Eq)]
pub struct TransitionBin {
    pub point: usize,
    pub kind: Kind,
    pub guard: Option<u8>,
    pub sequences: Owned,
}

#[derive(Clone, Debug, PartialEq, Eq)]
pub struct Sequence {
    pub steps: Owned,
}

#[derive(Clone, Debug, PartialEq, Eq)]
pub struct Step {
    pub ranges: Owned,
    pub least: u8,
    pub most: u8,
}

#[derive(Clone, Debug, PartialEq, Eq)]
pub struct Cross {
    pub points: Vec<usize>,
    pub guard: Option<u8>,
    pub weight: u16,
    pub at_least: u32,
    pub bins: Owned,
}

#[derive(Clone, Debug, PartialEq, Eq)]
pub struct CrossBin {
    pub kind: Kind,
    pub guard: Option<u8>,
    pub tokens: Owned,
}

#[derive(Clone, Copy, Debug, PartialEq, Eq)]
pub enum Token {
    Whole { position: usize },
    Bin { position: usize, bin: usize },
    Meets { position: usize, lo: i64, hi: i64 },
    Not,
    And,
    Or,
}

/// The records of an accepted table.
#[derive(Clone, Debug, PartialEq, Eq)]
pub struct Table {
    pub layout: Layout,
    pub points: Vec<Point>,
    pub value_bins: Vec<ValueBin>,
    pub value_ranges: Vec<Range>,
    pub transition_bins: Vec<TransitionBin>,
    pub sequences: Vec<Sequence>,
    pub steps: Vec<Step>,
    pub step_ranges: Vec<Range>,
    pub crosses: Vec<Cross>,
    pub cross_bins: Vec<CrossBin>,
    pub tokens: Vec<Token>,
}

/// The table's number with the register's words and the illegal places.
pub fn measure(bytes: &[u8]) -> Measure {
    match check(bytes) {
        Ok(layout) => Measure {
            number: 0,
            words: layout.words() as u32,
            illegal_places: layout.illegal_places as u32,
            place: 0,
        },
        Err(refusal) => Measure {
            number: refusal.number,
            words: 0,
            illegal_places: 0,
            place: refusal.place,
        },
    }
}

/// The records of one section as they stand, without the count. Empty for a
/// refused table or a number outside 1 to 10.
pub fn section(bytes: &[u8], number: u32) -> &[u8] {
    let number = number as usize;
    match check(bytes) {
        Ok(layout) if (POINTS..=TOKENS).contains(&number) => {
            let Part { start, count } = layout.parts[number];
            &bytes[start..start + count * RECORD_SIZE[number]]
        }
        _ => &[],
    }
}

/// Every check of a table, in order, without keeping its records.
pub fn check(bytes: &[u8]) -> Result<Layout, Refusal> {
    if bytes.len() > TABLE_LIMIT {
        return Err(Refusal {
            number: 1,
            place: 0,
        });
    }
    let mut walk = Walk::new(bytes);
    walk.points()?;
    let ranges = walk.value_bins()?;
    walk.value_ranges(ranges)?;
    let sequences = walk.transition_bins()?;
    let steps = walk.sequences(sequences)?;
    let (ranges, run_words) = walk.steps(steps)?;
    walk.step_ranges(ranges)?;
    let cross_bins = walk.crosses()?;
    let tokens = walk.cross_bins(cross_bins)?;
    walk.tokens(tokens)?;
    walk.end()?;
    walk.layout(run_words)
}

/// One record's bytes and where they lie in the table.
#[derive(Clone, Copy)]
struct Record<'a> {
    bytes: &'a [u8],
    place: usize,
}

impl Record<'_> {
    fn u8(&self, at: usize) -> u8 {
        self.bytes[at]
    }

    fn u16(&self, at: usize) -> u16 {
        u16::from_le_bytes([self.bytes[at], self.bytes[at + 1]])
    }

    fn u32(&self, at: usize) -> u32 {
        u32::from_le_bytes(self.bytes[at..at + 4].try_into().unwrap())
    }

    fn i64(&self, at: usize) -> i64 {
        i64::from_le_bytes(self.bytes[at..at + 8].try_into().unwrap())
    }

    /// Refuses with the number at the field that begins at `at`.
    fn need(&self, number: u32, at: usize, holds: bool) -> Result<(), Refusal> {
        if holds {
            Ok(())
        } else {
            Err(Refusal {
                number,
                place: self.place + at,
            })
        }
    }

    /// Refuses with 4 at the record.
    fn agree(&self, holds: bool) -> Result<(), Refusal> {
        if holds {
            Ok(())
        } else {
            Err(Refusal {
                number: 4,
                place: self.place,
            })
        }
    }
}

/// The lent table, the place reached, and the sections walked so far.
struct Walk<'a> {
    bytes: &'a [u8],
    place: usize,
    parts: [Part; 11],
}

impl<'a> Walk<'a> {
    fn new(bytes: &'a [u8]) -> Self {
        Walk {
            bytes,
            place: 0,
            parts: [Part::default(); 11],
        }
    }

    /// The next bytes, whole, or 2.
    fn take(&mut self, size: usize) -> Result<Record<'a>, Refusal> {
        let rest = &self.bytes[self.place..];
        if rest.len() < size {
            return Err(Refusal {
                number: 2,
                place: self.place,
            });
        }
        let record = Record {
            bytes: &rest[..size],
            place: self.place,
        };
        self.place += size;
        Ok(record)
    }

    fn next(&mut self, section: usize) -> Result<Record<'a>, Refusal> {
        self.take(RECORD_SIZE[section])
    }

    /// A section's count: whole, within its limits, the sum its owners ask for.
    fn open(&mut self, section: usize, owned: Option<usize>) -> Result<usize, Refusal> {
        let record = self.take(2)?;
        let count = record.u16(0) as usize;
        let least = usize::from(section == POINTS);
        record.need(COUNT, 0, least <= count && count <= LARGEST_COUNT[section])?;
        record.agree(owned.is_none_or(|sum| sum == count))?;
        self.parts[section] = Part {
            start: self.place,
            count,
        };
        Ok(count)
    }

    /// A record that was walked before.
    fn record(&self, section: usize, index: usize) -> Record<'a> {
        let size = RECORD_SIZE[section];
        let place = self.parts[section].start + index * size;
        Record {
            bytes: &self.bytes[place..place + size],
            place,
        }
    }

    fn count(&self, section: usize) -> usize {
        self.parts[section].count
    }

    fn point_type(&self, point: usize) -> Type {
        let record = self.record(POINTS, point);
        Type {
            width: record.u8(0),
            signed: record.u8(1) == 1,
        }
    }

    fn points(&mut self) -> Result<(), Refusal> {
        for _ in 0..self.open(POINTS, None)? {
            let record = self.next(POINTS)?;
            record.need(FIELD, 0, (1..=32).contains(&record.u8(0)))?;
            record.need(FIELD, 1, record.u8(1) <= 1)?;
            record.need(FIELD, 2, is_guard(record.u8(2)))?;
            record.need(FIELD, 5, record.u32(5) >= 1)?;
            record.need(FIELD, 9, (1..=256).contains(&record.u16(9)))?;
        }
        Ok(())
    }

    /// Returns the ranges that the value bins own.
    fn value_bins(&mut self) -> Result<usize, Refusal> {
        let mut owned = 0;
        let mut with_default = 0u16;
        for _ in 0..self.open(VALUE_BINS, None)? {
            let record = self.next(VALUE_BINS)?;
            let (point, kind, form) = (record.u8(0), record.u8(1), record.u8(2));
            let (number, ranges) = (record.u16(3), record.u16(6));
            record.need(FIELD, 0, (point as usize) < self.count(POINTS))?;
            record.need(FIELD, 1, kind <= DEFAULT)?;
            record.need(FIELD, 2, form <= if kind == COVER { 2 } else { 0 })?;
            if form == 2 {
                record.need(FIELD, 3, (1..=256).contains(&number))?;
            } else {
                record.need(UNUSED, 3, number == 0)?;
            }
            record.need(FIELD, 5, guard_fits(kind, record.u8(5)))?;
            record.need(COUNT, 6, (ranges == 0) == (kind == DEFAULT))?;
            if kind == DEFAULT {
                record.agree(with_default >> point & 1 == 0)?;
                with_default |= 1 << point;
            }
            owned += ranges as usize;
        }
        Ok(owned)
    }

    fn value_ranges(&mut self, owned: usize) -> Result<(), Refusal> {
        self.open(VALUE_RANGES, Some(owned))?;
        for bin in 0..self.count(VALUE_BINS) {
            let bin = self.record(VALUE_BINS, bin);
            let ty = self.point_type(bin.u8(0) as usize);
            let one_cover_bin = bin.u8(1) == COVER && bin.u8(2) == 0;
            for _ in 0..bin.u16(6) {
                check_range(self.next(VALUE_RANGES)?, ty, one_cover_bin)?;
            }
        }
        Ok(())
    }

    /// Returns the sequences that the transition bins own.
    fn transition_bins(&mut self) -> Result<usize, Refusal> {
        let mut owned = 0;
        for _ in 0..self.open(TRANSITION_BINS, None)? {
            let record = self.next(TRANSITION_BINS)?;
            let kind = record.u8(1);
            record.need(FIELD, 0, (record.u8(0) as usize) < self.count(POINTS))?;
            record.need(FIELD, 1, kind <= ILLEGAL)?;
            record.need(FIELD, 2, guard_fits(kind, record.u8(2)))?;
            record.need(COUNT, 3, record.u8(3) >= 1)?;
            owned += record.u8(3) as usize;
        }
        Ok(owned)
    }

    /// Returns the steps that the sequences own.
    fn sequences(&mut self, owned: usize) -> Result<usize, Refusal> {
        let mut steps = 0;
        for _ in 0..self.open(SEQUENCES, Some(owned))? {
            let record = self.next(SEQUENCES)?;
            record.need(COUNT, 0, (1..=16).contains(&record.u8(0)))?;
            steps += record.u8(0) as usize;
        }
        Ok(steps)
    }

    /// Returns the ranges that the steps own, and the sum of all mosts.
    fn steps(&mut self, owned: usize) -> Result<(usize, usize), Refusal> {
        self.open(STEPS, Some(owned))?;
        let (mut ranges, mut run_words) = (0, 0);
        for sequence in 0..self.count(SEQUENCES) {
            let (mut leasts, mut mosts) = (0u32, 0u32);
            let mut last = None;
            for _ in 0..self.record(SEQUENCES, sequence).u8(0) {
                let record = self.next(STEPS)?;
                let (least, most) = (record.u8(1), record.u8(2));
                record.need(COUNT, 0, record.u8(0) >= 1)?;
                record.need(FIELD, 1, (1..=32).contains(&least))?;
                record.need(FIELD, 2, (least..=32).contains(&most))?;
                ranges += record.u8(0) as usize;
                leasts += least as u32;
                mosts += most as u32;
                last = Some(record);
            }
            if let Some(last) = last {
                last.agree(leasts >= 2 && mosts <= SEQUENCE_READINGS)?;
            }
            run_words += mosts as usize;
        }
        Ok((ranges, run_words))
    }

    fn step_ranges(&mut self, owned: usize) -> Result<(), Refusal> {
        self.open(STEP_RANGES, Some(owned))?;
        let (mut sequence, mut step) = (0, 0);
        for bin in 0..self.count(TRANSITION_BINS) {
            let bin = self.record(TRANSITION_BINS, bin);
            let ty = self.point_type(bin.u8(0) as usize);
            for _ in 0..bin.u8(3) {
                for _ in 0..self.record(SEQUENCES, sequence).u8(0) {
                    for _ in 0..self.record(STEPS, step).u8(0) {
                        check_range(self.next(STEP_RANGES)?, ty, true)?;
                    }
                    step += 1;
                }
                sequence += 1;
            }
        }
        Ok(())
    }

    /// Returns the cross bins that the crosses own.
    fn crosses(&mut self) -> Result<usize, Refusal> {
        let mut owned = 0;
        for _ in 0..self.open(CROSSES, None)? {
            let record = self.next(CROSSES)?;
            let points = record.u8(0);
            record.need(FIELD, 0, (2..=4).contains(&points))?;
            let (mut seen, mut twice) = (0u16, false);
            for at in 1..=4 {
                let point = record.u8(at);
                if at > points as usize {
                    record.need(UNUSED, at, point == NO_POINT)?;
                } else {
                    record.need(FIELD, at, (point as usize) < self.count(POINTS))?;
                    twice |= seen >> point & 1 == 1;
                    seen |= 1 << point;
                }
            }
            record.need(FIELD, 5, is_guard(record.u8(5)))?;
            record.need(FIELD, 8, record.u32(8) >= 1)?;
            record.need(COUNT, 12, record.u8(12) <= 16)?;
            record.agree(!twice)?;
            owned += record.u8(12) as usize;
        }
        Ok(owned)
    }

    /// Returns the tokens that the cross bins own.
    fn cross_bins(&mut self, owned: usize) -> Result<usize, Refusal> {
        let mut tokens = 0;
        for _ in 0..self.open(CROSS_BINS, Some(owned))? {
            let record = self.next(CROSS_BINS)?;
            let kind = record.u8(0);
            record.need(FIELD, 0, kind <= ILLEGAL)?;
            record.need(FIELD, 1, guard_fits(kind, record.u8(1)))?;
            record.need(COUNT, 2, (1..=32).contains(&record.u8(2)))?;
            tokens += record.u8(2) as usize;
        }
        Ok(tokens)
    }

    fn tokens(&mut self, owned: usize) -> Result<(), Refusal> {
        self.open(TOKENS, Some(owned))?;
        let mut bin = 0;
        for cross in 0..self.count(CROSSES) {
            let cross = self.record(CROSSES, cross);
            for _ in 0..cross.u8(12) {
                let tokens = self.record(CROSS_BINS, bin).u8(2);
                self.expression(cross, tokens)?;
                bin += 1;
            }
        }
        Ok(())
    }

    /// The tokens of one cross bin, which must be one prefix expression.
    fn expression(&mut self, cross: Record, tokens: u8) -> Result<(), Refusal> {
        let (mut wanted, mut after_not, mut whole) = (1u32, false, true);
        let mut last = None;
        for _ in 0..tokens {
            let record = self.next(TOKENS)?;
            self.token(record, cross)?;
            let leaf = record.u8(0) <= 2;
            whole &= wanted > 0 && (leaf || !after_not);
            match record.u8(0) {
                0..=2 => wanted = wanted.saturating_sub(1),
                3 => {}
                _ => wanted += 1,
            }
            after_not = record.u8(0) == 3;
            last = Some(record);
        }
        match last {
            Some(last) => last.agree(whole && wanted == 0),
            None => Ok(()),
        }
    }

    fn token(&self, record: Record, cross: Record) -> Result<(), Refusal> {
        let (op, position, bin) = (record.u8(0), record.u8(1), record.u16(2) as usize);
        let (lo, hi) = (record.i64(4), record.i64(12));
        record.need(FIELD, 0, op <= 5)?;
        if op > 2 {
            record.need(UNUSED, 1, position == 0)?;
        } else {
            record.need(FIELD, 1, position < cross.u8(0))?;
        }
        record.need(UNUSED, 2, op == 1 || bin == 0)?;
        if op != 2 {
            record.need(UNUSED, 4, lo == 0)?;
            record.need(UNUSED, 12, hi == 0)?;
        }
        if op > 2 {
            return Ok(());
        }
        let point = cross.u8(1 + position as usize);
        if op == 2 {
            let ty = self.point_type(point as usize);
            record.need(VALUE, 4, ty.holds(lo))?;
            record.need(VALUE, 12, ty.holds(hi) && lo <= hi)?;
        }
        record.agree(op != 1 || self.is_cover_bin(bin, point))
    }

    fn is_cover_bin(&self, bin: usize, point: u8) -> bool {
        bin < self.count(VALUE_BINS) && {
            let record = self.record(VALUE_BINS, bin);
            record.u8(0) == point && record.u8(1) == COVER
        }
    }

    fn end(&self) -> Result<(), Refusal> {
        if self.place == self.bytes.len() {
            Ok(())
        } else {
            Err(Refusal {
                number: 5,
                place: self.place,
            })
        }
    }

    /// Counts places and products, which may be too many (6).
    fn layout(&self, run_words: usize) -> Result<Layout, Refusal> {
        let too_many = Refusal {
            number: 6,
            place: self.bytes.len(),
        };
        let tallies = self.tallies();
        let points = self.count(POINTS);
        let (mut places, mut illegal_places) = (0, 0);
        for tally in &tallies[..points] {
            if tally.places() > POINT_PLACES {
                return Err(too_many);
            }
            places += tally.places();
            illegal_places += tally.illegal;
        }
        let mut bin = 0;
        for cross in 0..self.count(CROSSES) {
            let cross = self.record(CROSSES, cross);
            let parts = &cross.bytes[1..1 + cross.u8(0) as usize];
            let products: u64 = parts
                .iter()
                .map(|&p| tallies[p as usize].parts as u64)
                .product();
            if products > CROSS_PRODUCTS {
                return Err(too_many);
            }
            places += products as usize;
            for _ in 0..cross.u8(12) {
                let kind = self.record(CROSS_BINS, bin).u8(0);
                places += usize::from(kind != IGNORE);
                illegal_places += usize::from(kind == ILLEGAL);
                bin += 1;
            }
        }
        Ok(Layout {
            parts: self.parts,
            points,
            places,
            illegal_places,
            run_words,
        })
    }

    fn tallies(&self) -> [Tally; 16] {
        let mut tallies = [Tally::default(); 16];
        let mut next_range = 0;
        let mut spans = Vec::new();
        for bin in 0..self.count(VALUE_BINS) {
            let bin = self.record(VALUE_BINS, bin);
            let ranges = own(&mut next_range, bin.u16(6) as usize);
            let tally = &mut tallies[bin.u8(0) as usize];
            match (bin.u8(1), bin.u8(2)) {
                (COVER, 0) => tally.parts += 1,
                (COVER, 1) => tally.parts += self.distinct(ranges, &mut spans),
                (COVER, _) => tally.parts += bin.u16(3) as usize,
                (ILLEGAL, _) => tally.illegal += 1,
                (DEFAULT, _) => tally.defaults += 1,
                _ => {}
            }
        }
        for bin in 0..self.count(TRANSITION_BINS) {
            let bin = self.record(TRANSITION_BINS, bin);
            let tally = &mut tallies[bin.u8(0) as usize];
            match bin.u8(1) {
                COVER => tally.transitions += 1,
                ILLEGAL => tally.illegal += 1,
                _ => {}
            }
        }
        for (point, tally) in tallies[..self.count(POINTS)].iter_mut().enumerate() {
            if tally.parts + tally.defaults + tally.transitions == 0 {
                let record = self.record(POINTS, point);
                tally.parts = auto_bins(record.u8(0), record.u16(9));
            }
        }
        tallies
    }

    /// Distinct values of some spans, counted up to just above the limit.
    fn distinct(&self, ranges: Owned, spans: &mut Vec<(i64, i64)>) -> usize {
        let span = |index| {
            let record = self.record(VALUE_RANGES, index);
            (record.i64(1), record.i64(9))
        };
        if ranges.len() == 1 {
            return distinct_values(&mut [span(ranges.start)]);
        }
        spans.clear();
        spans.extend(ranges.map(span));
        distinct_values(spans)
    }
}

/// What a point's bins need of the register.
#[derive(Clone, Copy, Default)]
struct Tally {
    /// Cover value bins, expanded, or auto bins.
    parts: usize,
    defaults: usize,
    /// Cover transition bins.
    transitions: usize,
    /// Illegal value and transition bins.
    illegal: usize,
}

impl Tally {
    fn places(&self) -> usize {
        self.parts + self.defaults + self.transitions + self.illegal
    }
}

/// Number of auto bins.
pub fn auto_bins(width: u8, auto_max: u16) -> usize {
    (1u64 << width).min(auto_max as u64) as usize
}

/// Sorts the spans and counts their distinct values, stopping above 256.
fn distinct_values(spans: &mut [(i64, i64)]) -> usize {
    spans.sort_unstable();
    let mut count = 0i64;
    let mut reached = i64::MIN;
    for &(lo, hi) in spans.iter() {
        let lo = lo.max(reached);
        if lo <= hi {
            count += hi - lo + 1;
            reached = hi + 1;
        }
        if count > POINT_PLACES as i64 {
            return POINT_PLACES + 1;
        }
    }
    count as usize
}

fn is_guard(guard: u8) -> bool {
    guard <= 63 || guard == NO_GUARD
}

fn guard_fits(kind: u8, guard: u8) -> bool {
    guard == NO_GUARD || (guard <= 63 && kind != IGNORE)
}

/// A range record; each field is judged with those left of it.
fn check_range(record: Record, ty: Type, pattern_allowed: bool) -> Result<(), Refusal> {
    let (a, b) = (record.i64(1), record.i64(9));
    match record.u8(0) {
        0 => {
            record.need(VALUE, 1, ty.holds(a))?;
            record.need(VALUE, 9, ty.holds(b) && a <= b)
        }
        kind => {
            record.need(FIELD, 0, kind == 1 && pattern_allowed && !ty.signed)?;
            record.need(VALUE, 1, a & !ty.ones() == 0)?;
            record.need(VALUE, 9, b & !ty.ones() == 0 && a & !b == 0)
        }
    }
}

/// Reads a table whole.
pub fn decode(bytes: &[u8]) -> Result<Table, Refusal> {
    let layout = check(bytes)?;
    let source = Walk {
        bytes,
        place: 0,
        parts: layout.parts,
    };
    Ok(Table {
        points: source.all(POINTS, |r| read_point(&r)),
        value_bins: source.owners(VALUE_BINS, |r, next| ValueBin {
            point: r.u8(0) as usize,
            kind: read_kind(r.u8(1)),
            form: read_form(r.u8(2), r.u16(3)),
            guard: read_guard(r.u8(5)),
            ranges: own(next, r.u16(6) as usize),
        }),
        value_ranges: source.all(VALUE_RANGES, |r| read_range(&r)),
        transition_bins: source.owners(TRANSITION_BINS, |r, next| TransitionBin {
            point: r.u8(0) as usize,
            kind: read_kind(r.u8(1)),
            guard: read_guard(r.u8(2)),
            sequences: own(next, r.u8(3) as usize),
        }),
        sequences: source.owners(SEQUENCES, |r, next| Sequence {
            steps: own(next, r.u8(0) as usize),
        }),
        steps: source.owners(STEPS, |r, next| Step {
            ranges: own(next, r.u8(0) as usize),
            least: r.u8(1),
            most: r.u8(2),
        }),
        step_ranges: source.all(STEP_RANGES, |r| read_range(&r)),
        crosses: source.owners(CROSSES, |r, next| Cross {
            points: (1..=r.u8(0) as usize).map(|at| r.u8(at) as usize).collect(),
            guard: read_guard(r.u8(5)),
            weight: r.u16(6),
            at_least: r.u32(8),
            bins: own(next, r.u8(12) as usize),
        }),
        cross_bins: source.owners(CROSS_BINS, |r, next| CrossBin {
            kind: read_kind(r.u8(0)),
            guard: read_guard(r.u8(1)),
            tokens: own(next, r.u8(2) as usize),
        }),
        tokens: source.all(TOKENS, |r| read_token(&r)),
        layout,
    })
}

impl<'a> Walk<'a> {
    fn all<T>(&self, section: usize, read: impl FnMut(Record<'a>) -> T) -> Vec<T> {
        let records = (0..self.count(section)).map(|index| self.record(section, index));
        records.map(read).collect()
    }

    /// Records that own records of the next section, with the next free index.
    fn owners<T>(&self, section: usize, read: impl Fn(Record<'a>, &mut usize) -> T) -> Vec<T> {
        let mut next = 0;
        self.all(section, |record| read(record, &mut next))
    }
}

fn own(next: &mut usize, count: usize) -> Owned {
    let first = *next;
    *next += count;
    first..*next
}

fn read_point(record: &Record) -> Point {
    Point {
        ty: Type {
            width: record.u8(0),
            signed: record.u8(1) == 1,
        },
        guard: read_guard(record.u8(2)),
        weight: record.u16(3),
        at_least: record.u32(5),
        auto_max: record.u16(9),
    }
}

fn read_kind(kind: u8) -> Kind {
    match kind {
        COVER => Kind::Cover,
        IGNORE => Kind::Ignore,
        ILLEGAL => Kind::Illegal,
        _ => Kind::Default,
    }
}

fn read_form(form: u8, number: u16) -> Form {
    match form {
        0 => Form::One,
        1 => Form::PerValue,
        _ => Form::Number(number),
    }
}

fn read_guard(guard: u8) -> Option<u8> {
    (guard != NO_GUARD).then_some(guard)
}

fn read_range(record: &Record) -> Range {
    let (a, b) = (record.i64(1), record.i64(9));
    match record.u8(0) {
        0 => Range::Span(a, b),
        _ => Range::Pattern(a, b),
    }
}

fn read_token(record: &Record) -> Token {
    let position = record.u8(1) as usize;
    match record.u8(0) {
        0 => Token::Whole { position },
        1 => Token::Bin {
            position,
            bin: record.u16(2) as usize,
        },
        2 => Token::Meets {
            position,
            lo: record.i64(4),
            hi: record.i64(12),
        },
        3 => Token::Not,
        4 => Token::And,
        _ => Token::Or,
    }
}
