//! A compiled sampler: the yardstick for a call that takes many samples.
//!
//! A table is turned once into what samples fastest, at whatever cost of time and
//! memory: the values of a point are cut into *cells*, within which every bin and
//! step holds all values or none, and each cell names the bins to raise and the
//! run words to keep; each product of a cross names what hitting it raises. A
//! sample is then a search for a cell per point, and lists to walk.
//!
//! It keeps counts, reports and run words as the register machine does. Of the
//! refusals it has those that cost nothing (7, 9 to 13): it never looks at all
//! counts (8), and the table was checked when it was compiled.

use crate::register::range_left;
use crate::table::{self, Form, Kind, Range, Refusal, Table, Token};
use std::collections::{BTreeSet, HashMap};

const FLAG: usize = 0;
const SAMPLES: usize = 1;
const FIRST_PLACE: usize = 2;
const GUARD_WORDS: usize = 4;

/// Points up to this width have a cell for each value if a pattern is listed.
const PATTERN_CELLS_WIDTH: u8 = 10;
/// Points up to this width find the cell in a list of all values.
const DIRECT_WIDTH: u8 = 12;
/// Wider ones search between two of this many marks, at most.
const MARKS: u32 = 1_024;
/// Patterns that are tried at once.
const BLOCK: usize = 16;

/// Guard bits that must be known and 1: none, or a single one.
type GuardBits = u64;

fn guard_bits(guard: Option<u8>) -> GuardBits {
    guard.map_or(0, |bit| 1 << bit)
}

/// A register word to raise: of a part, or of an illegal or default bin.
#[derive(Clone, Copy)]
struct Raise {
    guard: GuardBits,
    word: u32,
    /// Of its point, for a part; the report word, for an illegal bin.
    number: u32,
}

/// What the values of a cell do.
#[derive(Clone, Copy, Default)]
struct Cell {
    /// Into `Compiled::raises`: parts, or illegal bins if the values are removed.
    first: u32,
    end: u32,
    /// Into `Compiled::masks`: for each run word of the point, all ones if its step holds the values.
    masks: u32,
    removed: bool,
    /// By a value bin, patterns aside.
    listed: bool,
    /// No step holds the values, patterns aside.
    still: bool,
}

/// Patterns of a wide point, in blocks; those that fill up the last fit nothing.
struct Patterns<T> {
    masks: Vec<[u32; BLOCK]>,
    bits: Vec<[u32; BLOCK]>,
    meanings: Vec<T>,
}

impl<T: Copy> Patterns<T> {
    fn new() -> Patterns<T> {
        Patterns {
            masks: Vec::new(),
            bits: Vec::new(),
            meanings: Vec::new(),
        }
    }

    fn push(&mut self, mask: u32, bits: u32, meaning: T) {
        let at = self.meanings.len() % BLOCK;
        if at == 0 {
            self.masks.push([0; BLOCK]);
            self.bits.push([1; BLOCK]);
        }
        let last = self.masks.len() - 1;
        self.masks[last][at] = mask;
        self.bits[last][at] = bits;
        self.meanings.push(meaning);
    }

    fn is_empty(&self) -> bool {
        self.meanings.is_empty()
    }

    #[inline]
    fn each_fitting(&self, value: u32, mut give: impl FnMut(T)) {
        for (block, (masks, bits)) in self.masks.iter().zip(&self.bits).enumerate() {
            let mut any = 0;
            for lane in 0..BLOCK {
                any |= u32::from(value & masks[lane] == bits[lane]);
            }
            if any != 0 {
                for lane in 0..BLOCK {
                    if value & masks[lane] == bits[lane] {
                        give(self.meanings[block * BLOCK + lane]);
                    }
                }
            }
        }
    }
}

/// How a point finds the cell of a value, counted from the type's lowest.
enum Search {
    /// The cell of each value.
    Direct(Vec<u16>),
    /// Each cell's last value; between which of them a value lies, by its upper
    /// bits after the first cell is passed.
    Marked {
        lasts: Vec<u32>,
        base: u32,
        shift: u32,
        marks: Vec<u32>,
    },
    /// Auto bins alone: a factor by which a value's bin is the upper half of the product.
    Dealt { factor: u64, last: u32 },
}

struct Point {
    /// Bits above the width.
    above: u32,
    /// The sign bit, which turns a word into a number counted from the lowest.
    sign: u32,
    guard: GuardBits,
    search: Search,
    /// Into `Compiled::cells`.
    first_cell: usize,
    /// Cover bins' patterns of a wide point.
    patterns: Patterns<Raise>,
    /// The default bin.
    default: Option<Raise>,
    /// Patterns of steps of a wide point: the run words of the step, from the point's first.
    step_patterns: Patterns<(u16, u16)>,
    /// Transition bins, those first that take lengths from others.
    transitions: Vec<Transition>,
    /// Run words of all its sequences.
    run_words: usize,
}

struct Transition {
    kind: Kind,
    raise: Raise,
    sequences: Vec<Sequence>,
}

struct Sequence {
    /// Its run words in the register, and in the point's masks.
    first: usize,
    words: usize,
    mask: usize,
    /// Words from which the last step may end.
    ready: usize,
    /// Steps that follow one with several lengths: the step's first word, and the
    /// first of the words before it at which the step before may end.
    joins: Vec<(usize, usize)>,
}

struct Cross {
    guard: GuardBits,
    points: Vec<usize>,
    sizes: Vec<usize>,
    /// Register word of the first product.
    first: usize,
    /// Per product: 0, the product itself is raised; else the bins that are, as
    /// bits, and [`TAKEN`].
    acts: Vec<u32>,
    bins: Vec<Raise>,
    /// Bins with a report word.
    illegal: u32,
}

/// Some cross bin selects the product.
const TAKEN: u32 = 1 << 16;

pub struct Compiled {
    words: usize,
    illegal_places: usize,
    unknown_at: usize,
    points: Vec<Point>,
    crosses: Vec<Cross>,
    cells: Vec<Cell>,
    raises: Vec<Raise>,
    masks: Vec<u32>,
    /// The point's masks where patterns add to them.
    scratch: Vec<u32>,
    /// By point; written before it is read, in every sample.
    hits: Vec<Hit>,
}

/// The parts of a point that a sample hit.
#[derive(Clone, Copy)]
struct Hit {
    parts: [u16; 256],
    count: usize,
    /// The first, all that is needed where there is one.
    first: usize,
}

/// What a sample writes to, and its guard bits that are 1 and known.
struct Taking<'a> {
    register: &'a mut [u32],
    report: &'a mut [u32],
    known: u64,
}

impl Taking<'_> {
    #[inline]
    fn holds(&self, guard: GuardBits) -> bool {
        self.known & guard == guard
    }

    #[inline]
    fn raise(&mut self, raise: &Raise) {
        self.register[raise.word as usize] += 1;
    }

    #[inline]
    fn report(&mut self, raise: &Raise) {
        self.report[raise.number as usize] = 1;
    }
}

/// Sampling.
impl Compiled {
    pub fn read(bytes: &[u8]) -> Result<Compiled, Refusal> {
        table::decode(bytes).map(|table| Compiler::new(&table).compile())
    }

    /// 7, 12, 13, 11, 10, 9, in this order; 8 is not looked for.
    fn refuse(&self, register: &[u32], sample: &[u32], report: &[u32]) -> u32 {
        let above = |(words, point): (&[u32], &Point)| (words[0] | words[1]) & point.above;
        if register.len() < self.words {
            7
        } else if sample.len() != GUARD_WORDS + 2 * self.points.len() {
            12
        } else if sample[GUARD_WORDS..]
            .chunks_exact(2)
            .zip(&self.points)
            .map(above)
            .fold(0, |all, bits| all | bits)
            != 0
        {
            13
        } else if report.len() < self.illegal_places {
            11
        } else if register[FLAG] == 0 {
            10
        } else if register[SAMPLES] == u32::MAX {
            9
        } else {
            0
        }
    }

    /// A sample on a register whose counts are possible.
    pub fn sample(&mut self, register: &mut [u32], sample: &[u32], report: &mut [u32]) -> u32 {
        let number = self.refuse(register, sample, report);
        if number != 0 {
            return number;
        }
        report[..self.illegal_places].fill(0);
        register[SAMPLES] += 1;
        let pair = |low: u32, high: u32| u64::from(low) | u64::from(high) << 32;
        let taking = &mut Taking {
            register: &mut register[..self.words],
            report: &mut report[..self.illegal_places],
            known: pair(sample[0] & !sample[2], sample[1] & !sample[3]),
        };
        let points = self
            .points
            .iter()
            .zip(sample[GUARD_WORDS..].chunks_exact(2));
        for (index, ((point, words), hit)) in points.zip(&mut self.hits).enumerate() {
            hit.count = 0;
            if !taking.holds(point.guard) {
                continue;
            }
            if words[1] != 0 {
                taking.register[self.unknown_at + index] += 1;
                point.forget_runs(taking.register);
                continue;
            }
            let value = words[0] ^ point.sign;
            let cell = &self.cells[point.first_cell + point.search.cell(value)];
            let raises = &self.raises[cell.first as usize..cell.end as usize];
            point.take_value(taking, value, cell, raises, hit);
            if !point.transitions.is_empty() {
                let masks = &self.masks[cell.masks as usize..][..point.run_words];
                let scratch = &mut self.scratch;
                point.take_step(taking, value, cell, masks, scratch);
            }
        }
        for cross in &self.crosses {
            cross.take(taking, &self.hits);
        }
        0
    }
}

impl Search {
    #[inline]
    fn cell(&self, value: u32) -> usize {
        match self {
            Search::Direct(cells) => cells[value as usize] as usize,
            Search::Dealt { factor, last } => {
                let bin = ((u128::from(value) * u128::from(*factor)) >> 64) as u32;
                bin.min(*last) as usize
            }
            Search::Marked {
                lasts,
                base,
                shift,
                marks,
            } => {
                let mark = (value.saturating_sub(*base) >> shift).min(marks.len() as u32 - 2);
                let mut at = marks[mark as usize] as usize;
                let mut size = marks[mark as usize + 1] as usize - at;
                // The first cell whose last value is not below the value.
                while size > 0 {
                    let half = size / 2;
                    let below = lasts[at + half] < value;
                    at = if below { at + half + 1 } else { at };
                    size = if below { size - half - 1 } else { half };
                }
                at
            }
        }
    }
}

impl Point {
    #[inline]
    fn take_value(
        &self,
        taking: &mut Taking,
        value: u32,
        cell: &Cell,
        raises: &[Raise],
        hit: &mut Hit,
    ) {
        if cell.removed {
            for raise in raises {
                if taking.holds(raise.guard) {
                    taking.raise(raise);
                    taking.report(raise);
                }
            }
            return;
        }
        for raise in raises {
            if taking.holds(raise.guard) {
                taking.raise(raise);
                hit.add(raise.number);
            }
        }
        let mut listed = cell.listed;
        if !self.patterns.is_empty() {
            self.patterns.each_fitting(value, |raise| {
                listed = true;
                if taking.holds(raise.guard) && !hit.has(raise.number) {
                    taking.raise(&raise);
                    hit.add(raise.number);
                }
            });
        }
        if let (Some(default), false) = (&self.default, listed) {
            if taking.holds(default.guard) {
                taking.raise(default);
            }
        }
    }

    fn forget_runs(&self, register: &mut [u32]) {
        for sequence in self.transitions.iter().flat_map(|bin| &bin.sequences) {
            register[sequence.first..sequence.first + sequence.words].fill(0);
        }
    }

    #[inline]
    fn take_step(
        &self,
        taking: &mut Taking,
        value: u32,
        cell: &Cell,
        masks: &[u32],
        scratch: &mut [u32],
    ) {
        if self.step_patterns.is_empty() {
            match cell.still {
                true => self.forget_runs(taking.register),
                false => self.move_runs(taking, masks),
            }
            return;
        }
        let own = &mut scratch[..masks.len()];
        own.copy_from_slice(masks);
        self.step_patterns.each_fitting(value, |(first, end)| {
            own[first as usize..end as usize].fill(u32::MAX);
        });
        self.move_runs(taking, own);
    }

    #[inline]
    fn move_runs(&self, taking: &mut Taking, masks: &[u32]) {
        let mut taken = 0;
        for bin in &self.transitions {
            let mut matched = 0;
            for sequence in &bin.sequences {
                let run = &mut taking.register[sequence.first..sequence.first + sequence.words];
                matched |= sequence.move_run(run, &masks[sequence.mask..][..sequence.words]);
            }
            let raised = match bin.kind {
                Kind::Cover => matched & !taken,
                Kind::Illegal => {
                    taken |= matched;
                    matched
                }
                _ => {
                    taken |= matched;
                    0
                }
            };
            if raised != 0 && taking.holds(bin.raise.guard) {
                taking.raise(&bin.raise);
                if bin.kind == Kind::Illegal {
                    taking.report(&bin.raise);
                }
            }
        }
    }
}

impl Sequence {
    /// The next run words; the lengths that match the whole sequence. Every word
    /// follows the one before it, and a step's first word also the others at which
    /// the step before may end.
    #[inline]
    fn move_run(&self, run: &mut [u32], masks: &[u32]) -> u32 {
        let mut end = run.len();
        for &(first, ready) in &self.joins {
            shift(&mut run[first..end], &masks[first + 1..end]);
            let ends = run[ready..first].iter().fold(0, |all, word| all | word);
            run[first] = ends << 1 & masks[first];
            end = first;
        }
        shift(&mut run[..end], &masks[1..end]);
        run[0] = 1 & masks[0];
        run[self.ready..].iter().fold(0, |all, word| all | word)
    }
}

/// Moves each word up by one, a reading longer, where the mask keeps it; the first stays.
#[inline]
fn shift(run: &mut [u32], masks: &[u32]) {
    for at in (1..run.len()).rev() {
        run[at] = run[at - 1] << 1 & masks[at - 1];
    }
}

impl Hit {
    #[inline]
    fn add(&mut self, part: u32) {
        if self.count == 0 {
            self.first = part as usize;
        }
        self.parts[self.count] = part as u16;
        self.count += 1;
    }

    fn has(&self, part: u32) -> bool {
        self.parts[..self.count].contains(&(part as u16))
    }
}

impl Cross {
    #[inline]
    fn take(&self, taking: &mut Taking, hits: &[Hit]) {
        if !taking.holds(self.guard) {
            return;
        }
        let count = |&point: &usize| hits[point].count;
        let products: usize = self.points.iter().map(count).product();
        if products == 0 {
            return;
        }
        let raised = match products {
            1 => {
                let number =
                    |number, (&point, size): (&usize, &usize)| number * size + hits[point].first;
                self.hit(
                    taking.register,
                    self.points.iter().zip(&self.sizes).fold(0, number),
                )
            }
            _ => self.take_from(taking.register, hits, 0, 0),
        };
        let mut bins = raised & (TAKEN - 1);
        while bins != 0 {
            let nth = bins.trailing_zeros();
            bins &= bins - 1;
            let bin = &self.bins[nth as usize];
            if taking.holds(bin.guard) {
                taking.raise(bin);
                if self.illegal >> nth & 1 == 1 {
                    taking.report(bin);
                }
            }
        }
    }

    /// The products with these parts so far; the bins that they raise.
    fn take_from(&self, register: &mut [u32], hits: &[Hit], position: usize, number: usize) -> u32 {
        let hit = &hits[self.points[position]];
        let first = number * self.sizes[position];
        let parts = hit.parts[..hit.count]
            .iter()
            .map(|&part| first + part as usize);
        if position + 1 == self.points.len() {
            parts.fold(0, |all, product| all | self.hit(register, product))
        } else {
            parts.fold(0, |all, number| {
                all | self.take_from(register, hits, position + 1, number)
            })
        }
    }

    #[inline]
    fn hit(&self, register: &mut [u32], product: usize) -> u32 {
        let act = self.acts[product];
        register[self.first + product] += u32::from(act == 0);
        act
    }
}

/// What a span or a pattern of a point's values means.
#[derive(Clone, Copy)]
enum Meaning {
    /// A part, by its number in the point.
    Part(usize),
    /// An ignore bin, or an illegal bin by its number in the point.
    Removed(Option<usize>),
    /// Run words of a step, from the point's first.
    Step(u16, u16),
}

/// Everything that a point lists, values counted from the type's lowest.
#[derive(Default)]
struct Listed {
    spans: Vec<(u32, u32, Meaning)>,
    patterns: Vec<(u32, u32, Meaning)>,
    parts: Vec<Raise>,
    illegal: Vec<Raise>,
    default: Option<Raise>,
    transitions: Vec<Transition>,
    run_words: usize,
}

impl Listed {
    /// Listed values dealt over parts: the same number each, the last also the rest.
    fn deal(&mut self, spans: &[(u32, u32)], parts: u64, first_part: usize) {
        let length = |&(lo, hi): &(u32, u32)| u64::from(hi - lo) + 1;
        let each = (spans.iter().map(length).sum::<u64>() / parts).max(1);
        let mut position = 0u64;
        for &(lo, hi) in spans {
            let (mut from, end) = (u64::from(lo), u64::from(hi) + 1);
            while from < end {
                let part = (position / each).min(parts - 1);
                let to = match part + 1 == parts {
                    true => end,
                    false => end.min(from + each - position % each),
                };
                let meaning = Meaning::Part(first_part + part as usize);
                self.spans.push((from as u32, (to - 1) as u32, meaning));
                position += to - from;
                from = to;
            }
        }
    }

    fn range(&mut self, lowest: i64, range: &Range, meaning: Meaning) {
        match *range {
            Range::Span(lo, hi) => {
                let span = ((lo - lowest) as u32, (hi - lowest) as u32);
                self.spans.push((span.0, span.1, meaning));
            }
            Range::Pattern(bits, mask) => self.patterns.push((mask as u32, bits as u32, meaning)),
        }
    }
}

/// What crosses ask of a point: its parts in each cell, and those that patterns make.
struct Held {
    lowest: i64,
    parts: usize,
    /// Last value and parts of each cell; none where the values are removed.
    cells: Vec<(u32, PartSet)>,
    patterns: Vec<(usize, Range)>,
    removed: Vec<(i64, i64)>,
    /// First part and number of parts, by value bin.
    bins: HashMap<usize, (usize, usize)>,
}

type PartSet = [u64; 4];

fn add(set: &mut PartSet, part: usize) {
    set[part / 64] |= 1 << (part % 64);
}

impl Held {
    /// Parts that keep a value in lo..hi.
    fn meeting(&self, lo: i64, hi: i64) -> PartSet {
        let mut met = PartSet::default();
        let (from, to) = ((lo - self.lowest) as u32, (hi - self.lowest) as u32);
        let first = self.cells.partition_point(|&(last, _)| last < from);
        for (index, (_, parts)) in self.cells.iter().enumerate().skip(first) {
            if index > 0 && self.cells[index - 1].0 >= to {
                break;
            }
            met = std::array::from_fn(|word| met[word] | parts[word]);
        }
        for (part, pattern) in &self.patterns {
            if range_left(&self.removed, pattern, lo, hi) {
                add(&mut met, *part);
            }
        }
        met
    }
}

/// Compiling.
struct Compiler<'t> {
    table: &'t Table,
    /// The next place's register word, the next report word.
    word: u32,
    report: u32,
    /// First run word of each sequence.
    runs: Vec<usize>,
    held: Vec<Held>,
    compiled: Compiled,
    /// Lists that cells share: of raises, and of masks.
    lists: HashMap<Vec<(u32, u32)>, (u32, u32)>,
    mask_lists: HashMap<Vec<u32>, u32>,
}

impl<'t> Compiler<'t> {
    fn new(table: &'t Table) -> Compiler<'t> {
        let layout = &table.layout;
        let mut word = layout.runs_at();
        let runs = table.sequences.iter().map(|sequence| {
            let steps = &table.steps[sequence.steps.clone()];
            let first = word;
            word += steps.iter().map(|step| step.most as usize).sum::<usize>();
            first
        });
        Compiler {
            runs: runs.collect(),
            table,
            word: FIRST_PLACE as u32,
            report: 0,
            held: Vec::new(),
            compiled: Compiled {
                words: layout.words(),
                illegal_places: layout.illegal_places,
                unknown_at: layout.unknown_at(),
                points: Vec::new(),
                crosses: Vec::new(),
                cells: Vec::new(),
                raises: Vec::new(),
                masks: Vec::new(),
                scratch: vec![0; layout.run_words],
                hits: vec![
                    Hit {
                        parts: [0; 256],
                        count: 0,
                        first: 0,
                    };
                    layout.points
                ],
            },
            lists: HashMap::new(),
            mask_lists: HashMap::new(),
        }
    }

    fn compile(mut self) -> Compiled {
        for point in 0..self.table.points.len() {
            self.point(point);
        }
        for cross in 0..self.table.crosses.len() {
            self.cross(cross);
        }
        self.compiled
    }

    /// The next place, and the next report word if the bin is illegal.
    fn raise(&mut self, kind: Kind, guard: Option<u8>) -> Raise {
        let raise = Raise {
            guard: guard_bits(guard),
            word: self.word,
            number: self.report,
        };
        self.word += u32::from(kind != Kind::Ignore);
        self.report += u32::from(kind == Kind::Illegal);
        raise
    }

    fn point(&mut self, point: usize) {
        let record = &self.table.points[point];
        let ty = record.ty;
        let mut listed = Listed::default();
        let bins = self.list_values(point, &mut listed);
        let covers = |bin: &table::TransitionBin| bin.point == point && bin.kind == Kind::Cover;
        let has_transitions = self.table.transition_bins.iter().any(covers);
        let is_auto = listed.parts.is_empty() && listed.default.is_none() && !has_transitions;
        if is_auto {
            let parts = table::auto_bins(ty.width, record.auto_max);
            self.add_parts(&mut listed, parts, None);
            listed.deal(&[(0, ty.ones() as u32)], parts as u64, 0);
        }
        let deals_alone = is_auto && listed.spans.len() == listed.parts.len();
        self.list_steps(point, &mut listed);
        let deals_alone = deals_alone && listed.transitions.is_empty();

        let folds = ty.width <= PATTERN_CELLS_WIDTH && !listed.patterns.is_empty();
        let lasts = cell_ends(&listed, ty.ones() as u32, folds);
        let first_cell = self.compiled.cells.len();
        let removed = self.cells(&listed, &lasts, folds, ty.lowest());
        let search = match deals_alone && ty.width > DIRECT_WIDTH {
            true => Search::Dealt {
                factor: u64::MAX / ((1u64 << ty.width) / listed.parts.len() as u64) + 1,
                last: listed.parts.len() as u32 - 1,
            },
            false => search(&lasts, ty.width),
        };
        let (mut patterns, mut step_patterns) = (Patterns::new(), Patterns::new());
        let mut part_patterns = Vec::new();
        if !folds {
            for &(mask, bits, meaning) in &listed.patterns {
                match meaning {
                    Meaning::Part(part) => {
                        patterns.push(mask, bits, listed.parts[part]);
                        let pattern = Range::Pattern(i64::from(bits), i64::from(mask));
                        part_patterns.push((part, pattern));
                    }
                    Meaning::Step(first, end) => step_patterns.push(mask, bits, (first, end)),
                    Meaning::Removed(_) => {}
                }
            }
        }
        let cells = &self.compiled.cells[first_cell..];
        let parts_of = |cell: &Cell| {
            let mut set = PartSet::default();
            if !cell.removed {
                let raises = &self.compiled.raises[cell.first as usize..cell.end as usize];
                raises
                    .iter()
                    .for_each(|raise| add(&mut set, raise.number as usize));
            }
            set
        };
        self.held.push(Held {
            lowest: ty.lowest(),
            parts: listed.parts.len(),
            cells: lasts
                .iter()
                .copied()
                .zip(cells.iter().map(parts_of))
                .collect(),
            patterns: part_patterns,
            removed,
            bins,
        });
        self.compiled.points.push(Point {
            above: !(ty.ones() as u32),
            sign: if ty.signed { 1 << (ty.width - 1) } else { 0 },
            guard: guard_bits(record.guard),
            search,
            first_cell,
            patterns,
            default: listed.default,
            step_patterns,
            transitions: listed.transitions,
            run_words: listed.run_words,
        });
    }

    fn add_parts(&mut self, listed: &mut Listed, parts: usize, guard: Option<u8>) {
        for _ in 0..parts {
            let number = listed.parts.len() as u32;
            let raise = self.raise(Kind::Cover, guard);
            listed.parts.push(Raise { number, ..raise });
        }
    }

    /// The point's value bins in record order; the parts of each.
    fn list_values(&mut self, point: usize, listed: &mut Listed) -> HashMap<usize, (usize, usize)> {
        let table = self.table;
        let lowest = table.points[point].ty.lowest();
        let mut parts_of_bins = HashMap::new();
        for (index, bin) in table.value_bins.iter().enumerate() {
            if bin.point != point {
                continue;
            }
            let ranges = &table.value_ranges[bin.ranges.clone()];
            let spans: Vec<(u32, u32)> = ranges
                .iter()
                .filter_map(|range| match *range {
                    Range::Span(lo, hi) => Some(((lo - lowest) as u32, (hi - lowest) as u32)),
                    Range::Pattern(..) => None,
                })
                .collect();
            let first = listed.parts.len();
            match (bin.kind, bin.form) {
                (Kind::Cover, Form::One) => {
                    self.add_parts(listed, 1, bin.guard);
                    for range in ranges {
                        listed.range(lowest, range, Meaning::Part(first));
                    }
                }
                (Kind::Cover, Form::PerValue) => {
                    let values: BTreeSet<u32> =
                        spans.iter().flat_map(|&(lo, hi)| lo..=hi).collect();
                    self.add_parts(listed, values.len(), bin.guard);
                    for (nth, value) in values.into_iter().enumerate() {
                        listed
                            .spans
                            .push((value, value, Meaning::Part(first + nth)));
                    }
                }
                (Kind::Cover, Form::Number(number)) => {
                    self.add_parts(listed, number as usize, bin.guard);
                    listed.deal(&spans, u64::from(number), first);
                }
                (Kind::Default, _) => listed.default = Some(self.raise(bin.kind, bin.guard)),
                (kind, _) => {
                    let raise = self.raise(kind, bin.guard);
                    let number = (kind == Kind::Illegal).then_some(listed.illegal.len());
                    if number.is_some() {
                        listed.illegal.push(raise);
                    }
                    for range in ranges {
                        listed.range(lowest, range, Meaning::Removed(number));
                    }
                }
            }
            if bin.kind == Kind::Cover {
                parts_of_bins.insert(index, (first, listed.parts.len() - first));
            }
        }
        parts_of_bins
    }

    /// The point's transition bins: places in section order, kept with those first
    /// that take lengths from others.
    fn list_steps(&mut self, point: usize, listed: &mut Listed) {
        let table = self.table;
        let lowest = table.points[point].ty.lowest();
        for bin in table
            .transition_bins
            .iter()
            .filter(|bin| bin.point == point)
        {
            let raise = self.raise(bin.kind, bin.guard);
            let mut sequences = Vec::new();
            for index in bin.sequences.clone() {
                let steps = &table.steps[table.sequences[index].steps.clone()];
                let first_mask = listed.run_words;
                let mut joins = Vec::new();
                let (mut word, mut ready) = (0, 0);
                for (nth, step) in steps.iter().enumerate() {
                    let most = step.most as usize;
                    if nth > 0 && ready + 1 < word {
                        joins.push((word, ready));
                    }
                    let first = (first_mask + word) as u16;
                    let meaning = Meaning::Step(first, first + u16::from(step.most));
                    for range in &table.step_ranges[step.ranges.clone()] {
                        listed.range(lowest, range, meaning);
                    }
                    ready = word + step.least as usize - 1;
                    word += most;
                }
                joins.reverse();
                listed.run_words += word;
                sequences.push(Sequence {
                    first: self.runs[index],
                    words: word,
                    mask: first_mask,
                    ready,
                    joins,
                });
            }
            listed.transitions.push(Transition {
                kind: bin.kind,
                raise,
                sequences,
            });
        }
        listed
            .transitions
            .sort_by_key(|bin| bin.kind == Kind::Cover);
    }

    /// Fills the cells with these last values; the removed spans, joined.
    fn cells(
        &mut self,
        listed: &Listed,
        lasts: &[u32],
        folds: bool,
        lowest: i64,
    ) -> Vec<(i64, i64)> {
        #[derive(Clone, Default)]
        struct Draft {
            parts: Vec<usize>,
            illegal: Vec<usize>,
            steps: Vec<(u16, u16)>,
            removed: bool,
            listed: bool,
        }
        impl Draft {
            fn take(&mut self, meaning: Meaning) {
                match meaning {
                    Meaning::Part(part) => self.parts.push(part),
                    Meaning::Removed(illegal) => {
                        self.illegal.extend(illegal);
                        self.removed = true;
                    }
                    Meaning::Step(first, end) => self.steps.push((first, end)),
                }
                self.listed |= !matches!(meaning, Meaning::Step(..));
            }
        }
        let mut drafts = vec![Draft::default(); lasts.len()];
        for &(lo, hi, meaning) in &listed.spans {
            let first = lasts.partition_point(|&last| last < lo);
            for (draft, &last) in drafts[first..].iter_mut().zip(&lasts[first..]) {
                draft.take(meaning);
                if last == hi {
                    break;
                }
            }
        }
        if folds {
            for &(mask, bits, meaning) in &listed.patterns {
                for (value, draft) in drafts.iter_mut().enumerate() {
                    if value as u32 & mask == bits {
                        draft.take(meaning);
                    }
                }
            }
        }
        let mut removed: Vec<(i64, i64)> = Vec::new();
        let mut from = 0;
        for (draft, &last) in drafts.iter_mut().zip(lasts) {
            let span = (lowest + i64::from(from), lowest + i64::from(last));
            match removed.last_mut() {
                _ if !draft.removed => {}
                Some(before) if before.1 + 1 == span.0 => before.1 = span.1,
                _ => removed.push(span),
            }
            from = last.wrapping_add(1);
            let (numbers, all) = match draft.removed {
                true => (&mut draft.illegal, &listed.illegal),
                false => (&mut draft.parts, &listed.parts),
            };
            numbers.sort_unstable();
            numbers.dedup();
            let raises: Vec<Raise> = numbers.iter().map(|&number| all[number]).collect();
            let mut masks = vec![0; listed.run_words];
            for &(first, end) in &draft.steps {
                masks[first as usize..end as usize].fill(u32::MAX);
            }
            let (first, end) = self.shared_raises(&raises, draft.removed);
            let still = masks.iter().all(|&mask| mask == 0);
            let masks = self.shared_masks(masks);
            self.compiled.cells.push(Cell {
                first,
                end,
                still,
                masks,
                removed: draft.removed,
                listed: draft.listed,
            });
        }
        removed
    }

    fn shared_raises(&mut self, raises: &[Raise], removed: bool) -> (u32, u32) {
        let raises_so_far = &mut self.compiled.raises;
        let key = raises.iter().map(|raise| (raise.word, u32::from(removed)));
        *self.lists.entry(key.collect()).or_insert_with(|| {
            let first = raises_so_far.len() as u32;
            raises_so_far.extend(raises);
            (first, raises_so_far.len() as u32)
        })
    }

    fn shared_masks(&mut self, masks: Vec<u32>) -> u32 {
        let masks_so_far = &mut self.compiled.masks;
        *self.mask_lists.entry(masks).or_insert_with_key(|masks| {
            masks_so_far.extend(masks);
            (masks_so_far.len() - masks.len()) as u32
        })
    }

    fn cross(&mut self, index: usize) {
        let cross = &self.table.crosses[index];
        let sizes: Vec<usize> = cross.points.iter().map(|&p| self.held[p].parts).collect();
        let products: usize = sizes.iter().product();
        let (mut marks, mut bins) = (vec![0u32; products], Vec::new());
        let (mut covers, mut illegal) = (0u32, 0u32);
        for (nth, bin) in self.table.cross_bins[cross.bins.clone()].iter().enumerate() {
            bins.push(self.raise(bin.kind, bin.guard));
            covers |= u32::from(bin.kind == Kind::Cover) << nth;
            illegal |= u32::from(bin.kind == Kind::Illegal) << nth;
            let mut tokens = self.table.tokens[bin.tokens.clone()].iter();
            let selected = self.select(&cross.points, &sizes, products, &mut tokens);
            for (mark, selected) in marks.iter_mut().zip(selected) {
                *mark |= u32::from(selected) << nth;
            }
        }
        let acts = marks.iter().map(|&mark| match mark {
            0 => 0,
            _ if mark & !covers == 0 => mark | TAKEN,
            _ => mark & illegal | TAKEN,
        });
        self.compiled.crosses.push(Cross {
            guard: guard_bits(cross.guard),
            points: cross.points.clone(),
            first: self.word as usize,
            acts: acts.collect(),
            sizes,
            bins,
            illegal,
        });
        self.word += products as u32;
    }

    /// Which products the next expression selects.
    fn select(
        &self,
        points: &[usize],
        sizes: &[usize],
        products: usize,
        tokens: &mut std::slice::Iter<Token>,
    ) -> Vec<bool> {
        let with = |position: usize, set: &PartSet| {
            let after: usize = sizes[position + 1..].iter().product();
            let part = |product: usize| product / after % sizes[position];
            let is_in = |part: usize| set[part / 64] >> (part % 64) & 1 == 1;
            (0..products).map(|product| is_in(part(product))).collect()
        };
        match tokens.next() {
            None => vec![false; products],
            Some(Token::Whole { .. }) => vec![true; products],
            Some(&Token::Bin { position, bin }) => {
                let (first, parts) = self.held[points[position]].bins[&bin];
                let mut named = PartSet::default();
                (first..first + parts).for_each(|part| add(&mut named, part));
                with(position, &named)
            }
            Some(&Token::Meets { position, lo, hi }) => {
                with(position, &self.held[points[position]].meeting(lo, hi))
            }
            Some(Token::Not) => {
                let mut selected = self.select(points, sizes, products, tokens);
                selected.iter_mut().for_each(|product| *product = !*product);
                selected
            }
            Some(token) => {
                let mut left = self.select(points, sizes, products, tokens);
                let right = self.select(points, sizes, products, tokens);
                for (left, right) in left.iter_mut().zip(right) {
                    *left = match token {
                        Token::And => *left && right,
                        _ => *left || right,
                    };
                }
                left
            }
        }
    }
}

/// The last value of each cell, ascending.
fn cell_ends(listed: &Listed, highest: u32, each_value: bool) -> Vec<u32> {
    if each_value {
        return (0..=highest).collect();
    }
    let spans = listed.spans.iter();
    let mut lasts: Vec<u32> = spans
        .flat_map(|&(lo, hi, _)| [lo.checked_sub(1), Some(hi)])
        .flatten()
        .collect();
    lasts.push(highest);
    lasts.sort_unstable();
    lasts.dedup();
    lasts
}

fn search(lasts: &[u32], width: u8) -> Search {
    if width <= DIRECT_WIDTH {
        let mut cells = Vec::with_capacity(1 << width);
        for (cell, &last) in lasts.iter().enumerate() {
            cells.resize(last as usize + 1, cell as u16);
        }
        return Search::Direct(cells);
    }
    let (base, top) = match lasts {
        [first, .., before, _] => (first + 1, *before),
        _ => (0, 0),
    };
    let wanted = MARKS.min(4 * lasts.len() as u32);
    let reach = top.saturating_sub(base);
    let shift = (0..32).find(|shift| reach >> shift < wanted).unwrap_or(31);
    let cell = |value: u64| lasts.partition_point(|&last| u64::from(last) < value) as u32;
    let mut marks = vec![0];
    for mark in 1..=reach >> shift {
        marks.push(cell(u64::from(base) + (u64::from(mark) << shift)));
    }
    marks.push(lasts.len() as u32 - 1);
    Search::Marked {
        lasts: lasts.to_vec(),
        base,
        shift,
        marks,
    }
}
