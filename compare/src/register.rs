//! The register machine: a direct sampler over register words.
//!
//! The free functions take the table's bytes and check them at every call.
//! [`Model`] is a table decoded once, with the place of every bin worked out;
//! its methods do the same work without reading the bytes again.

use crate::table::{self, Form, Kind, Layout, Owned, Range, Table, Token, Type};

const FLAG: usize = 0;
const SAMPLES: usize = 1;
const FIRST_PLACE: usize = 2;
/// Words of a sample before the first point's.
const GUARD_WORDS: usize = 4;

/// Flag 1, all else 0. Words beyond the register stay.
pub fn reset(bytes: &[u8], register: &mut [u32]) -> u32 {
    match table::check(bytes) {
        Ok(layout) => reset_words(&layout, register),
        Err(refusal) => refusal.number,
    }
}

pub fn start(bytes: &[u8], register: &mut [u32]) -> u32 {
    match table::check(bytes) {
        Ok(layout) => start_words(&layout, register),
        Err(refusal) => refusal.number,
    }
}

pub fn stop(bytes: &[u8], register: &mut [u32]) -> u32 {
    match table::check(bytes) {
        Ok(layout) => stop_words(&layout, register),
        Err(refusal) => refusal.number,
    }
}

pub fn sample(bytes: &[u8], register: &mut [u32], sample: &[u32], report: &mut [u32]) -> u32 {
    match Model::read(bytes) {
        Ok(model) => model.sample(register, sample, report),
        Err(refusal) => refusal.number,
    }
}

/// The number of the first refused sample, and how many were taken before it.
pub fn samples(
    bytes: &[u8],
    register: &mut [u32],
    samples: &[u32],
    reports: &mut [u32],
) -> (u32, usize) {
    match Model::read(bytes) {
        Ok(model) => model.samples(register, samples, reports),
        Err(refusal) => (refusal.number, 0),
    }
}

/// The refusal number and the place's count.
pub fn place_count(bytes: &[u8], register: &[u32], place: usize) -> (u32, u32) {
    match table::check(bytes) {
        Ok(layout) => count_at(&layout, register, FIRST_PLACE, layout.places, place),
        Err(refusal) => (refusal.number, 0),
    }
}

/// The refusal number and the point's unknown count.
pub fn unknown_count(bytes: &[u8], register: &[u32], point: usize) -> (u32, u32) {
    match table::check(bytes) {
        Ok(layout) => count_at(&layout, register, layout.unknown_at(), layout.points, point),
        Err(refusal) => (refusal.number, 0),
    }
}

/// The refusal number and the item's percentage, if it has one.
pub fn item_figure(bytes: &[u8], register: &[u32], item: usize) -> (u32, Option<f64>) {
    match Model::read(bytes) {
        Ok(model) => model.item_figure(register, item),
        Err(refusal) => (refusal.number, None),
    }
}

/// The refusal number and the group's millionths of a percent, if any.
pub fn group_figure(bytes: &[u8], register: &[u32]) -> (u32, Option<u32>) {
    match Model::read(bytes) {
        Ok(model) => model.group_figure(register),
        Err(refusal) => (refusal.number, None),
    }
}

fn reset_words(layout: &Layout, register: &mut [u32]) -> u32 {
    if register.len() < layout.words() {
        return 7;
    }
    register[..layout.words()].fill(0);
    register[FLAG] = 1;
    0
}

fn start_words(layout: &Layout, register: &mut [u32]) -> u32 {
    let number = refuse_register(layout, register);
    if number == 0 && register[FLAG] == 0 {
        register[FLAG] = 1;
        register[layout.runs_at()..layout.words()].fill(0);
    }
    number
}

fn stop_words(layout: &Layout, register: &mut [u32]) -> u32 {
    let number = refuse_register(layout, register);
    if number == 0 {
        register[FLAG] = 0;
    }
    number
}

/// 7 and 8, in this order.
fn refuse_register(layout: &Layout, register: &[u32]) -> u32 {
    if register.len() < layout.words() {
        return 7;
    }
    let samples = register[SAMPLES];
    let counts = &register[FIRST_PLACE..layout.runs_at()];
    if register[FLAG] > 1 || counts.iter().any(|&count| count > samples) {
        return 8;
    }
    0
}

fn count_at(
    layout: &Layout,
    register: &[u32],
    first: usize,
    count: usize,
    index: usize,
) -> (u32, u32) {
    match refuse_register(layout, register) {
        0 if index < count => (0, register[first + index]),
        0 => (14, 0),
        number => (number, 0),
    }
}

/// What a place counts.
#[derive(Clone, Copy, Debug, PartialEq, Eq, PartialOrd, Ord)]
pub enum PlaceKind {
    CoverValue,
    Auto,
    IllegalValue,
    Default,
    CoverTransition,
    IllegalTransition,
    CoverCross,
    IllegalCross,
    Product,
}

impl PlaceKind {
    pub fn is_illegal(self) -> bool {
        use PlaceKind::*;
        matches!(self, IllegalValue | IllegalTransition | IllegalCross)
    }
}

/// A decoded table with the place of every bin.
pub struct Model {
    table: Table,
    points: Vec<PointPlan>,
    values: Vec<ValuePlan>,
    transitions: Vec<BinPlan>,
    /// The run words of each sequence.
    runs: Vec<Owned>,
    cross_bins: Vec<BinPlan>,
    /// Place of each cross's first product.
    products: Vec<usize>,
    /// Value bins by point, each point's in record order.
    order: Vec<usize>,
    /// Merged spans of ignore and illegal value bins, by point.
    removed: Vec<(i64, i64)>,
    /// Merged spans of the bins with one bin per value.
    distinct: Vec<(i64, i64)>,
}

#[derive(Clone, Default)]
struct PointPlan {
    /// Into `Model::order`.
    bins: Owned,
    /// Into `Model::removed`.
    removed: Owned,
    /// Place of the first auto bin, if the point has auto bins.
    auto: Option<usize>,
    /// What the point brings to a cross: cover bins expanded, or auto bins.
    parts: usize,
}

/// A value bin's first place and report word, and its parts if it is a cover bin.
struct ValuePlan {
    place: usize,
    report: usize,
    first_part: usize,
    parts: usize,
    /// Listed values, repeats counted (dealt bins only).
    listed: u64,
    /// Into `Model::distinct` (one bin per value only).
    distinct: Owned,
}

/// A transition or cross bin's place, and its report word if illegal.
#[derive(Clone, Copy, Default)]
struct BinPlan {
    place: usize,
    report: usize,
}

/// The next free place and report word.
#[derive(Clone, Copy, Default)]
struct Next {
    place: usize,
    report: usize,
}

impl Next {
    /// Passes a bin that is not expanded.
    fn pass(&mut self, kind: Kind) -> BinPlan {
        let plan = BinPlan {
            place: self.place,
            report: self.report,
        };
        self.place += usize::from(kind != Kind::Ignore);
        self.report += usize::from(kind == Kind::Illegal);
        plan
    }
}

impl Model {
    pub fn read(bytes: &[u8]) -> Result<Model, table::Refusal> {
        table::decode(bytes).map(Model::new)
    }

    pub fn layout(&self) -> &Layout {
        &self.table.layout
    }

    /// Works out the places, point by point and then cross by cross.
    pub fn new(table: Table) -> Model {
        let mut model = Model {
            points: vec![PointPlan::default(); table.points.len()],
            values: Vec::with_capacity(table.value_bins.len()),
            transitions: vec![BinPlan::default(); table.transition_bins.len()],
            runs: Vec::with_capacity(table.sequences.len()),
            cross_bins: Vec::with_capacity(table.cross_bins.len()),
            products: Vec::with_capacity(table.crosses.len()),
            order: Vec::new(),
            removed: Vec::new(),
            distinct: Vec::new(),
            table,
        };
        model.size_values();
        model.order_values();
        let next = model.place_points();
        model.place_crosses(next);
        model.place_runs();
        model
    }

    /// The parts of each value bin; their places come later.
    fn size_values(&mut self) {
        for bin in &self.table.value_bins {
            let ranges = &self.table.value_ranges[bin.ranges.clone()];
            let first = self.distinct.len();
            let (mut parts, mut listed) = (usize::from(bin.kind == Kind::Cover), 0);
            match bin.form {
                Form::One => {}
                Form::PerValue => {
                    self.distinct.extend(ranges.iter().map(span));
                    merge_from(&mut self.distinct, first);
                    parts = self.distinct[first..].iter().map(length).sum::<u64>() as usize;
                }
                Form::Number(number) => {
                    listed = ranges.iter().map(|r| length(&span(r))).sum();
                    parts = number as usize;
                }
            }
            self.values.push(ValuePlan {
                place: 0,
                report: 0,
                first_part: 0,
                parts,
                listed,
                distinct: first..self.distinct.len(),
            });
        }
    }

    /// Groups the value bins by point, keeping their order.
    fn order_values(&mut self) {
        let mut ends = [0usize; 17];
        for bin in &self.table.value_bins {
            ends[bin.point + 1] += 1;
        }
        for point in 0..16 {
            ends[point + 1] += ends[point];
        }
        for (point, plan) in self.points.iter_mut().enumerate() {
            plan.bins = ends[point]..ends[point + 1];
        }
        self.order = vec![0; self.table.value_bins.len()];
        for (index, bin) in self.table.value_bins.iter().enumerate() {
            self.order[ends[bin.point]] = index;
            ends[bin.point] += 1;
        }
    }

    fn place_points(&mut self) -> Next {
        let mut illegal_transitions = [0usize; 16];
        let mut cover_transitions = [0usize; 16];
        for bin in &self.table.transition_bins {
            cover_transitions[bin.point] += usize::from(bin.kind == Kind::Cover);
            illegal_transitions[bin.point] += usize::from(bin.kind == Kind::Illegal);
        }
        let mut next = Next::default();
        let mut after_values = [Next::default(); 16];
        for point in 0..self.points.len() {
            self.place_values(point, &mut next, cover_transitions[point] > 0);
            after_values[point] = next;
            next.place += cover_transitions[point] + illegal_transitions[point];
            next.report += illegal_transitions[point];
        }
        for (bin, plan) in self.table.transition_bins.iter().zip(&mut self.transitions) {
            *plan = after_values[bin.point].pass(bin.kind);
        }
        next
    }

    /// A point's value bins in record order, then its auto bins if it has any.
    fn place_values(&mut self, point: usize, next: &mut Next, has_transitions: bool) {
        let plan = &mut self.points[point];
        let mut has_default = false;
        let first_removed = self.removed.len();
        for &index in &self.order[plan.bins.clone()] {
            let bin = &self.table.value_bins[index];
            let value = &mut self.values[index];
            value.first_part = plan.parts;
            plan.parts += value.parts;
            has_default |= bin.kind == Kind::Default;
            BinPlan {
                place: value.place,
                report: value.report,
            } = next.pass(bin.kind);
            next.place += value.parts.saturating_sub(1);
            if matches!(bin.kind, Kind::Ignore | Kind::Illegal) {
                let ranges = &self.table.value_ranges[bin.ranges.clone()];
                self.removed.extend(ranges.iter().map(span));
            }
        }
        merge_from(&mut self.removed, first_removed);
        plan.removed = first_removed..self.removed.len();
        if plan.parts == 0 && !has_default && !has_transitions {
            let record = &self.table.points[point];
            plan.auto = Some(next.place);
            plan.parts = table::auto_bins(record.ty.width, record.auto_max);
            next.place += plan.parts;
        }
    }

    fn place_crosses(&mut self, mut next: Next) {
        for cross in &self.table.crosses {
            for bin in &self.table.cross_bins[cross.bins.clone()] {
                self.cross_bins.push(next.pass(bin.kind));
            }
            self.products.push(next.place);
            let parts = cross.points.iter().map(|&p| self.points[p].parts);
            next.place += parts.product::<usize>();
        }
    }

    fn place_runs(&mut self) {
        let mut word = self.table.layout.runs_at();
        for sequence in &self.table.sequences {
            let steps = &self.table.steps[sequence.steps.clone()];
            let first = word;
            word += steps.iter().map(|step| step.most as usize).sum::<usize>();
            self.runs.push(first..word);
        }
    }

    /// What each place counts, in place order.
    pub fn place_kinds(&self) -> Vec<PlaceKind> {
        let mut kinds = vec![PlaceKind::Product; self.layout().places];
        for (bin, plan) in self.table.value_bins.iter().zip(&self.values) {
            match bin.kind {
                Kind::Cover => {
                    kinds[plan.place..plan.place + plan.parts].fill(PlaceKind::CoverValue)
                }
                Kind::Ignore => {}
                Kind::Illegal => kinds[plan.place] = PlaceKind::IllegalValue,
                Kind::Default => kinds[plan.place] = PlaceKind::Default,
            }
        }
        for plan in &self.points {
            if let Some(first) = plan.auto {
                kinds[first..first + plan.parts].fill(PlaceKind::Auto);
            }
        }
        for (bin, plan) in self.table.transition_bins.iter().zip(&self.transitions) {
            match bin.kind {
                Kind::Cover => kinds[plan.place] = PlaceKind::CoverTransition,
                Kind::Illegal => kinds[plan.place] = PlaceKind::IllegalTransition,
                _ => {}
            }
        }
        for (bin, plan) in self.table.cross_bins.iter().zip(&self.cross_bins) {
            match bin.kind {
                Kind::Cover => kinds[plan.place] = PlaceKind::CoverCross,
                Kind::Illegal => kinds[plan.place] = PlaceKind::IllegalCross,
                _ => {}
            }
        }
        kinds
    }
}

/// The calls on a table that is decoded already.
impl Model {
    pub fn reset(&self, register: &mut [u32]) -> u32 {
        reset_words(self.layout(), register)
    }

    pub fn start(&self, register: &mut [u32]) -> u32 {
        start_words(self.layout(), register)
    }

    pub fn stop(&self, register: &mut [u32]) -> u32 {
        stop_words(self.layout(), register)
    }

    pub fn sample(&self, register: &mut [u32], sample: &[u32], report: &mut [u32]) -> u32 {
        let number = self.refuse_sample(register, sample, report);
        if number == 0 {
            self.take_sample(register, sample, report);
        }
        number
    }

    pub fn samples(
        &self,
        register: &mut [u32],
        samples: &[u32],
        reports: &mut [u32],
    ) -> (u32, usize) {
        let layout = self.layout();
        if samples.is_empty() {
            return (refuse_register(layout, register), 0);
        }
        let mut taken = 0;
        for sample in samples.chunks(GUARD_WORDS + 2 * layout.points) {
            let report = &mut reports[taken * layout.illegal_places..];
            let number = self.sample(register, sample, report);
            if number != 0 {
                return (number, taken);
            }
            taken += 1;
        }
        (0, taken)
    }

    pub fn place_count(&self, register: &[u32], place: usize) -> (u32, u32) {
        let layout = self.layout();
        count_at(layout, register, FIRST_PLACE, layout.places, place)
    }

    pub fn unknown_count(&self, register: &[u32], point: usize) -> (u32, u32) {
        let layout = self.layout();
        count_at(layout, register, layout.unknown_at(), layout.points, point)
    }

    pub fn item_figure(&self, register: &[u32], item: usize) -> (u32, Option<f64>) {
        let number = refuse_register(self.layout(), register);
        if number != 0 {
            return (number, None);
        }
        if item >= self.items() {
            return (14, None);
        }
        let score = self.score(register, item);
        let percent = 100.0 * score.covered as f64 / score.total as f64;
        (0, (score.total > 0).then_some(percent))
    }

    pub fn group_figure(&self, register: &[u32]) -> (u32, Option<u32>) {
        let number = refuse_register(self.layout(), register);
        if number != 0 {
            return (number, None);
        }
        let (mut sum, mut weights) = (0u64, 0u64);
        for item in 0..self.items() {
            let weight = self.weight(item);
            let score = self.score(register, item);
            if score.total > 0 && weight > 0 {
                sum += weight * (100_000_000 * score.covered / score.total);
                weights += weight;
            }
        }
        (0, (weights > 0).then(|| (sum / weights) as u32))
    }

    /// 7, 8, 12, 13, 11, 10, 9, in this order.
    fn refuse_sample(&self, register: &[u32], sample: &[u32], report: &[u32]) -> u32 {
        let number = refuse_register(self.layout(), register);
        if number != 0 {
            number
        } else if sample.len() != GUARD_WORDS + 2 * self.table.points.len() {
            12
        } else if !self.within_widths(sample) {
            13
        } else if report.len() < self.layout().illegal_places {
            11
        } else if register[FLAG] == 0 {
            10
        } else if register[SAMPLES] == u32::MAX {
            9
        } else {
            0
        }
    }

    fn within_widths(&self, sample: &[u32]) -> bool {
        let words = sample[GUARD_WORDS..].chunks_exact(2);
        words.zip(&self.table.points).all(|(words, point)| {
            let bits = words[0] | words[1];
            u64::from(bits) >> point.ty.width == 0
        })
    }
}

/// Guard bits that are 1 and known.
#[derive(Clone, Copy)]
struct Guards(u64);

impl Guards {
    fn of(sample: &[u32]) -> Guards {
        let pair = |low: u32, high: u32| u64::from(low) | u64::from(high) << 32;
        Guards(pair(sample[0], sample[1]) & !pair(sample[2], sample[3]))
    }

    fn hold(self, guard: Option<u8>) -> bool {
        guard.is_none_or(|bit| self.0 >> bit & 1 == 1)
    }
}

#[derive(Clone, Copy)]
enum Reading {
    /// The point's guard is false.
    Absent,
    Unknown,
    Known(i64),
}

/// A value word at a point's type.
pub fn signed_value(ty: Type, bits: u32) -> i64 {
    let value = i64::from(bits);
    if ty.signed && value > ty.highest() {
        value - ty.ones() - 1
    } else {
        value
    }
}

/// A set of a point's parts, at most 256.
#[derive(Clone, Copy, Default, PartialEq, Eq)]
struct Parts([u64; 4]);

impl Parts {
    fn first(count: usize) -> Parts {
        let mut parts = Parts::default();
        (0..count).for_each(|part| parts.add(part));
        parts
    }

    fn has(&self, part: usize) -> bool {
        self.0[part / 64] >> (part % 64) & 1 == 1
    }

    fn add(&mut self, part: usize) {
        self.0[part / 64] |= 1 << (part % 64);
    }

    fn len(&self) -> usize {
        self.0.iter().map(|word| word.count_ones() as usize).sum()
    }

    fn is_empty(&self) -> bool {
        self.0 == [0; 4]
    }

    fn iter(&self) -> impl Iterator<Item = usize> + '_ {
        bits_of(&self.0)
    }
}

/// A set of products, at most 1,024.
#[derive(Clone, Copy, Default)]
struct Products([u64; 16]);

impl Products {
    fn add_run(&mut self, first: usize, count: usize) {
        let end = first + count;
        let mut next = first;
        while next < end {
            let word_end = end.min(next / 64 * 64 + 64);
            let ones = u64::MAX >> (64 - (word_end - next));
            self.0[next / 64] |= ones << (next % 64);
            next = word_end;
        }
    }

    /// Every product moved up; those past the last are lost.
    fn moved(&self, by: usize) -> Products {
        let (words, bits) = (by / 64, by % 64);
        let word = |index: usize| match index.checked_sub(words) {
            Some(from) => self.0[from],
            None => 0,
        };
        Products(std::array::from_fn(|index| match (bits, index) {
            (0, _) | (_, 0) => word(index) << bits,
            _ => word(index) << bits | word(index - 1) >> (64 - bits),
        }))
    }

    fn has(&self, product: usize) -> bool {
        self.0[product / 64] >> (product % 64) & 1 == 1
    }

    fn and(&self, other: &Products) -> Products {
        Products(std::array::from_fn(|i| self.0[i] & other.0[i]))
    }

    fn or(&self, other: &Products) -> Products {
        Products(std::array::from_fn(|i| self.0[i] | other.0[i]))
    }

    fn without(&self, other: &Products) -> Products {
        Products(std::array::from_fn(|i| self.0[i] & !other.0[i]))
    }

    fn is_empty(&self) -> bool {
        self.0 == [0; 16]
    }

    fn iter(&self) -> impl Iterator<Item = usize> + '_ {
        bits_of(&self.0)
    }
}

/// The set bits' numbers, ascending.
fn bits_of(words: &[u64]) -> impl Iterator<Item = usize> + '_ {
    words.iter().enumerate().flat_map(|(index, &word)| {
        let mut left = word;
        std::iter::from_fn(move || {
            (left != 0).then(|| {
                let bit = left.trailing_zeros() as usize;
                left &= left - 1;
                index * 64 + bit
            })
        })
    })
}

/// The value bins of a point, by their order there, that list a value.
struct Held {
    bins: [u64; 8],
    /// By any bin.
    listed: bool,
    /// By an ignore or illegal bin.
    removed: bool,
}

impl Held {
    fn by(&self, nth: usize) -> bool {
        self.bins[nth / 64] >> (nth % 64) & 1 == 1
    }
}

/// Sampling.
impl Model {
    fn take_sample(&self, register: &mut [u32], sample: &[u32], report: &mut [u32]) {
        let report = &mut report[..self.layout().illegal_places];
        report.fill(0);
        register[SAMPLES] += 1;
        let guards = Guards::of(sample);
        let readings = self.readings(register, sample, guards);
        let mut raised = [Parts::default(); 16];
        self.sample_values(register, report, guards, &readings, &mut raised);
        self.sample_transitions(register, report, guards, &readings);
        self.sample_crosses(register, report, guards, &raised);
    }

    /// Each point's reading; counts the unknown ones.
    fn readings(&self, register: &mut [u32], sample: &[u32], guards: Guards) -> [Reading; 16] {
        let mut readings = [Reading::Absent; 16];
        let unknown_at = self.layout().unknown_at();
        for (index, point) in self.table.points.iter().enumerate() {
            let at = GUARD_WORDS + 2 * index;
            if !guards.hold(point.guard) {
                continue;
            }
            if sample[at + 1] != 0 {
                register[unknown_at + index] += 1;
                readings[index] = Reading::Unknown;
            } else {
                readings[index] = Reading::Known(signed_value(point.ty, sample[at]));
            }
        }
        readings
    }

    fn sample_values(
        &self,
        register: &mut [u32],
        report: &mut [u32],
        guards: Guards,
        readings: &[Reading; 16],
        raised: &mut [Parts; 16],
    ) {
        for (point, plan) in self.points.iter().enumerate() {
            let Reading::Known(value) = readings[point] else {
                continue;
            };
            let held = self.held(plan, value);
            let parts = &mut raised[point];
            for (nth, &index) in self.order[plan.bins.clone()].iter().enumerate() {
                let bin = &self.table.value_bins[index];
                let place = FIRST_PLACE + self.values[index].place;
                if !guards.hold(bin.guard) {
                    continue;
                }
                match bin.kind {
                    Kind::Cover if held.by(nth) && !held.removed => {
                        self.raise_parts(register, index, value, parts)
                    }
                    Kind::Illegal if held.by(nth) => {
                        register[place] += 1;
                        report[self.values[index].report] = 1;
                    }
                    Kind::Default if !held.listed => register[place] += 1,
                    _ => {}
                }
            }
            if let (Some(first), false) = (plan.auto, held.removed) {
                let part = self.auto_part(point, value);
                parts.add(part);
                register[FIRST_PLACE + first + part] += 1;
            }
        }
    }

    /// Which value bins of a point list the value, whatever their guards.
    fn held(&self, plan: &PointPlan, value: i64) -> Held {
        let mut held = Held {
            bins: [0; 8],
            listed: false,
            removed: false,
        };
        for (nth, &index) in self.order[plan.bins.clone()].iter().enumerate() {
            let bin = &self.table.value_bins[index];
            if holds(&self.table.value_ranges[bin.ranges.clone()], value) {
                held.bins[nth / 64] |= 1 << (nth % 64);
                held.listed = true;
                held.removed |= matches!(bin.kind, Kind::Ignore | Kind::Illegal);
            }
        }
        held
    }

    fn auto_part(&self, point: usize, value: i64) -> usize {
        let ty = self.table.points[point].ty;
        let position = (value - ty.lowest()) as u64;
        deal(1 << ty.width, self.points[point].parts as u64, position)
    }

    /// Raises the bins of one cover bin that hold the value, each once.
    fn raise_parts(&self, register: &mut [u32], index: usize, value: i64, parts: &mut Parts) {
        let (bin, plan) = (&self.table.value_bins[index], &self.values[index]);
        let mut raise = |offset: usize| {
            if !parts.has(plan.first_part + offset) {
                parts.add(plan.first_part + offset);
                register[FIRST_PLACE + plan.place + offset] += 1;
            }
        };
        match bin.form {
            Form::One => raise(0),
            Form::PerValue => raise(rank(&self.distinct[plan.distinct.clone()], value)),
            Form::Number(number) => {
                let mut before = 0;
                for range in &self.table.value_ranges[bin.ranges.clone()] {
                    let (lo, hi) = span(range);
                    if lo <= value && value <= hi {
                        let position = before + (value - lo) as u64;
                        raise(deal(plan.listed, number as u64, position));
                    }
                    before += length(&(lo, hi));
                }
            }
        }
    }

    fn sample_transitions(
        &self,
        register: &mut [u32],
        report: &mut [u32],
        guards: Guards,
        readings: &[Reading; 16],
    ) {
        // Lengths that a bin's sequences match, and those that a point's
        // ignore and illegal sequences match; bit L-1 for length L.
        let mut matched = [0u32; 64];
        let mut taken = [0u32; 16];
        for (bin, matched) in self.table.transition_bins.iter().zip(&mut matched) {
            for sequence in bin.sequences.clone() {
                let run = &mut register[self.runs[sequence].clone()];
                match readings[bin.point] {
                    Reading::Absent => {}
                    Reading::Unknown => run.fill(0),
                    Reading::Known(value) => *matched |= self.next_run(sequence, value, run),
                }
            }
            if bin.kind != Kind::Cover {
                taken[bin.point] |= *matched;
            }
        }
        for (index, bin) in self.table.transition_bins.iter().enumerate() {
            let lengths = match bin.kind {
                Kind::Cover => matched[index] & !taken[bin.point],
                Kind::Illegal => matched[index],
                _ => 0,
            };
            if lengths != 0 && guards.hold(bin.guard) {
                let plan = self.transitions[index];
                register[FIRST_PLACE + plan.place] += 1;
                if bin.kind == Kind::Illegal {
                    report[plan.report] = 1;
                }
            }
        }
    }

    /// Turns a sequence's run words into the next ones, from the back so that
    /// each word still finds the old one before it. Returns the lengths that
    /// match the whole sequence.
    fn next_run(&self, sequence: usize, value: i64, run: &mut [u32]) -> u32 {
        let steps = &self.table.steps[self.table.sequences[sequence].steps.clone()];
        let mut end = run.len();
        for (index, step) in steps.iter().enumerate().rev() {
            let first = end - step.most as usize;
            if holds(&self.table.step_ranges[step.ranges.clone()], value) {
                for word in (first + 1..end).rev() {
                    run[word] = run[word - 1] << 1;
                }
                run[first] = match index {
                    0 => 1,
                    _ => completed(&steps[index - 1], &run[..first]) << 1,
                };
            } else {
                run[first..end].fill(0);
            }
            end = first;
        }
        completed(&steps[steps.len() - 1], run)
    }

    fn sample_crosses(
        &self,
        register: &mut [u32],
        report: &mut [u32],
        guards: Guards,
        raised: &[Parts; 16],
    ) {
        for (index, cross) in self.table.crosses.iter().enumerate() {
            let hit = |&point: &usize| !raised[point].is_empty();
            if !guards.hold(cross.guard) || !cross.points.iter().all(hit) {
                continue;
            }
            let grid = Grid::new(cross.points.iter().map(|&point| raised[point]));
            let chosen = self.choose(index, &grid);
            for (bin, chosen) in cross.bins.clone().zip(&chosen.by_bin) {
                let record = &self.table.cross_bins[bin];
                let plan = self.cross_bins[bin];
                if record.kind == Kind::Ignore || chosen.is_empty() || !guards.hold(record.guard) {
                    continue;
                }
                register[FIRST_PLACE + plan.place] += 1;
                if record.kind == Kind::Illegal {
                    report[plan.report] = 1;
                }
            }
            let mut sizes = [0; 4];
            for (size, &point) in sizes.iter_mut().zip(&cross.points) {
                *size = self.points[point].parts;
            }
            let first = FIRST_PLACE + self.products[index];
            let counted = grid.all.without(&chosen.any);
            grid.number(&sizes[..cross.points.len()], &mut |product, number| {
                register[first + number] += u32::from(counted.has(product));
            });
        }
    }
}

/// Lengths at which the step's block may end.
fn completed(step: &table::Step, run: &[u32]) -> u32 {
    let ready = run.len() - (step.most - step.least) as usize - 1;
    run[ready..].iter().fold(0, |lengths, word| lengths | word)
}

/// Some parts at each position of a cross, and the products they make, the
/// last position turning fastest.
struct Grid {
    parts: [Parts; 4],
    len: [usize; 4],
    positions: usize,
    all: Products,
}

impl Grid {
    fn new(positions: impl Iterator<Item = Parts>) -> Grid {
        let mut grid = Grid {
            parts: [Parts::default(); 4],
            len: [1; 4],
            positions: 0,
            all: Products::default(),
        };
        for parts in positions {
            grid.parts[grid.positions] = parts;
            grid.len[grid.positions] = parts.len();
            grid.positions += 1;
        }
        grid.all.add_run(0, grid.len.iter().product());
        grid
    }

    /// Products whose part at the position is one of these.
    fn with(&self, position: usize, parts: &Parts) -> Products {
        if self.all.is_empty() {
            return self.all;
        }
        let before: usize = self.len[..position].iter().product();
        let after: usize = self.len[position + 1..].iter().product();
        let mut products = Products::default();
        let mut filled = 0;
        for part in self.parts[position].iter() {
            if parts.has(part) {
                products.add_run(filled, after);
            }
            filled += after;
        }
        // One turn of the position is there; the others repeat it.
        let whole = before * filled;
        while filled < whole {
            products = products.or(&products.moved(filled));
            filled *= 2;
        }
        products.and(&self.all)
    }

    /// Gives each product of the grid its number among all products of a
    /// cross whose points have these many parts.
    fn number(&self, sizes: &[usize], give: &mut impl FnMut(usize, usize)) {
        self.number_from(sizes, 0, &mut 0, give);
    }

    fn number_from(
        &self,
        sizes: &[usize],
        number: usize,
        next: &mut usize,
        give: &mut impl FnMut(usize, usize),
    ) {
        let Some((size, later)) = sizes.split_first() else {
            give(*next, number);
            *next += 1;
            return;
        };
        for part in self.parts[self.positions - sizes.len()].iter() {
            self.number_from(later, number * size + part, next, give);
        }
    }
}

/// What the bins of a cross select among the products of a grid.
struct Chosen {
    /// Cover bins: what is still their own. Others: all they select.
    by_bin: Vec<Products>,
    any: Products,
}

impl Model {
    fn choose(&self, cross: usize, grid: &Grid) -> Chosen {
        let bins = &self.table.cross_bins[self.table.crosses[cross].bins.clone()];
        let mut any = Products::default();
        let mut taken = Products::default();
        let mut by_bin = Vec::with_capacity(bins.len());
        for bin in bins {
            let mut tokens = self.table.tokens[bin.tokens.clone()].iter();
            let selected = self.select(cross, grid, &mut tokens);
            any = any.or(&selected);
            if bin.kind != Kind::Cover {
                taken = taken.or(&selected);
            }
            by_bin.push(selected);
        }
        for (bin, selected) in bins.iter().zip(&mut by_bin) {
            if bin.kind == Kind::Cover {
                *selected = selected.without(&taken);
            }
        }
        Chosen { by_bin, any }
    }

    /// Evaluates the next expression for all products of the grid at once.
    fn select(&self, cross: usize, grid: &Grid, tokens: &mut std::slice::Iter<Token>) -> Products {
        let points = &self.table.crosses[cross].points;
        match tokens.next() {
            None => Products::default(),
            Some(Token::Whole { .. }) => grid.all,
            Some(&Token::Bin { position, bin }) => {
                let plan = &self.values[bin];
                let mut named = Parts::default();
                (0..plan.parts).for_each(|part| named.add(plan.first_part + part));
                grid.with(position, &named)
            }
            Some(&Token::Meets { position, lo, hi }) => {
                let meeting = self.meeting(points[position], lo, hi, &grid.parts[position]);
                grid.with(position, &meeting)
            }
            Some(Token::Not) => grid.all.without(&self.select(cross, grid, tokens)),
            Some(Token::And) => {
                let left = self.select(cross, grid, tokens);
                left.and(&self.select(cross, grid, tokens))
            }
            Some(Token::Or) => {
                let left = self.select(cross, grid, tokens);
                left.or(&self.select(cross, grid, tokens))
            }
        }
    }

    /// Those of the wanted parts that keep a value in lo..hi after ignore and
    /// illegal bins took theirs.
    fn meeting(&self, point: usize, lo: i64, hi: i64, wanted: &Parts) -> Parts {
        let plan = &self.points[point];
        let mut search = Search {
            removed: &self.removed[plan.removed.clone()],
            lo,
            hi,
            wanted,
            found: Parts::default(),
        };
        if plan.auto.is_some() {
            let ty = self.table.points[point].ty;
            let whole = (ty.lowest(), ty.highest());
            let dealt = Dealt::new(length(&whole), plan.parts as u64);
            dealt.pieces(0, whole, |part, piece| search.offer(part, piece));
        }
        for &index in &self.order[plan.bins.clone()] {
            self.search_bin(index, &mut search);
        }
        search.found
    }

    fn search_bin(&self, index: usize, search: &mut Search) {
        let (bin, plan) = (&self.table.value_bins[index], &self.values[index]);
        let parts = plan.first_part..plan.first_part + plan.parts;
        if !parts.clone().any(|part| search.wanted.has(part)) {
            return;
        }
        let ranges = &self.table.value_ranges[bin.ranges.clone()];
        match bin.form {
            Form::One => {
                let (removed, lo, hi) = (search.removed, search.lo, search.hi);
                let left = |range: &Range| range_left(removed, range, lo, hi);
                if ranges.iter().any(left) {
                    parts.for_each(|part| search.found.add(part));
                }
            }
            Form::PerValue => {
                let spans = &self.distinct[plan.distinct.clone()];
                let values = spans.iter().flat_map(|&(first, last)| first..=last);
                for (part, value) in parts.zip(values) {
                    search.offer(part, (value, value));
                }
            }
            Form::Number(number) => {
                let dealt = Dealt::new(plan.listed, number as u64);
                let mut before = 0;
                for span in ranges.iter().map(span) {
                    dealt.pieces(before, span, |part, piece| {
                        search.offer(plan.first_part + part, piece)
                    });
                    before += length(&span);
                }
            }
        }
    }
}

/// A search for parts that keep a value in lo..hi.
struct Search<'a> {
    /// Merged spans of ignore and illegal bins.
    removed: &'a [(i64, i64)],
    lo: i64,
    hi: i64,
    wanted: &'a Parts,
    found: Parts,
}

impl Search<'_> {
    /// Some values of a part.
    fn offer(&mut self, part: usize, (first, last): (i64, i64)) {
        let inside = (first.max(self.lo), last.min(self.hi));
        if self.wanted.has(part) && span_left(self.removed, inside) {
            self.found.add(part);
        }
    }
}

/// Figures.
impl Model {
    pub fn items(&self) -> usize {
        self.table.points.len() + self.table.crosses.len()
    }

    fn weight(&self, item: usize) -> u64 {
        let points = self.table.points.len();
        match item.checked_sub(points) {
            None => u64::from(self.table.points[item].weight),
            Some(cross) => u64::from(self.table.crosses[cross].weight),
        }
    }

    fn score<'a>(&self, register: &'a [u32], item: usize) -> Score<'a> {
        match item.checked_sub(self.table.points.len()) {
            None => self.point_score(register, item),
            Some(cross) => self.cross_score(register, cross),
        }
    }

    /// Parts that keep a value at all.
    fn filled(&self, point: usize) -> Parts {
        let ty = self.table.points[point].ty;
        let all = Parts::first(self.points[point].parts);
        self.meeting(point, ty.lowest(), ty.highest(), &all)
    }

    fn point_score<'a>(&self, register: &'a [u32], point: usize) -> Score<'a> {
        let plan = &self.points[point];
        let filled = self.filled(point);
        let mut score = Score::new(register, self.table.points[point].at_least);
        let mut add_parts = |first_part: usize, parts: usize, place: usize| {
            for offset in (0..parts).filter(|offset| filled.has(first_part + offset)) {
                score.add(place + offset);
            }
        };
        if let Some(first) = plan.auto {
            add_parts(0, plan.parts, first);
        }
        for &index in &self.order[plan.bins.clone()] {
            let value = &self.values[index];
            add_parts(value.first_part, value.parts, value.place);
        }
        for (bin, plan) in self.table.transition_bins.iter().zip(&self.transitions) {
            if bin.point == point && bin.kind == Kind::Cover {
                score.add(plan.place);
            }
        }
        score
    }

    fn cross_score<'a>(&self, register: &'a [u32], index: usize) -> Score<'a> {
        let cross = &self.table.crosses[index];
        let mut score = Score::new(register, cross.at_least);
        let grid = Grid::new(
            cross
                .points
                .iter()
                .map(|&p| Parts::first(self.points[p].parts)),
        );
        let mut filled = grid.all;
        for (position, &point) in cross.points.iter().enumerate() {
            filled = filled.and(&grid.with(position, &self.filled(point)));
        }
        let chosen = self.choose(index, &grid);
        for (bin, own) in cross.bins.clone().zip(&chosen.by_bin) {
            let kind = self.table.cross_bins[bin].kind;
            if kind == Kind::Cover && !own.and(&filled).is_empty() {
                score.add(self.cross_bins[bin].place);
            }
        }
        for product in filled.without(&chosen.any).iter() {
            score.add(self.products[index] + product);
        }
        score
    }
}

/// An item's bins so far.
struct Score<'a> {
    register: &'a [u32],
    at_least: u32,
    covered: u64,
    total: u64,
}

impl<'a> Score<'a> {
    fn new(register: &'a [u32], at_least: u32) -> Score<'a> {
        Score {
            register,
            at_least,
            covered: 0,
            total: 0,
        }
    }

    fn add(&mut self, place: usize) {
        self.total += 1;
        self.covered += u64::from(self.register[FIRST_PLACE + place] >= self.at_least);
    }
}

/// A span's ends; only spans are dealt, listed one by one, or removed.
fn span(range: &Range) -> (i64, i64) {
    match *range {
        Range::Span(lo, hi) => (lo, hi),
        Range::Pattern(bits, _) => (bits, bits),
    }
}

fn length(&(lo, hi): &(i64, i64)) -> u64 {
    (hi - lo + 1) as u64
}

/// Stops at the first range that holds the value.
fn holds(ranges: &[Range], value: i64) -> bool {
    ranges.iter().any(|range| match *range {
        Range::Span(lo, hi) => lo <= value && value <= hi,
        Range::Pattern(bits, mask) => value & mask == bits,
    })
}

/// Sorts the spans from `first` on and joins those that overlap or touch.
fn merge_from(spans: &mut Vec<(i64, i64)>, first: usize) {
    spans[first..].sort_unstable();
    let mut kept = first;
    for next in first..spans.len() {
        let (lo, hi) = spans[next];
        if kept > first && lo <= spans[kept - 1].1 + 1 {
            spans[kept - 1].1 = spans[kept - 1].1.max(hi);
        } else {
            spans[kept] = (lo, hi);
            kept += 1;
        }
    }
    spans.truncate(kept);
}

/// The value's number among the values of merged spans.
fn rank(spans: &[(i64, i64)], value: i64) -> usize {
    let before = spans.iter().take_while(|&&(lo, _)| lo <= value);
    let listed: u64 = before.map(|&(lo, hi)| length(&(lo, hi.min(value)))).sum();
    listed as usize - 1
}

/// The bin that the listed value at this position goes to.
fn deal(listed: u64, bins: u64, position: u64) -> usize {
    Dealt::new(listed, bins).bin(position)
}

/// Listed values dealt over bins: the same number each, the last also the rest.
struct Dealt {
    each: u64,
    bins: u64,
}

impl Dealt {
    fn new(listed: u64, bins: u64) -> Dealt {
        Dealt {
            each: (listed / bins).max(1),
            bins,
        }
    }

    fn bin(&self, position: u64) -> usize {
        (position / self.each).min(self.bins - 1) as usize
    }

    /// Cuts a span whose first value stands at this position by bins.
    fn pieces(&self, position: u64, (lo, hi): (i64, i64), mut give: impl FnMut(usize, (i64, i64))) {
        let mut first = lo;
        while first <= hi {
            let at = position + (first - lo) as u64;
            let bin = self.bin(at);
            let last = match bin as u64 + 1 == self.bins {
                true => hi,
                // The values up to the next bin's first position.
                false => hi.min(first + (self.each - at % self.each) as i64 - 1),
            };
            give(bin, (first, last));
            first = last + 1;
        }
    }
}

/// Does the span keep a value? Removed spans are merged, so that the value
/// after one is never removed.
fn span_left(removed: &[(i64, i64)], (lo, hi): (i64, i64)) -> bool {
    lo <= hi && after_removed(removed, lo) <= hi
}

/// The least value from `value` on that is not removed.
fn after_removed(removed: &[(i64, i64)], value: i64) -> i64 {
    let index = removed.partition_point(|&(_, last)| last < value);
    match removed.get(index) {
        Some(&(first, last)) if first <= value => last + 1,
        _ => value,
    }
}

pub(crate) fn range_left(removed: &[(i64, i64)], range: &Range, lo: i64, hi: i64) -> bool {
    match *range {
        Range::Span(first, last) => span_left(removed, (first.max(lo), last.min(hi))),
        Range::Pattern(bits, mask) => {
            let mut from = lo;
            while let Some(fit) = least_fit(bits, mask, from).filter(|&fit| fit <= hi) {
                from = after_removed(removed, fit);
                if from == fit {
                    return true;
                }
            }
            false
        }
    }
}

/// The least value from `from` on (not below 0) whose masked bits are `bits`.
fn least_fit(bits: i64, mask: i64, from: i64) -> Option<i64> {
    let from = from.max(0);
    let wrong = (from ^ bits) & mask;
    if wrong == 0 {
        return Some(from);
    }
    let top = 1i64 << (63 - wrong.leading_zeros());
    // The bit to raise: the wrong one itself if the pattern has it 1,
    // otherwise the lowest free bit above it that is 0.
    let raise = if bits & top != 0 {
        top
    } else {
        let free = !(from | mask) & !(top | (top - 1)) & i64::MAX;
        free & free.wrapping_neg()
    };
    if raise == 0 {
        return None;
    }
    let kept = from & !(raise | (raise - 1));
    Some(kept | raise | (bits & (raise - 1)))
}
