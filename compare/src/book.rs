//! The naive book: a flag, and a page of accepted samples and restarts, from
//! which every count, run word, report and figure is worked out afresh.
//!
//! It shares the decoded table's types with the register machine and nothing
//! else. Where a point is narrow its bins are lists of values, one by one; see
//! [`Values`] for the wide ones. [`Rules`] is what a table says by itself
//! (bins, products, places in order); it depends on no sample.

use crate::table::{self, Form, Kind, Range, Table, Token, ValueBin};
use std::collections::{BTreeSet, HashSet};

/// Points up to this width have their values listed one by one.
pub const LISTED_WIDTH: u8 = 10;

/// A table as the book is fed it: its rules, or its refusal number.
pub type Fed = Result<Rules, u32>;

#[derive(Clone, Debug, PartialEq, Eq)]
pub enum Entry {
    Sample(Vec<u32>),
    /// A stroke: the restart between two samples.
    Restart,
}

/// All that is remembered from call to call.
#[derive(Clone, Debug, PartialEq, Eq)]
pub struct Book {
    pub running: bool,
    pub page: Vec<Entry>,
}

/// A cover bin after expansion, or an auto bin.
pub struct Part {
    /// The value bin it comes from; none for auto bins.
    bin: Option<usize>,
    guard: Option<u8>,
    values: Values,
}

/// The values of a bin after ignore and illegal bins took theirs.
///
/// `Listed` names each value. `Spread` serves wide points: the ranges as dealt,
/// and the spans taken away. Whether any value is left is then found by
/// cutting spans, or by halving blocks of values down to those that lie wholly
/// inside or outside all ends.
pub enum Values {
    Listed(Vec<i64>),
    Spread {
        width: u8,
        ranges: Vec<Range>,
        taken: Vec<(i64, i64)>,
    },
}

/// What a place counts.
#[derive(Clone, Copy, Debug, PartialEq, Eq)]
enum Place {
    Part { point: usize, part: usize },
    IllegalValue { bin: usize },
    Default { bin: usize },
    CoverTransition { bin: usize },
    IllegalTransition { bin: usize },
    CoverCross { cross: usize, nth: usize },
    IllegalCross { cross: usize, nth: usize },
    Product { cross: usize, product: usize },
}

impl Place {
    fn is_illegal(self) -> bool {
        matches!(
            self,
            Place::IllegalValue { .. }
                | Place::IllegalTransition { .. }
                | Place::IllegalCross { .. }
        )
    }
}

/// One product of a cross and which of the cross's bins select it.
struct Product {
    parts: Vec<usize>,
    selected: Vec<bool>,
    /// Some part has no value left.
    empty: bool,
}

/// What a table says by itself.
pub struct Rules {
    table: Table,
    parts: Vec<Vec<Part>>,
    products: Vec<Vec<Product>>,
    places: Vec<Place>,
}

/// A select expression as a tree.
enum Tree {
    Whole,
    Named { position: usize, bin: usize },
    Meeting { position: usize, lo: i64, hi: i64 },
    Not(Box<Tree>),
    And(Box<Tree>, Box<Tree>),
    Or(Box<Tree>, Box<Tree>),
}

impl Rules {
    pub fn read(bytes: &[u8]) -> Fed {
        Rules::read_listing(bytes, LISTED_WIDTH)
    }

    /// With another bound on the widths whose values are listed.
    pub fn read_listing(bytes: &[u8], listed_width: u8) -> Fed {
        let table = table::decode(bytes).map_err(|refusal| refusal.number)?;
        let points = 0..table.points.len();
        let parts: Vec<Vec<Part>> = points
            .map(|p| point_parts(&table, p, listed_width))
            .collect();
        let crosses = 0..table.crosses.len();
        let products: Vec<Vec<Product>> = crosses.map(|c| products(&table, &parts, c)).collect();
        let places = places(&table, &parts, &products);
        Ok(Rules {
            table,
            parts,
            products,
            places,
        })
    }

    pub fn illegal_places(&self) -> usize {
        self.places
            .iter()
            .filter(|place| place.is_illegal())
            .count()
    }
}

/// A point's cover bins, dealt, or its auto bins; of each, what ignore and
/// illegal bins leave it.
fn point_parts(table: &Table, point: usize, listed_width: u8) -> Vec<Part> {
    let ty = table.points[point].ty;
    let narrow = ty.width <= listed_width;
    let taken = taken_ranges(table, point);
    let part = |bin, guard, ranges: Vec<Range>| Part {
        bin,
        guard,
        values: Values::left_of(ranges, &taken, ty.width, narrow),
    };
    let mut parts = Vec::new();
    for (index, bin) in bins_of(table, point).filter(|(_, b)| b.kind == Kind::Cover) {
        let ranges = &table.value_ranges[bin.ranges.clone()];
        let dealt = match bin.form {
            Form::One => vec![ranges.to_vec()],
            Form::PerValue => one_each(ranges, ty.width),
            Form::Number(number) => deal(ranges, number, ty.width, narrow),
        };
        let dealt = dealt.into_iter();
        parts.extend(dealt.map(|ranges| part(Some(index), bin.guard, ranges)));
    }
    if has_auto_bins(table, point) {
        let values = 2f64.powi(ty.width.into());
        let number = values.min(table.points[point].auto_max.into()) as u16;
        let whole = [Range::Span(ty.lowest(), ty.highest())];
        let dealt = deal(&whole, number, ty.width, narrow).into_iter();
        parts.extend(dealt.map(|ranges| part(None, None, ranges)));
    }
    parts
}

/// The point's value bins with their numbers, in record order.
fn bins_of(table: &Table, point: usize) -> impl Iterator<Item = (usize, &ValueBin)> {
    let bins = table.value_bins.iter().enumerate();
    bins.filter(move |(_, bin)| bin.point == point)
}

/// What the point's ignore and illegal value bins list.
fn taken_ranges(table: &Table, point: usize) -> Vec<Range> {
    let bins = bins_of(table, point).map(|(_, bin)| bin);
    let takers = bins.filter(|bin| matches!(bin.kind, Kind::Ignore | Kind::Illegal));
    let ranges = takers.flat_map(|bin| &table.value_ranges[bin.ranges.clone()]);
    ranges.copied().collect()
}

/// No default bin and no cover bin, of values or of transitions.
fn has_auto_bins(table: &Table, point: usize) -> bool {
    let of_values = |kind| bins_of(table, point).any(|(_, bin)| bin.kind == kind);
    let mut transitions = table.transition_bins.iter();
    !of_values(Kind::Default)
        && !of_values(Kind::Cover)
        && !transitions.any(|bin| bin.point == point && bin.kind == Kind::Cover)
}

fn ends(range: &Range) -> (i64, i64) {
    match *range {
        Range::Span(lo, hi) => (lo, hi),
        Range::Pattern(..) => unreachable!("only cover bins and steps have patterns"),
    }
}

/// The values in listed order, repeats kept.
fn list(ranges: &[Range], width: u8) -> Vec<i64> {
    let mut values = Vec::new();
    for range in ranges {
        match *range {
            Range::Span(lo, hi) => values.extend(lo..=hi),
            Range::Pattern(..) => {
                values.extend((0..1i64 << width).filter(|&value| in_range(range, value)))
            }
        }
    }
    values
}

fn in_range(range: &Range, value: i64) -> bool {
    match *range {
        Range::Span(lo, hi) => (lo..=hi).contains(&value),
        Range::Pattern(bits, mask) => (0..32).all(|bit| {
            let matters = mask >> bit & 1 == 1;
            !matters || (value >> bit & 1) == (bits >> bit & 1)
        }),
    }
}

fn in_some(ranges: &[Range], value: i64) -> bool {
    ranges.iter().any(|range| in_range(range, value))
}

/// One bin for each distinct value, ascending.
fn one_each(ranges: &[Range], width: u8) -> Vec<Vec<Range>> {
    let distinct: BTreeSet<i64> = list(ranges, width).into_iter().collect();
    let values = distinct.into_iter();
    values
        .map(|value| vec![Range::Span(value, value)])
        .collect()
}

/// The ranges' values over this many bins.
fn deal(ranges: &[Range], number: u16, width: u8, narrow: bool) -> Vec<Vec<Range>> {
    match narrow {
        true => deal_values(&list(ranges, width), number),
        false => deal_spans(ranges, number),
    }
}

/// Listed values over bins: first one each if there are too few of them,
/// otherwise equally many each and the rest to the last.
fn deal_values(values: &[i64], number: u16) -> Vec<Vec<Range>> {
    let number = number as usize;
    let mut bins: Vec<Vec<Range>> = vec![Vec::new(); number];
    let share = values.len() / number;
    for (bin, own) in bins.iter_mut().enumerate() {
        let own_values = if share == 0 {
            values.get(bin..bin + 1).unwrap_or(&[])
        } else if bin + 1 == number {
            &values[bin * share..]
        } else {
            &values[bin * share..(bin + 1) * share]
        };
        own.extend(own_values.iter().map(|&v| Range::Span(v, v)));
    }
    bins
}

/// The same for spans too long to list: each bin takes its share from the
/// front of what is left.
fn deal_spans(ranges: &[Range], number: u16) -> Vec<Vec<Range>> {
    let mut left: Vec<(i64, i64)> = ranges.iter().map(ends).collect();
    let size = |spans: &[(i64, i64)]| spans.iter().map(|(lo, hi)| hi - lo + 1).sum::<i64>();
    let share = (size(&left) / i64::from(number)).max(1);
    let mut bins = Vec::new();
    for bin in 1..=number {
        let mut wanted = match bin == number {
            true => size(&left),
            false => share,
        };
        let mut own = Vec::new();
        while wanted > 0 && !left.is_empty() {
            let (lo, hi) = left.remove(0);
            let last = hi.min(lo + wanted - 1);
            own.push(Range::Span(lo, last));
            wanted -= last - lo + 1;
            if last < hi {
                left.insert(0, (last + 1, hi));
            }
        }
        bins.push(own);
    }
    bins
}

impl Values {
    /// What of the ranges is not taken.
    fn left_of(ranges: Vec<Range>, taken: &[Range], width: u8, narrow: bool) -> Values {
        if narrow {
            let mut listed = list(&ranges, width);
            listed.retain(|&value| !in_some(taken, value));
            return Values::Listed(listed);
        }
        Values::Spread {
            width,
            ranges,
            taken: taken.iter().map(ends).collect(),
        }
    }

    fn holds(&self, value: i64) -> bool {
        match self {
            Values::Listed(values) => values.contains(&value),
            Values::Spread { ranges, taken, .. } => {
                let is_taken = taken.iter().any(|&(lo, hi)| lo <= value && value <= hi);
                in_some(ranges, value) && !is_taken
            }
        }
    }

    /// Is a value of lo..hi left?
    fn meets(&self, lo: i64, hi: i64) -> bool {
        match self {
            Values::Listed(values) => values.iter().any(|&v| lo <= v && v <= hi),
            Values::Spread {
                width,
                ranges,
                taken,
            } => ranges.iter().any(|range| match *range {
                Range::Span(first, last) => cut((first.max(lo), last.min(hi)), taken),
                Range::Pattern(bits, mask) => {
                    let mut outside = taken.clone();
                    outside.push((i64::MIN, lo - 1));
                    outside.push((hi + 1, i64::MAX));
                    halve(0, *width, bits, mask, &outside)
                }
            }),
        }
    }

    fn is_empty(&self) -> bool {
        // Every value fits in 33 signed bits.
        !self.meets(-(1 << 33), 1 << 33)
    }
}

/// Is anything left of the span when the taken ones are cut out of it?
fn cut(span: (i64, i64), taken: &[(i64, i64)]) -> bool {
    let mut left = vec![span];
    left.retain(|(lo, hi)| lo <= hi);
    for &(first, last) in taken {
        let mut next = Vec::new();
        for (lo, hi) in left {
            if lo < first {
                next.push((lo, hi.min(first - 1)));
            }
            if hi > last {
                next.push((lo.max(last + 1), hi));
            }
        }
        left = next;
    }
    !left.is_empty()
}

/// Does the block of 2^free values from `base` on hold one that fits the
/// pattern and is not outside?
fn halve(base: i64, free: u8, bits: i64, mask: i64, outside: &[(i64, i64)]) -> bool {
    let last = base + (1i64 << free) - 1;
    let fixed = mask >> free << free;
    if base & fixed != bits & fixed || outside.iter().any(|&(a, b)| a <= base && last <= b) {
        return false;
    }
    let untouched = outside.iter().all(|&(a, b)| b < base || last < a);
    untouched || free == 0 || {
        let half = free - 1;
        halve(base, half, bits, mask, outside)
            || halve(base + (1i64 << half), half, bits, mask, outside)
    }
}

/// All products of a cross, the last point turning fastest.
fn products(table: &Table, parts: &[Vec<Part>], cross: usize) -> Vec<Product> {
    let record = &table.crosses[cross];
    if record.points.iter().any(|&point| parts[point].is_empty()) {
        return Vec::new();
    }
    let mut combinations: Vec<Vec<usize>> = vec![Vec::new()];
    for &point in &record.points {
        let mut longer = Vec::new();
        for combination in &combinations {
            for part in 0..parts[point].len() {
                longer.push([combination.as_slice(), &[part]].concat());
            }
        }
        combinations = longer;
    }
    let bins = &table.cross_bins[record.bins.clone()];
    let trees: Vec<Tree> = bins
        .iter()
        .map(|bin| parse(&mut table.tokens[bin.tokens.clone()].iter()))
        .collect();
    let chosen_parts = |product: &[usize]| -> Vec<&Part> {
        let pairs = record.points.iter().zip(product);
        pairs.map(|(&point, &part)| &parts[point][part]).collect()
    };
    combinations
        .into_iter()
        .map(|product| {
            let chosen = chosen_parts(&product);
            Product {
                selected: trees.iter().map(|tree| tree.selects(&chosen)).collect(),
                empty: chosen.iter().any(|part| part.values.is_empty()),
                parts: product,
            }
        })
        .collect()
}

fn parse(tokens: &mut std::slice::Iter<Token>) -> Tree {
    match *tokens.next().expect("a whole expression") {
        Token::Whole { .. } => Tree::Whole,
        Token::Bin { position, bin } => Tree::Named { position, bin },
        Token::Meets { position, lo, hi } => Tree::Meeting { position, lo, hi },
        Token::Not => Tree::Not(Box::new(parse(tokens))),
        Token::And => Tree::And(Box::new(parse(tokens)), Box::new(parse(tokens))),
        Token::Or => Tree::Or(Box::new(parse(tokens)), Box::new(parse(tokens))),
    }
}

impl Tree {
    fn selects(&self, parts: &[&Part]) -> bool {
        match self {
            Tree::Whole => true,
            Tree::Named { position, bin } => parts[*position].bin == Some(*bin),
            Tree::Meeting { position, lo, hi } => parts[*position].values.meets(*lo, *hi),
            Tree::Not(inner) => !inner.selects(parts),
            Tree::And(left, right) => left.selects(parts) && right.selects(parts),
            Tree::Or(left, right) => left.selects(parts) || right.selects(parts),
        }
    }
}

/// Every place in order.
fn places(table: &Table, parts: &[Vec<Part>], products: &[Vec<Product>]) -> Vec<Place> {
    let mut places = Vec::new();
    for (point, own_parts) in parts.iter().enumerate() {
        let parts_of = |bin: Option<usize>| {
            let all = own_parts.iter().enumerate();
            let own = all.filter(move |(_, part)| part.bin == bin);
            own.map(move |(part, _)| Place::Part { point, part })
        };
        for (bin, record) in table.value_bins.iter().enumerate() {
            match record.kind {
                _ if record.point != point => {}
                Kind::Cover => places.extend(parts_of(Some(bin))),
                Kind::Ignore => {}
                Kind::Illegal => places.push(Place::IllegalValue { bin }),
                Kind::Default => places.push(Place::Default { bin }),
            }
        }
        places.extend(parts_of(None));
        for (bin, record) in table.transition_bins.iter().enumerate() {
            match record.kind {
                _ if record.point != point => {}
                Kind::Cover => places.push(Place::CoverTransition { bin }),
                Kind::Illegal => places.push(Place::IllegalTransition { bin }),
                _ => {}
            }
        }
    }
    for (cross, record) in table.crosses.iter().enumerate() {
        for (nth, bin) in table.cross_bins[record.bins.clone()].iter().enumerate() {
            match bin.kind {
                Kind::Cover => places.push(Place::CoverCross { cross, nth }),
                Kind::Illegal => places.push(Place::IllegalCross { cross, nth }),
                _ => {}
            }
        }
        let count = products[cross].len();
        places.extend((0..count).map(|product| Place::Product { cross, product }));
    }
    places
}

/// A guard is true if its bit is 1 and known.
fn guard_true(guard: Option<u8>, words: &[u32]) -> bool {
    let Some(guard) = guard else {
        return true;
    };
    let (word, bit) = (guard as usize / 32, guard % 32);
    let is_one = words[word] >> bit & 1 == 1;
    let is_known = words[2 + word] >> bit & 1 == 0;
    is_one && is_known
}

/// A sample's reading at a point: none if the point's guard is false,
/// `Some(None)` if a bit is unknown.
fn reading(table: &Table, point: usize, words: &[u32]) -> Option<Option<i64>> {
    let record = &table.points[point];
    if !guard_true(record.guard, words) {
        return None;
    }
    let (bits, unknown) = (words[4 + 2 * point], words[5 + 2 * point]);
    if unknown != 0 {
        return Some(None);
    }
    let mut value = 0i64;
    for bit in 0..record.ty.width {
        if bits >> bit & 1 == 1 {
            let sign_bit = record.ty.signed && bit + 1 == record.ty.width;
            value += if sign_bit { -(1 << bit) } else { 1 << bit };
        }
    }
    Some(Some(value))
}

/// A step for matching: its ranges and how many readings it takes.
#[derive(Clone, Copy)]
struct Block<'a> {
    ranges: &'a [Range],
    least: usize,
    most: usize,
}

/// Can the stretch be cut into consecutive blocks, one per step? Every cut is
/// tried; cuts known to fail are remembered.
fn fits(blocks: &[Block], stretch: &[Option<i64>]) -> bool {
    fn attempt(
        blocks: &[Block],
        stretch: &[Option<i64>],
        failed: &mut HashSet<(usize, usize)>,
    ) -> bool {
        let Some((block, later)) = blocks.split_first() else {
            return stretch.is_empty();
        };
        let state = (blocks.len(), stretch.len());
        if failed.contains(&state) {
            return false;
        }
        for count in 0..=stretch.len() {
            let allowed = block.least <= count && count <= block.most;
            let inside = |reading: &Option<i64>| reading.is_some_and(|v| in_some(block.ranges, v));
            if count > block.most || !stretch[..count].iter().all(inside) {
                break;
            }
            if allowed && attempt(later, &stretch[count..], failed) {
                return true;
            }
        }
        failed.insert(state);
        false
    }
    attempt(blocks, stretch, &mut HashSet::new())
}

/// One sample of the page with what its bins look at.
struct Sample<'a> {
    rules: &'a Rules,
    words: &'a [u32],
    /// Raised parts, by point.
    raised: Vec<Vec<bool>>,
    /// Closing stretches, by point.
    stretches: Vec<Vec<Vec<Option<i64>>>>,
}

impl Sample<'_> {
    fn raises(&self, place: Place) -> bool {
        match place {
            Place::Part { point, part } => self.raised[point][part],
            Place::IllegalValue { bin } => self.raises_illegal(bin),
            Place::Default { bin } => self.raises_default(bin),
            Place::CoverTransition { bin } => self.raises_transition(bin, true),
            Place::IllegalTransition { bin } => self.raises_transition(bin, false),
            Place::CoverCross { cross, nth } => self.raises_cross_bin(cross, nth, true),
            Place::IllegalCross { cross, nth } => self.raises_cross_bin(cross, nth, false),
            Place::Product { cross, product } => {
                let product = &self.rules.products[cross][product];
                !product.selected.contains(&true) && self.hits(cross, product)
            }
        }
    }

    fn raises_illegal(&self, bin: usize) -> bool {
        let table = &self.rules.table;
        let record = &table.value_bins[bin];
        let ranges = &table.value_ranges[record.ranges.clone()];
        let known = reading(table, record.point, self.words).flatten();
        known.is_some_and(|value| in_some(ranges, value)) && guard_true(record.guard, self.words)
    }

    fn raises_default(&self, bin: usize) -> bool {
        let table = &self.rules.table;
        let record = &table.value_bins[bin];
        let known = reading(table, record.point, self.words).flatten();
        let listed = |value: i64| {
            let ranges = bins_of(table, record.point).map(|(_, bin)| bin.ranges.clone());
            let mut ranges = ranges.map(|owned| &table.value_ranges[owned]);
            ranges.any(|ranges| in_some(ranges, value))
        };
        known.is_some_and(|value| !listed(value)) && guard_true(record.guard, self.words)
    }

    /// Some stretch matches the bin; a cover bin's must match no ignore or
    /// illegal bin of the point.
    fn raises_transition(&self, bin: usize, cover: bool) -> bool {
        let bins = &self.rules.table.transition_bins;
        let record = &bins[bin];
        let barred = |stretch: &[Option<i64>]| {
            let numbers = 0..bins.len();
            numbers
                .filter(|&n| bins[n].point == record.point && bins[n].kind != Kind::Cover)
                .any(|other| self.rules.bin_matches(other, stretch))
        };
        let mut stretches = self.stretches[record.point].iter();
        guard_true(record.guard, self.words)
            && stretches.any(|s| self.rules.bin_matches(bin, s) && !(cover && barred(s)))
    }

    /// Some selected product is hit; a cover bin's must be still its own.
    fn raises_cross_bin(&self, cross: usize, nth: usize, cover: bool) -> bool {
        let table = &self.rules.table;
        let guard = table.cross_bins[table.crosses[cross].bins.start + nth].guard;
        let mut products = self.rules.products[cross].iter();
        guard_true(guard, self.words)
            && products.any(|product| {
                let own = product.selected[nth] && !(cover && self.rules.barred(cross, product));
                own && self.hits(cross, product)
            })
    }

    fn hits(&self, cross: usize, product: &Product) -> bool {
        let record = &self.rules.table.crosses[cross];
        let mut parts = record.points.iter().zip(&product.parts);
        guard_true(record.guard, self.words)
            && parts.all(|(&point, &part)| self.raised[point][part])
    }
}

impl Rules {
    /// Which of the point's parts the sample raises.
    fn raised_parts(&self, point: usize, words: &[u32]) -> Vec<bool> {
        let known = reading(&self.table, point, words).flatten();
        let raised = |part: &Part| {
            known.is_some_and(|value| part.values.holds(value)) && guard_true(part.guard, words)
        };
        self.parts[point].iter().map(raised).collect()
    }

    fn blocks(&self, sequence: usize) -> Vec<Block<'_>> {
        let steps = &self.table.steps[self.table.sequences[sequence].steps.clone()];
        let block = |step: &table::Step| Block {
            ranges: &self.table.step_ranges[step.ranges.clone()],
            least: step.least.into(),
            most: step.most.into(),
        };
        steps.iter().map(block).collect()
    }

    /// Does the closing stretch match a sequence of this transition bin?
    fn bin_matches(&self, bin: usize, stretch: &[Option<i64>]) -> bool {
        let mut sequences = self.table.transition_bins[bin].sequences.clone();
        sequences.any(|sequence| fits(&self.blocks(sequence), stretch))
    }
}

impl Default for Book {
    fn default() -> Self {
        Book::new()
    }
}

impl Book {
    /// As a reset leaves it.
    pub fn new() -> Book {
        Book {
            running: true,
            page: Vec::new(),
        }
    }

    pub fn reset(&mut self, table: &Fed) -> u32 {
        if let Err(number) = table {
            return *number;
        }
        self.running = true;
        self.page.clear();
        0
    }

    pub fn start(&mut self, table: &Fed) -> u32 {
        if let Err(number) = table {
            return *number;
        }
        if !self.running {
            self.running = true;
            self.page.push(Entry::Restart);
        }
        0
    }

    pub fn stop(&mut self, table: &Fed) -> u32 {
        if let Err(number) = table {
            return *number;
        }
        self.running = false;
        0
    }

    pub fn sample(&mut self, table: &Fed, words: &[u32], report: &mut [u32]) -> u32 {
        let rules = match table {
            Ok(rules) => rules,
            Err(number) => return *number,
        };
        let number = self.refuse_sample(rules, words, report);
        if number == 0 {
            self.page.push(Entry::Sample(words.to_vec()));
            let raised = self.raised(rules, self.page.len() - 1);
            let illegal = rules
                .places
                .iter()
                .zip(raised)
                .filter(|(place, _)| place.is_illegal());
            for (word, (_, raised)) in report.iter_mut().zip(illegal) {
                *word = raised.into();
            }
        }
        number
    }

    /// Samples one after another, up to the first that is refused.
    pub fn samples(&mut self, table: &Fed, words: &[u32], reports: &mut [u32]) -> (u32, usize) {
        let rules = match table {
            Ok(rules) => rules,
            Err(number) => return (*number, 0),
        };
        let (size, illegal) = (4 + 2 * rules.table.points.len(), rules.illegal_places());
        let (mut rest, mut taken) = (words, 0);
        while !rest.is_empty() {
            let (sample, later) = rest.split_at(size.min(rest.len()));
            match self.sample(table, sample, &mut reports[taken * illegal..]) {
                0 => (rest, taken) = (later, taken + 1),
                number => return (number, taken),
            }
        }
        (0, taken)
    }

    fn refuse_sample(&self, rules: &Rules, words: &[u32], report: &[u32]) -> u32 {
        let points = &rules.table.points;
        if words.len() != 4 + 2 * points.len() {
            return 12;
        }
        for (point, record) in points.iter().enumerate() {
            let beyond = |word: u32| (record.ty.width..32).any(|bit| word >> bit & 1 == 1);
            if beyond(words[4 + 2 * point]) || beyond(words[5 + 2 * point]) {
                return 13;
            }
        }
        if report.len() < rules.illegal_places() {
            return 11;
        }
        if !self.running {
            return 10;
        }
        if self.sample_count() == u32::MAX as usize {
            return 9;
        }
        0
    }

    /// Page numbers of the samples.
    fn moments(&self) -> Vec<usize> {
        let entries = self.page.iter().enumerate();
        let samples = entries.filter(|(_, entry)| matches!(entry, Entry::Sample(_)));
        samples.map(|(moment, _)| moment).collect()
    }

    fn sample_count(&self) -> usize {
        self.moments().len()
    }

    /// The point's readings up to this entry, after the last restart before it.
    fn history(&self, rules: &Rules, point: usize, moment: usize) -> Vec<Option<i64>> {
        let mut readings = Vec::new();
        for entry in &self.page[..=moment] {
            match entry {
                Entry::Restart => readings.clear(),
                Entry::Sample(words) => readings.extend(reading(&rules.table, point, words)),
            }
        }
        readings
    }

    /// Stretches of the point's history that close with this sample's own
    /// reading; none if the reading is not part of the history.
    fn stretches(&self, rules: &Rules, point: usize, moment: usize) -> Vec<Vec<Option<i64>>> {
        let Entry::Sample(words) = &self.page[moment] else {
            return Vec::new();
        };
        if reading(&rules.table, point, words).is_none() {
            return Vec::new();
        }
        let history = self.history(rules, point, moment);
        (0..history.len())
            .map(|from| history[from..].to_vec())
            .collect()
    }

    /// For each place: does this sample raise its bin, or count its product?
    fn raised(&self, rules: &Rules, moment: usize) -> Vec<bool> {
        let Entry::Sample(words) = &self.page[moment] else {
            return vec![false; rules.places.len()];
        };
        let points = 0..rules.table.points.len();
        let sample = Sample {
            rules,
            words,
            raised: points
                .clone()
                .map(|p| rules.raised_parts(p, words))
                .collect(),
            stretches: points.map(|p| self.stretches(rules, p, moment)).collect(),
        };
        let places = rules.places.iter();
        places.map(|&place| sample.raises(place)).collect()
    }

    /// Every place's count, from the whole page.
    fn counts(&self, rules: &Rules) -> Vec<u32> {
        let mut counts = vec![0; rules.places.len()];
        for moment in self.moments() {
            let raised = self.raised(rules, moment);
            for (count, raised) in counts.iter_mut().zip(raised) {
                *count += u32::from(raised);
            }
        }
        counts
    }

    /// Every point's unknown count.
    fn unknowns(&self, rules: &Rules) -> Vec<u32> {
        let unknown = |point: usize, entry: &Entry| match entry {
            Entry::Sample(words) => reading(&rules.table, point, words) == Some(None),
            Entry::Restart => false,
        };
        let count = |point| self.page.iter().filter(|e| unknown(point, e)).count() as u32;
        (0..rules.table.points.len()).map(count).collect()
    }

    /// Every run word, from the readings after the last restart.
    fn runs(&self, rules: &Rules) -> Vec<u32> {
        let mut words = Vec::new();
        for bin in &rules.table.transition_bins {
            let history = match self.page.len() {
                0 => Vec::new(),
                length => self.history(rules, bin.point, length - 1),
            };
            for sequence in bin.sequences.clone() {
                let blocks = rules.blocks(sequence);
                for (step, block) in blocks.iter().enumerate() {
                    for nth in 1..=block.most {
                        let mut up_to = blocks[..=step].to_vec();
                        up_to[step].least = nth;
                        up_to[step].most = nth;
                        let mut word = 0u32;
                        for length in 1..=history.len().min(32) {
                            let stretch = &history[history.len() - length..];
                            word |= u32::from(fits(&up_to, stretch)) << (length - 1);
                        }
                        words.push(word);
                    }
                }
            }
        }
        words
    }

    /// All words of a register with this history.
    pub fn words(&self, rules: &Rules) -> Vec<u32> {
        let mut words = vec![self.running.into(), self.sample_count() as u32];
        words.extend(self.counts(rules));
        words.extend(self.unknowns(rules));
        words.extend(self.runs(rules));
        words
    }

    pub fn place_count(&self, table: &Fed, place: usize) -> (u32, u32) {
        match table {
            Ok(rules) if place < rules.places.len() => (0, self.counts(rules)[place]),
            Ok(_) => (14, 0),
            Err(number) => (*number, 0),
        }
    }

    pub fn unknown_count(&self, table: &Fed, point: usize) -> (u32, u32) {
        match table {
            Ok(rules) if point < rules.table.points.len() => (0, self.unknowns(rules)[point]),
            Ok(_) => (14, 0),
            Err(number) => (*number, 0),
        }
    }

    pub fn item_figure(&self, table: &Fed, item: usize) -> (u32, Option<f64>) {
        match table {
            Ok(rules) if item < rules.items() => (0, rules.item_figure(item, &self.counts(rules))),
            Ok(_) => (14, None),
            Err(number) => (*number, None),
        }
    }

    pub fn group_figure(&self, table: &Fed) -> (u32, Option<u32>) {
        match table {
            Ok(rules) => (0, rules.group_figure(&self.counts(rules))),
            Err(number) => (*number, None),
        }
    }
}

/// What a report says of a place beside its count.
#[derive(Clone, Debug, PartialEq, Eq)]
pub struct Label {
    /// The item it belongs to.
    pub item: usize,
    pub what: &'static str,
    pub illegal: bool,
    /// The at-least that covers it, where it is in its item's total.
    pub at_least: Option<u32>,
}

impl Rules {
    fn owner(&self, place: Place) -> (usize, &'static str) {
        let points = self.table.points.len();
        match place {
            Place::Part { point, .. } => (point, "bin"),
            Place::IllegalValue { bin } => (self.table.value_bins[bin].point, "illegal bin"),
            Place::Default { bin } => (self.table.value_bins[bin].point, "default bin"),
            Place::CoverTransition { bin } => {
                (self.table.transition_bins[bin].point, "transition bin")
            }
            Place::IllegalTransition { bin } => {
                let point = self.table.transition_bins[bin].point;
                (point, "illegal transition bin")
            }
            Place::CoverCross { cross, .. } => (points + cross, "cross bin"),
            Place::IllegalCross { cross, .. } => (points + cross, "illegal cross bin"),
            Place::Product { cross, .. } => (points + cross, "product"),
        }
    }

    /// The labels of all places, in place order.
    pub fn labels(&self) -> Vec<Label> {
        let label = |&place: &Place| {
            let (item, what) = self.owner(place);
            Label {
                item,
                what,
                illegal: place.is_illegal(),
                at_least: self.item_of(place).map(|item| self.at_least(item)),
            }
        };
        self.places.iter().map(label).collect()
    }
}

/// Figures from given counts, one per place.
impl Rules {
    pub fn item_figure(&self, item: usize, counts: &[u32]) -> Option<f64> {
        match self.covered_of(item, counts) {
            (_, 0) => None,
            (covered, total) => Some((100 * covered) as f64 / total as f64),
        }
    }

    pub fn group_figure(&self, counts: &[u32]) -> Option<u32> {
        let mut weighted = Vec::new();
        for item in 0..self.items() {
            let (covered, total) = self.covered_of(item, counts);
            let weight = u128::from(self.weight(item));
            if total != 0 && weight != 0 {
                let figure = 100_000_000 * covered as u128 / total as u128;
                weighted.push((weight, figure));
            }
        }
        if weighted.is_empty() {
            return None;
        }
        let sum: u128 = weighted
            .iter()
            .map(|(weight, figure)| weight * figure)
            .sum();
        let weights: u128 = weighted.iter().map(|(weight, _)| weight).sum();
        Some((sum / weights) as u32)
    }

    pub fn items(&self) -> usize {
        self.table.points.len() + self.table.crosses.len()
    }

    fn weight(&self, item: usize) -> u16 {
        let points = self.table.points.iter().map(|p| p.weight);
        let crosses = self.table.crosses.iter().map(|c| c.weight);
        points.chain(crosses).nth(item).expect("an item")
    }

    fn at_least(&self, item: usize) -> u32 {
        let points = self.table.points.iter().map(|p| p.at_least);
        let crosses = self.table.crosses.iter().map(|c| c.at_least);
        points.chain(crosses).nth(item).expect("an item")
    }

    /// Does an ignore or illegal bin of the cross select the product?
    fn barred(&self, cross: usize, product: &Product) -> bool {
        let bins = &self.table.cross_bins[self.table.crosses[cross].bins.clone()];
        let mut pairs = bins.iter().zip(&product.selected);
        pairs.any(|(bin, &selected)| selected && bin.kind != Kind::Cover)
    }

    /// The item whose total the place is in, if it is in any.
    fn item_of(&self, place: Place) -> Option<usize> {
        let points = self.table.points.len();
        match place {
            Place::Part { point, part } => {
                let empty = self.parts[point][part].values.is_empty();
                (!empty).then_some(point)
            }
            Place::CoverTransition { bin } => Some(self.table.transition_bins[bin].point),
            Place::CoverCross { cross, nth } => {
                let counts = |p: &Product| p.selected[nth] && !self.barred(cross, p) && !p.empty;
                self.products[cross]
                    .iter()
                    .any(counts)
                    .then_some(points + cross)
            }
            Place::Product { cross, product } => {
                let product = &self.products[cross][product];
                let counts = !product.empty && !product.selected.contains(&true);
                counts.then_some(points + cross)
            }
            _ => None,
        }
    }

    /// The item's covered bins and its total.
    fn covered_of(&self, item: usize, counts: &[u32]) -> (u64, u64) {
        let (mut covered, mut total) = (0, 0);
        for (&place, &count) in self.places.iter().zip(counts) {
            if self.item_of(place) == Some(item) {
                total += 1;
                covered += u64::from(count >= self.at_least(item));
            }
        }
        (covered, total)
    }
}
