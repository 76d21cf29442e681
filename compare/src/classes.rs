//! Which hard cases a table has, so that a comparison can say that it met them.

use crate::builder::{Form, Kind, Range, Select, Table, ValueBin};
use crate::table::{auto_bins, Type};
use std::collections::BTreeSet;

#[derive(Clone, Copy, Debug, PartialEq, Eq, PartialOrd, Ord)]
pub enum Class {
    /// Two cover bins of a point share values.
    OverlappingBins,
    /// Two spans of a cover bin share values.
    OverlappingRanges,
    /// One bin per value, over spans that neither ascend nor keep apart.
    UnorderedPerValue,
    /// At least 20 excluded spans at a point.
    TensExcluded,
    /// At least 100.
    HundredsExcluded,
    /// Two excluded spans, one beginning after the other's end.
    AdjacentExcluded,
    /// An excluded span at the type's lowest value.
    ExcludedLowest,
    ExcludedHighest,
    /// A pattern at width 32 with at most 4 bits that matter.
    FewBits32,
    /// With at least 28.
    ManyBits32,
    /// A pattern at width 32 next to at least 20 excluded spans.
    PatternOverExcluded32,
    /// An expression of 31 or 32 tokens.
    DeepSelect,
    /// Of 31 or 32 tokens, at least 3 of them `not`.
    DeepNots,
    /// An operand under at least 6 operations.
    NestedSelect,
    /// An `intersect` leaf that ends at an end of a cover bin's span.
    LeafAtBin,
    /// One value off.
    LeafOffBin,
    /// An `intersect` leaf that ends at an end of an excluded span.
    LeafAtExcluded,
    /// One value off.
    LeafOffExcluded,
    /// An `intersect` leaf that ends where values dealt go over to the next bin.
    LeafAtPart,
    /// Values dealt over more bins than there are.
    MoreBinsThanValues,
    /// Values dealt, some of them listed more than once.
    RepeatedValues,
}

use Class::*;

impl Class {
    pub const ALL: [Class; 21] = [
        OverlappingBins,
        OverlappingRanges,
        UnorderedPerValue,
        TensExcluded,
        HundredsExcluded,
        AdjacentExcluded,
        ExcludedLowest,
        ExcludedHighest,
        FewBits32,
        ManyBits32,
        PatternOverExcluded32,
        DeepSelect,
        DeepNots,
        NestedSelect,
        LeafAtBin,
        LeafOffBin,
        LeafAtExcluded,
        LeafOffExcluded,
        LeafAtPart,
        MoreBinsThanValues,
        RepeatedValues,
    ];
}

/// All classes of a table.
pub fn classes(table: &Table) -> BTreeSet<Class> {
    let mut found = BTreeSet::new();
    for point in 0..table.points.len() {
        of_point(table, point, &mut found);
    }
    for cross in &table.crosses {
        for bin in &cross.bins {
            of_select(&bin.select, &mut found);
            of_leaves(table, &cross.points, &bin.select, &mut found);
        }
    }
    found
}

type Span = (i64, i64);

fn spans(bin: &ValueBin) -> Vec<Span> {
    let span = |range: &Range| match *range {
        Range::Span(lo, hi) => Some((lo, hi)),
        Range::Pattern(..) => None,
    };
    bin.ranges.iter().filter_map(span).collect()
}

fn share(a: Span, b: Span) -> bool {
    a.0 <= b.1 && b.0 <= a.1
}

/// Some two spans of the list share values.
fn overlap(spans: &[Span]) -> bool {
    let mut sorted = spans.to_vec();
    sorted.sort_unstable();
    sorted.windows(2).any(|pair| share(pair[0], pair[1]))
}

/// Spans of the point's cover bins, or of its ignore and illegal bins.
fn point_spans(table: &Table, point: usize, excluded: bool) -> Vec<Span> {
    let is_wanted = |bin: &&ValueBin| {
        let wanted = match bin.kind {
            Kind::Cover => !excluded,
            Kind::Ignore | Kind::Illegal => excluded,
            Kind::Default => false,
        };
        bin.point as usize == point && wanted
    };
    table
        .value_bins
        .iter()
        .filter(is_wanted)
        .flat_map(spans)
        .collect()
}

/// Where values dealt go over to the next bin, as auto bins too: the first value of each
/// bin but the first, in each span.
pub(crate) fn dealt_borders(table: &Table, point: usize) -> Vec<i64> {
    let mut borders = Vec::new();
    let mut deal = |spans: &[Span], bins: i64| {
        let each = (spans.iter().map(|s| s.1 - s.0 + 1).sum::<i64>() / bins).max(1);
        let mut position = 0;
        for &(lo, hi) in spans {
            let next = (position / each + 1..bins).map(|bin| lo + bin * each - position);
            borders.extend(next.take_while(|&first| first <= hi));
            position += hi - lo + 1;
        }
    };
    let bins = || table.value_bins.iter();
    for bin in bins().filter(|bin| bin.point as usize == point) {
        if let Form::Number(number) = bin.form {
            deal(&spans(bin), number.into());
        }
    }
    let record = &table.points[point];
    let is_auto = !bins()
        .any(|bin| bin.point as usize == point && matches!(bin.kind, Kind::Cover | Kind::Default))
        && !table
            .transition_bins
            .iter()
            .any(|bin| bin.point as usize == point && bin.kind == Kind::Cover);
    if is_auto {
        let ty = Type {
            width: record.width,
            signed: record.signed,
        };
        let bins = auto_bins(record.width, record.auto_max);
        deal(&[(ty.lowest(), ty.highest())], bins as i64);
    }
    borders
}

fn of_point(table: &Table, point: usize, found: &mut BTreeSet<Class>) {
    let mut note = |class: Class, is_there: bool| {
        if is_there {
            found.insert(class);
        }
    };
    let record = &table.points[point];
    let ty = Type {
        width: record.width,
        signed: record.signed,
    };
    let of_point = |bin: &&ValueBin| bin.point as usize == point && bin.kind == Kind::Cover;
    let covers: Vec<&ValueBin> = table.value_bins.iter().filter(of_point).collect();
    let mut earlier: Vec<Span> = Vec::new();
    for bin in &covers {
        let own = spans(bin);
        let shared = own.iter().any(|&a| earlier.iter().any(|&b| share(a, b)));
        note(OverlappingBins, shared);
        note(OverlappingRanges, overlap(&own));
        let ascends = own.windows(2).all(|pair| pair[0] <= pair[1]);
        note(
            UnorderedPerValue,
            bin.form == Form::PerValue && !ascends && overlap(&own),
        );
        if let Form::Number(number) = bin.form {
            let listed: i64 = own.iter().map(|&(lo, hi)| hi - lo + 1).sum();
            note(MoreBinsThanValues, i64::from(number) > listed);
            note(RepeatedValues, overlap(&own));
        }
        earlier.extend(own);
    }
    let mut excluded = point_spans(table, point, true);
    excluded.sort_unstable();
    note(TensExcluded, excluded.len() >= 20);
    note(HundredsExcluded, excluded.len() >= 100);
    let adjacent = |pair: &[Span]| pair[0].1 + 1 == pair[1].0;
    note(AdjacentExcluded, excluded.windows(2).any(adjacent));
    note(ExcludedLowest, excluded.iter().any(|s| s.0 == ty.lowest()));
    note(
        ExcludedHighest,
        excluded.iter().any(|s| s.1 == ty.highest()),
    );
    for range in covers.iter().flat_map(|bin| &bin.ranges) {
        if let (Range::Pattern(_, mask), 32) = (*range, ty.width) {
            note(FewBits32, mask.count_ones() <= 4);
            note(ManyBits32, mask.count_ones() >= 28);
            note(PatternOverExcluded32, excluded.len() >= 20);
        }
    }
}

/// How many `not`s an expression has, and operations above its deepest leaf.
fn nots_and_depth(select: &Select) -> (usize, usize) {
    match select {
        Select::Not(inner) => {
            let (nots, depth) = nots_and_depth(inner);
            (nots + 1, depth + 1)
        }
        Select::And(left, right) | Select::Or(left, right) => {
            let (left, right) = (nots_and_depth(left), nots_and_depth(right));
            (left.0 + right.0, 1 + left.1.max(right.1))
        }
        _ => (0, 0),
    }
}

fn of_select(select: &Select, found: &mut BTreeSet<Class>) {
    let (nots, depth) = nots_and_depth(select);
    if select.tokens() >= 31 {
        found.insert(DeepSelect);
        if nots >= 3 {
            found.insert(DeepNots);
        }
    }
    if depth >= 6 {
        found.insert(NestedSelect);
    }
}

fn of_leaves(table: &Table, points: &[u8], select: &Select, found: &mut BTreeSet<Class>) {
    match select {
        Select::Not(inner) => of_leaves(table, points, inner, found),
        Select::And(left, right) | Select::Or(left, right) => {
            of_leaves(table, points, left, found);
            of_leaves(table, points, right, found);
        }
        &Select::Meets { position, lo, hi } => {
            let point = points[position as usize].into();
            let sides = [
                (false, LeafAtBin, LeafOffBin),
                (true, LeafAtExcluded, LeafOffExcluded),
            ];
            let borders = dealt_borders(table, point);
            if borders.iter().any(|&first| lo == first || hi == first - 1) {
                found.insert(LeafAtPart);
            }
            for (excluded, at, off) in sides {
                let spans = point_spans(table, point, excluded);
                let ends = || spans.iter().flat_map(|&(a, b)| [a, b]);
                if ends().any(|end| lo == end || hi == end) {
                    found.insert(at);
                }
                if ends().any(|end| (lo - end).abs() == 1 || (hi - end).abs() == 1) {
                    found.insert(off);
                }
            }
        }
        _ => {}
    }
}
