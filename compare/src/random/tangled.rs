//! Tables that tangle: bins that overlap, values listed in no order, tens and
//! hundreds of excluded spans, patterns at 32 bits, more bins than values, and deep
//! expressions over the borders of all of them.

use super::{at_least, guard, listed_values, point_type, weight, Rng};
use crate::builder::{
    value, Cross, CrossBin, Form, Kind, Point, Range, Select, Step, Table, TransitionBin, ValueBin,
};
use crate::classes::dealt_borders;
use crate::table::Type;

/// One or two tangled points, one or two small ones, and mostly crosses.
pub fn tangled(rng: &mut Rng) -> Table {
    let mut table = Table::default();
    for _ in 0..1 + rng.below(4) / 3 {
        let width = *rng.pick(&[3, 5, 7, 8, 10, 11, 16, 31, 32, 32, 32, 32, 32, 32]);
        let point = Point {
            guard: None,
            signed: rng.chance(20),
            weight: weight(rng),
            at_least: at_least(rng),
            auto_max: 1 + rng.below(12) as u16,
            width,
        };
        table.points.push(point);
        let index = table.points.len() as u8 - 1;
        Tangle::new(rng, &table.points[index as usize]).add(rng, &mut table, index);
    }
    for _ in 0..1 + rng.below(2) {
        let point = Point::new(1 + rng.below(3) as u8).auto_max(1 + rng.below(4) as u16);
        table.points.push(point);
    }
    rng.shuffle(&mut table.value_bins);
    if rng.chance(80) {
        let cross = deep_cross(rng, &table);
        table.crosses.push(cross);
    }
    table
}

/// Values near each other, from which spans of a point are drawn.
struct Tangle {
    ty: Type,
    base: i64,
    /// Values between neighbouring spans' beginnings.
    stride: i64,
}

impl Tangle {
    fn new(rng: &mut Rng, point: &Point) -> Tangle {
        let ty = point_type(point);
        let (lowest, highest) = (ty.lowest(), ty.highest());
        let room = (highest - lowest).min(4_000);
        let base = match rng.below(4) {
            0 => lowest,
            1 => highest - room,
            2 => (-room / 2).max(lowest),
            _ => rng.between(lowest, highest - room),
        };
        Tangle {
            ty,
            base,
            stride: *rng.pick(&[1, 2, 2, 3, 8]),
        }
    }

    fn clamp(&self, value: i64) -> i64 {
        value.clamp(self.ty.lowest(), self.ty.highest())
    }

    /// A span of up to this many values, near the base.
    fn span(&self, rng: &mut Rng, reach: i64, most: i64) -> Range {
        let lo = self.clamp(self.base + rng.between(0, reach));
        let hi = self.clamp(lo + rng.between(0, most - 1));
        Range::Span(lo, hi)
    }

    fn add(&self, rng: &mut Rng, table: &mut Table, point: u8) {
        let first = table.value_bins.len();
        if rng.chance(70) {
            for _ in 0..2 + rng.below(5) {
                let ranges = 1 + rng.below(4);
                let ranges: Vec<Range> = (0..ranges).map(|_| self.span(rng, 40, 60)).collect();
                table.value_bins.push(ValueBin::cover(point, &ranges));
            }
        }
        if rng.chance(45) {
            let ranges = 3 + rng.below(5);
            let ranges: Vec<Range> = (0..ranges).map(|_| self.span(rng, 12, 6)).collect();
            let bin = ValueBin::cover(point, &ranges).form(Form::PerValue);
            table.value_bins.push(bin);
        }
        if rng.chance(45) {
            table.value_bins.push(self.dealt(rng, point));
        }
        if !self.ty.signed && rng.chance(80) {
            for _ in 0..1 + rng.below(3) {
                let mut ranges = vec![self.pattern(rng), self.pattern(rng)];
                ranges.truncate(1 + rng.below(2));
                if rng.chance(30) {
                    ranges.push(self.span(rng, 40, 9));
                }
                table.value_bins.push(ValueBin::cover(point, &ranges));
            }
        }
        if rng.chance(15) {
            table.value_bins.push(ValueBin::default(point));
        }
        for bin in &mut table.value_bins[first..] {
            bin.guard = guard(rng);
        }
        self.add_excluded(rng, table, point);
        if rng.chance(15) {
            let step = |rng: &mut Rng| Step::new(&[self.span(rng, 40, 9), self.span(rng, 40, 60)]);
            let steps = vec![step(rng), step(rng).repeat(1, 2)];
            table
                .transition_bins
                .push(TransitionBin::cover(point, &[steps]));
        }
    }

    /// More bins than values, or repeated values, or both.
    fn dealt(&self, rng: &mut Rng, point: u8) -> ValueBin {
        let lo = self.clamp(self.base + rng.between(0, 20));
        let mut ranges = vec![Range::Span(lo, self.clamp(lo + rng.between(0, 6)))];
        if rng.chance(70) {
            ranges.push(ranges[0]);
            ranges.push(value(lo));
            rng.shuffle(&mut ranges);
        }
        let number = match rng.chance(60) {
            true => 20 + rng.below(6),
            false => 2 + rng.below(4),
        };
        ValueBin::cover(point, &ranges).form(Form::Number(number as u16))
    }

    /// Few or many bits that matter; a value near the base fits.
    fn pattern(&self, rng: &mut Rng) -> Range {
        let ones = self.ty.ones();
        let mut some = 0;
        for _ in 0..1 + rng.below(4) {
            some |= 1 << rng.below(self.ty.width.into());
        }
        let mask = match rng.below(5) {
            0 | 1 => some,
            2 | 3 => ones & !some,
            _ => rng.u64() as i64 & ones,
        };
        let near = self.clamp(self.base + rng.between(0, 60));
        Range::Pattern(near & mask, mask)
    }

    /// Ignore and illegal bins: a few spans, tens, or hundreds, often touching each
    /// other or the type's ends, in any order.
    fn add_excluded(&self, rng: &mut Rng, table: &mut Table, point: u8) {
        let count = match rng.below(20) {
            0 | 1 => 0,
            2..=6 => 1 + rng.below(4),
            7..=17 => 20 + rng.below(40),
            _ => 100 + rng.below(150),
        };
        let touching = rng.chance(60);
        let mut spans: Vec<Range> = (0..count as i64)
            .map(|i| {
                let lo = self.clamp(self.base + 5 + i * self.stride);
                let length = match touching {
                    true => self.stride - 1,
                    false => rng.below(self.stride as usize) as i64,
                };
                Range::Span(lo, self.clamp(lo + length))
            })
            .collect();
        if rng.chance(30) {
            let lowest = self.ty.lowest();
            spans.push(Range::Span(lowest, self.clamp(lowest + rng.between(0, 3))));
        }
        if rng.chance(30) {
            let highest = self.ty.highest();
            spans.push(Range::Span(
                self.clamp(highest - rng.between(0, 3)),
                highest,
            ));
        }
        match rng.below(3) {
            0 => {}
            1 => spans.reverse(),
            _ => rng.shuffle(&mut spans),
        }
        for part in spans.chunks(1 + spans.len() / (1 + rng.below(3))) {
            let kind = *rng.pick(&[Kind::Ignore, Kind::Ignore, Kind::Illegal]);
            let mut bin = ValueBin::new(point, kind, part);
            if kind == Kind::Illegal {
                bin.guard = guard(rng);
            }
            table.value_bins.push(bin);
        }
    }
}

/// A cross of a tangled point and others, with long expressions.
fn deep_cross(rng: &mut Rng, table: &Table) -> Cross {
    let mut points: Vec<u8> = (0..table.points.len() as u8).collect();
    let first = points.len() - 2;
    points.truncate(2 + first.min(rng.below(2)));
    rng.shuffle(&mut points);
    let borders: Vec<Vec<i64>> = points
        .iter()
        .map(|&point| {
            let mut values = listed_values(table, point.into());
            let dealt = dealt_borders(table, point.into());
            values.extend(dealt.iter().flat_map(|&first| [first - 1, first]));
            values
        })
        .collect();
    let bins = (0..1 + rng.below(3)).map(|_| {
        let kind = *rng.pick(&[Kind::Cover, Kind::Cover, Kind::Ignore, Kind::Illegal]);
        let tokens = match rng.chance(50) {
            true => 31 + rng.below(2),
            false => 1 + rng.below(12),
        };
        CrossBin {
            kind,
            guard: match kind {
                Kind::Ignore => None,
                _ => guard(rng),
            },
            select: exactly(rng, table, &points, &borders, tokens),
        }
    });
    let bins = bins.collect();
    Cross {
        bins,
        guard: guard(rng),
        weight: weight(rng),
        at_least: at_least(rng),
        points,
    }
}

/// An expression of exactly this many tokens.
fn exactly(
    rng: &mut Rng,
    table: &Table,
    points: &[u8],
    borders: &[Vec<i64>],
    tokens: usize,
) -> Select {
    match tokens {
        1 => border_leaf(rng, table, points, borders),
        2 => border_leaf(rng, table, points, borders).negated(),
        _ => {
            // Leaning to either side, or balanced.
            let left = match rng.below(4) {
                0 => 1 + rng.below(2.min(tokens - 2)),
                1 => tokens - 2 - rng.below(2.min(tokens - 2)),
                _ => 1 + rng.below(tokens - 2),
            };
            let left_side = exactly(rng, table, points, borders, left);
            let right_side = exactly(rng, table, points, borders, tokens - 1 - left);
            match rng.chance(50) {
                true => left_side.and(right_side),
                false => left_side.or(right_side),
            }
        }
    }
}

/// Mostly values from one border to another: an end of a bin or of an excluded
/// span, or the value before or after it.
fn border_leaf(rng: &mut Rng, table: &Table, points: &[u8], borders: &[Vec<i64>]) -> Select {
    let position = rng.below(points.len());
    let bins = table.value_bins.iter().enumerate();
    let cover: Vec<u16> = bins
        .filter(|(_, bin)| bin.point == points[position] && bin.kind == Kind::Cover)
        .map(|(index, _)| index as u16)
        .collect();
    match rng.below(8) {
        0 => Select::Whole(position as u8),
        1 if !cover.is_empty() => Select::bin(position as u8, *rng.pick(&cover)),
        kind => {
            let a = *rng.pick(&borders[position]);
            let b = match kind {
                2 | 3 => a,
                _ => *rng.pick(&borders[position]),
            };
            Select::meets(position as u8, a.min(b), a.max(b))
        }
    }
}
