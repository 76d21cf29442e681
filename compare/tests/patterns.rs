//! What ignore and illegal bins leave of a pattern, at every width, against a
//! list of the values that fit.

mod common;

use common::Both;
use common::Reading::Value;
use compare::builder::{Cross, Kind, Point, Range, Select, Table, ValueBin};
use compare::random::{self, Rng};

/// A pattern with a few free bits anywhere, and its values ascending.
fn pattern(rng: &mut Rng, width: u8) -> (Range, Vec<i64>) {
    let ones = (1i64 << width) - 1;
    let mut mask = ones;
    for _ in 0..1 + rng.below(5) {
        mask &= !(1 << rng.below(width.into()));
    }
    let bits = rng.u64() as i64 & mask;
    let mut values = vec![bits];
    for bit in (0..width).filter(|bit| mask >> bit & 1 == 0) {
        let with_bit: Vec<i64> = values.iter().map(|v| v | 1 << bit).collect();
        values.extend(with_bit);
    }
    values.sort();
    (Range::Pattern(bits, mask), values)
}

/// Spans that take some of the values and much between them.
fn takers(rng: &mut Rng, values: &[i64], highest: i64) -> Vec<(i64, i64)> {
    let near = |rng: &mut Rng| rng.pick(values) + rng.between(-1, 1);
    (0..1 + rng.below(4))
        .map(|_| {
            let (a, b) = match rng.below(4) {
                0 => (0, near(rng)),
                1 => (near(rng), highest),
                _ => (near(rng), near(rng)),
            };
            let (a, b) = (a.clamp(0, highest), b.clamp(0, highest));
            (a.min(b), a.max(b))
        })
        .collect()
}

#[test]
fn left_of_a_pattern() {
    println!("COMPARE_SEED={:#x}", random::seed());
    let mut rng = Rng::new(random::seed() ^ 0x9A77);
    let (mut empty, mut met, mut missed) = (0, 0, 0);
    for round in 0..6_000 {
        let width = 1 + (round % 32) as u8;
        let highest = (1i64 << width) - 1;
        let (range, values) = pattern(&mut rng, width);
        let taken = takers(&mut rng, &values, highest);
        let is_left = |v: &i64| !taken.iter().any(|&(lo, hi)| lo <= *v && *v <= hi);
        let left: Vec<i64> = values.iter().copied().filter(is_left).collect();
        let lo = (rng.pick(&values) + rng.between(-2, 2)).clamp(0, highest);
        let reach = 1 << rng.below(width.into());
        let hi = rng.between(lo, highest.min(lo + reach));
        let meets = left.iter().any(|&v| lo <= v && v <= hi);

        let ranges: Vec<Range> = taken.iter().map(|&(a, b)| Range::Span(a, b)).collect();
        let bins = vec![
            ValueBin::cover(0, &[range]),
            ValueBin::illegal(0, &ranges[..1]),
            ValueBin::ignore(0, &ranges),
        ];
        let cross = Cross::new(&[0, 1]).bin(Kind::Ignore, Select::meets(0, lo, hi));
        let points = vec![Point::new(width), Point::new(1).auto_max(1)];
        let mut both = Both::new(&Table::new(points).values(bins).cross(cross));
        let what = format!("{range:?} width {width} less {taken:?} in {lo}..{hi}");
        let expected = (!left.is_empty()).then_some(0.0);
        assert_eq!(both.figure(0), expected, "{what}");
        // The cross keeps its one product if the bin is left and not selected.
        let expected = (!left.is_empty() && !meets).then_some(0.0);
        assert_eq!(both.figure(2), expected, "{what}");
        if let Some(&value) = left.first() {
            both.sample(&[Value(value), Value(0)]);
            assert_eq!(both.count(0), 1, "{what}");
            assert_eq!(both.count(3), u32::from(!meets), "{what}");
        }
        empty += usize::from(left.is_empty());
        met += usize::from(meets);
        missed += usize::from(!left.is_empty() && !meets);
    }
    println!("{empty} empty, {met} met, {missed} missed");
    assert!(empty > 300 && met > 300 && missed > 300);
}
