//! Deterministic random tables, damaged tables, call lists and registers.

use crate::builder::{
    value, Cross, CrossBin, Field, Form, Kind, Point, Range, Select, Step, Table, TransitionBin,
    ValueBin, Written,
};
use crate::calls::Call;
use crate::table::{self, Layout, Type};
use std::collections::VecDeque;

mod tangled;
pub use tangled::tangled;

/// The seed when the environment names none.
pub const DEFAULT_SEED: u64 = 0x0F10_C0DE_5EED_0001;

/// The seed from COMPARE_SEED (decimal, or hex after 0x), or the default.
pub fn seed() -> u64 {
    let Ok(text) = std::env::var("COMPARE_SEED") else {
        return DEFAULT_SEED;
    };
    let parsed = match text.strip_prefix("0x") {
        Some(digits) => u64::from_str_radix(digits, 16),
        None => text.parse(),
    };
    parsed.expect("COMPARE_SEED must be a number")
}

/// splitmix64.
#[derive(Clone, Debug)]
pub struct Rng {
    state: u64,
}

impl Rng {
    pub fn new(seed: u64) -> Rng {
        Rng { state: seed }
    }

    /// One for each list of a run, so that a failing list is told apart.
    pub fn of_list(seed: u64, list: usize) -> Rng {
        Rng::new(
            seed.wrapping_add(list as u64)
                .wrapping_mul(0x2545_F491_4F6C_DD1D),
        )
    }

    pub fn u64(&mut self) -> u64 {
        self.state = self.state.wrapping_add(0x9E37_79B9_7F4A_7C15);
        let mut z = self.state;
        z = (z ^ (z >> 30)).wrapping_mul(0xBF58_476D_1CE4_E5B9);
        z = (z ^ (z >> 27)).wrapping_mul(0x94D0_49BB_1331_11EB);
        z ^ (z >> 31)
    }

    pub fn u32(&mut self) -> u32 {
        (self.u64() >> 32) as u32
    }

    /// 0 to below `bound`, which is not 0.
    pub fn below(&mut self, bound: usize) -> usize {
        (self.u64() % bound as u64) as usize
    }

    /// Both ends included.
    pub fn between(&mut self, lo: i64, hi: i64) -> i64 {
        let size = (hi - lo) as u64 + 1;
        lo + (self.u64() % size) as i64
    }

    pub fn chance(&mut self, percent: usize) -> bool {
        self.below(100) < percent
    }

    pub fn pick<'a, T>(&mut self, items: &'a [T]) -> &'a T {
        &items[self.below(items.len())]
    }

    pub fn shuffle<T>(&mut self, items: &mut [T]) {
        for last in (1..items.len()).rev() {
            items.swap(last, self.below(last + 1));
        }
    }
}

fn point_type(point: &Point) -> Type {
    Type {
        width: point.width,
        signed: point.signed,
    }
}

/// A random table that a reader accepts.
pub fn table(rng: &mut Rng) -> Table {
    loop {
        let draft = match rng.below(100) {
            0..=3 => near_limit(rng),
            4..=28 => crossed(rng),
            29..=53 => tangled(rng),
            _ => small(rng),
        };
        match table::check(&draft.bytes()) {
            Ok(_) => return draft,
            Err(refusal) if refusal.number == 6 => {}
            Err(refusal) => panic!("drew a table refused with {refusal:?}: {draft:?}"),
        }
    }
}

/// Few points and bins that often overlap.
pub fn small(rng: &mut Rng) -> Table {
    let points = 1 + rng.below(5);
    let points: Vec<Point> = (0..points).map(|_| point(rng)).collect();
    let pools: Vec<Pool> = points
        .iter()
        .map(|p| Pool::new(rng, point_type(p)))
        .collect();
    let mut table = Table::new(points);
    for (point, pool) in pools.iter().enumerate() {
        add_value_bins(rng, &mut table, point as u8, pool);
        add_transition_bins(rng, &mut table, point as u8, pool);
    }
    rng.shuffle(&mut table.value_bins);
    rng.shuffle(&mut table.transition_bins);
    if table.points.len() > 1 {
        for _ in 0..rng.below(3) {
            let cross = cross(rng, &table, &pools);
            table.crosses.push(cross);
        }
    }
    table
}

/// Two to four narrow points that mostly have cover or auto bins, and crosses.
pub fn crossed(rng: &mut Rng) -> Table {
    let points = 2 + rng.below(3);
    let points: Vec<Point> = (0..points)
        .map(|_| Point {
            width: 1 + rng.below(3) as u8,
            guard: None,
            auto_max: 1 + rng.below(5) as u16,
            ..point(rng)
        })
        .collect();
    let pools: Vec<Pool> = points
        .iter()
        .map(|p| Pool::new(rng, point_type(p)))
        .collect();
    let mut table = Table::new(points);
    for (point, pool) in pools.iter().enumerate() {
        for _ in 0..rng.below(4) {
            let kind = match rng.below(8) {
                0 => Kind::Illegal,
                1 => Kind::Ignore,
                _ => Kind::Cover,
            };
            table
                .value_bins
                .push(value_bin(rng, point as u8, kind, pool));
        }
    }
    rng.shuffle(&mut table.value_bins);
    for _ in 0..1 + rng.below(2) {
        let cross = cross(rng, &table, &pools);
        table.crosses.push(cross);
    }
    table
}

fn guard(rng: &mut Rng) -> Option<u8> {
    match rng.below(10) {
        0..=6 => None,
        7 | 8 => Some(rng.below(4) as u8),
        _ => Some(*rng.pick(&[31, 32, 33, 63])),
    }
}

fn weight(rng: &mut Rng) -> u16 {
    match rng.below(12) {
        0 => 0,
        1 => u16::MAX,
        _ => 1 + rng.below(5) as u16,
    }
}

fn at_least(rng: &mut Rng) -> u32 {
    match rng.below(30) {
        0 => u32::MAX,
        1..=18 => 1,
        _ => 2 + rng.below(2) as u32,
    }
}

fn point(rng: &mut Rng) -> Point {
    let width = match rng.below(20) {
        0..=10 => 1 + rng.below(4),
        11..=14 => 5 + rng.below(4),
        15..=16 => 9 + rng.below(8),
        17..=18 => 17 + rng.below(14),
        _ => 31 + rng.below(2),
    };
    Point {
        width: width as u8,
        signed: rng.chance(40),
        guard: guard(rng),
        weight: weight(rng),
        at_least: at_least(rng),
        auto_max: match rng.below(10) {
            0 => 64,
            1 => 256,
            _ => 1 + rng.below(9) as u16,
        },
    }
}

/// Values of a point that its ranges and readings are drawn from.
struct Pool {
    ty: Type,
    values: Vec<i64>,
}

impl Pool {
    /// All values of a narrow point; a few neighbours and the ends of a wide one.
    fn new(rng: &mut Rng, ty: Type) -> Pool {
        let (lowest, highest) = (ty.lowest(), ty.highest());
        if ty.width <= 3 {
            return Pool {
                ty,
                values: (lowest..=highest).collect(),
            };
        }
        let base = match rng.below(4) {
            0 => lowest,
            1 => highest - 7,
            2 => (-4).max(lowest),
            _ => rng.between(lowest, highest - 7),
        };
        let mut values: Vec<i64> = (base..base + 8).collect();
        values.extend([lowest, highest]);
        Pool { ty, values }
    }

    fn value(&self, rng: &mut Rng) -> i64 {
        *rng.pick(&self.values)
    }

    /// A short span at a pool value.
    fn short_span(&self, rng: &mut Rng) -> Range {
        let lo = self.value(rng);
        let hi = (lo + rng.below(4) as i64).min(self.ty.highest());
        Range::Span(lo, hi)
    }

    /// Any span: mostly short, sometimes between two pool values or anywhere.
    fn span(&self, rng: &mut Rng) -> Range {
        let (a, b) = match rng.below(8) {
            0 => (self.value(rng), self.value(rng)),
            1 if rng.chance(30) => (self.ty.lowest(), self.ty.highest()),
            1 => {
                let (lo, hi) = (self.ty.lowest(), self.ty.highest());
                (rng.between(lo, hi), rng.between(lo, hi))
            }
            2 => match rng.chance(50) {
                true => (self.ty.lowest(), self.value(rng)),
                false => (self.value(rng), self.ty.highest()),
            },
            _ => return self.short_span(rng),
        };
        Range::Span(a.min(b), a.max(b))
    }

    /// A pattern that a pool value fits, free in some bits.
    fn pattern(&self, rng: &mut Rng) -> Range {
        let width = usize::from(self.ty.width);
        let few = 1 << rng.below(width) | 1 << rng.below(width) | 1 << rng.below(width);
        let mask = match rng.below(8) {
            0 => 0,
            1 => self.ty.ones(),
            2 => self.ty.ones() & !3,
            3 | 4 => self.ty.ones() & !few,
            _ => (rng.u64() as i64) & self.ty.ones(),
        };
        Range::Pattern(self.value(rng) & mask, mask)
    }

    fn step_range(&self, rng: &mut Rng) -> Range {
        match rng.below(5) {
            0 if !self.ty.signed => self.pattern(rng),
            1 => self.span(rng),
            2 => self.short_span(rng),
            _ => value(self.value(rng)),
        }
    }
}

fn add_value_bins(rng: &mut Rng, table: &mut Table, point: u8, pool: &Pool) {
    let count = *rng.pick(&[0, 0, 1, 2, 2, 3, 4, 5]);
    let mut has_default = false;
    for _ in 0..count {
        let kind = match rng.below(20) {
            0..=10 => Kind::Cover,
            11..=13 => Kind::Ignore,
            14..=17 => Kind::Illegal,
            _ if has_default => Kind::Cover,
            _ => Kind::Default,
        };
        has_default |= kind == Kind::Default;
        table.value_bins.push(value_bin(rng, point, kind, pool));
    }
}

fn value_bin(rng: &mut Rng, point: u8, kind: Kind, pool: &Pool) -> ValueBin {
    let form = match (kind, rng.below(4)) {
        (Kind::Cover, 0) => Form::PerValue,
        (Kind::Cover, 1) => Form::Number(1 + rng.below(6) as u16),
        _ => Form::One,
    };
    let ranges = match kind {
        Kind::Default => 0,
        _ => 1 + rng.below(4),
    };
    let range = |rng: &mut Rng| match (kind, form) {
        (Kind::Cover, Form::One) if !pool.ty.signed && rng.chance(30) => pool.pattern(rng),
        (_, Form::PerValue) => pool.short_span(rng),
        (Kind::Ignore | Kind::Illegal, _) if rng.chance(70) => pool.short_span(rng),
        _ => pool.span(rng),
    };
    ValueBin {
        point,
        kind,
        form,
        guard: match kind {
            Kind::Ignore => None,
            _ => guard(rng),
        },
        ranges: (0..ranges).map(|_| range(rng)).collect(),
    }
}

fn add_transition_bins(rng: &mut Rng, table: &mut Table, point: u8, pool: &Pool) {
    for _ in 0..*rng.pick(&[0, 0, 1, 1, 2, 3]) {
        let kind = *rng.pick(&[
            Kind::Cover,
            Kind::Cover,
            Kind::Cover,
            Kind::Ignore,
            Kind::Illegal,
        ]);
        let sequences = 1 + rng.below(2);
        table.transition_bins.push(TransitionBin {
            point,
            kind,
            guard: match kind {
                Kind::Ignore => None,
                _ => guard(rng),
            },
            sequences: (0..sequences).map(|_| sequence(rng, pool)).collect(),
        });
    }
}

/// One to four steps with small repetitions.
fn sequence(rng: &mut Rng, pool: &Pool) -> Vec<Step> {
    let steps = *rng.pick(&[1, 2, 2, 2, 3, 3, 4]);
    (0..steps)
        .map(|_| {
            let least = match steps {
                1 => 2 + rng.below(2) as u8,
                _ => *rng.pick(&[1, 1, 1, 2]),
            };
            let most = least + *rng.pick(&[0, 0, 1, 2, 4]);
            let ranges = 1 + rng.below(2);
            let ranges: Vec<Range> = (0..ranges).map(|_| pool.step_range(rng)).collect();
            Step::new(&ranges).repeat(least, most)
        })
        .collect()
}

fn cross(rng: &mut Rng, table: &Table, pools: &[Pool]) -> Cross {
    let mut points: Vec<u8> = (0..table.points.len() as u8).collect();
    rng.shuffle(&mut points);
    let most = points.len().min(4);
    points.truncate(rng.between(2, most as i64) as usize);
    let bins = rng.below(5);
    let bins: Vec<CrossBin> = (0..bins)
        .map(|_| {
            let kind = *rng.pick(&[Kind::Cover, Kind::Cover, Kind::Ignore, Kind::Illegal]);
            CrossBin {
                kind,
                guard: match kind {
                    Kind::Ignore => None,
                    _ => guard(rng),
                },
                select: {
                    let tokens = 1 + rng.below(9);
                    select(rng, table, pools, &points, tokens)
                },
            }
        })
        .collect();
    Cross {
        points,
        guard: guard(rng),
        weight: weight(rng),
        at_least: at_least(rng),
        bins,
    }
}

/// An expression of at most this many tokens.
fn select(rng: &mut Rng, table: &Table, pools: &[Pool], points: &[u8], tokens: usize) -> Select {
    if tokens >= 3 && rng.chance(85) {
        let left = 1 + rng.below(tokens - 2);
        let left_side = select(rng, table, pools, points, left);
        let right_side = select(rng, table, pools, points, tokens - 1 - left);
        return match rng.chance(50) {
            true => left_side.and(right_side),
            false => left_side.or(right_side),
        };
    }
    let leaf = leaf(rng, table, pools, points);
    match tokens >= 2 && rng.chance(40) {
        true => leaf.negated(),
        false => leaf,
    }
}

fn leaf(rng: &mut Rng, table: &Table, pools: &[Pool], points: &[u8]) -> Select {
    let position = rng.below(points.len()) as u8;
    let point = points[position as usize];
    let bins = table.value_bins.iter().enumerate();
    let cover: Vec<u16> = bins
        .filter(|(_, bin)| bin.point == point && bin.kind == Kind::Cover)
        .map(|(index, _)| index as u16)
        .collect();
    match rng.below(5) {
        0 => Select::Whole(position),
        1 | 2 if !cover.is_empty() => Select::bin(position, *rng.pick(&cover)),
        _ => {
            let pool = &pools[point as usize];
            let (a, b) = (pool.value(rng), pool.value(rng));
            Select::meets(position, a.min(b), a.max(b))
        }
    }
}

/// Tables at or near one of the limits.
pub fn near_limit(rng: &mut Rng) -> Table {
    match rng.below(9) {
        0 => {
            let width = 8 + rng.below(25) as u8;
            Table::new(vec![Point::new(width).auto_max(256)])
        }
        1 => many_values(rng),
        2 => {
            let number = 250 + rng.below(7) as u16;
            let last = number as i64 + rng.between(-20, 600);
            let bin = ValueBin::cover(0, &[Range::Span(0, last)]).form(Form::Number(number));
            Table::new(vec![Point::new(10)]).values(vec![bin])
        }
        3 => many_products(rng),
        4 => long_sequences(rng),
        5 => many_points(rng),
        6 => many_bins(rng),
        7 => many_transitions(rng),
        _ => deep_select(rng),
    }
}

/// Up to 256 distinct values, each its own bin, listed in pieces out of order.
fn many_values(rng: &mut Rng) -> Table {
    let point = match rng.chance(50) {
        true => Point::signed(32),
        false => Point::new(9),
    };
    let ty = point_type(&point);
    let first = *rng.pick(&[ty.lowest(), 0, ty.highest() - 255]);
    let mut ranges: Vec<Range> = (0..16)
        .map(|piece| {
            let lo = first + 16 * piece;
            Range::Span(lo, lo + 15)
        })
        .collect();
    ranges.push(Range::Span(first + 3, first + 40));
    rng.shuffle(&mut ranges);
    let bins = vec![
        ValueBin::cover(0, &ranges).form(Form::PerValue),
        ValueBin::ignore(0, &[Range::Span(first + 5, first + 9)]),
    ];
    Table::new(vec![point]).values(bins)
}

/// 1,024 products, with cross bins.
fn many_products(rng: &mut Rng) -> Table {
    let shapes: [&[u16]; 5] = [
        &[32, 32],
        &[4, 16, 16],
        &[4, 4, 8, 8],
        &[256, 4],
        &[2, 2, 256],
    ];
    let parts = *rng.pick(&shapes);
    let points: Vec<Point> = parts.iter().map(|&n| Point::new(8).auto_max(n)).collect();
    let pools: Vec<Pool> = points
        .iter()
        .map(|p| Pool::new(rng, point_type(p)))
        .collect();
    let positions: Vec<u8> = (0..points.len() as u8).collect();
    let table = Table::new(points);
    let mut cross = Cross::new(&positions);
    for _ in 0..rng.below(4) {
        let kind = *rng.pick(&[Kind::Cover, Kind::Ignore, Kind::Illegal]);
        let select = select(rng, &table, &pools, &positions, 7);
        cross = cross.bin(kind, select);
    }
    table.cross(cross)
}

/// Sequences whose mosts sum to 32.
fn long_sequences(rng: &mut Rng) -> Table {
    let one = |least, most| Step::new(&[value(1)]).repeat(least, most);
    let shapes = [
        vec![one(2, 32)],
        vec![one(31, 32)],
        vec![one(1, 16), one(1, 16)],
        vec![one(1, 2); 16],
        vec![one(2, 2); 16],
        vec![one(1, 1), one(1, 31)],
        vec![one(1, 31), one(1, 1)],
        vec![one(4, 8), one(4, 8), one(4, 8), one(4, 8)],
    ];
    let mut bins = Vec::new();
    for kind in [Kind::Cover, Kind::Cover, Kind::Ignore, Kind::Illegal] {
        if rng.chance(70) {
            bins.push(TransitionBin::new(0, kind, &[rng.pick(&shapes).clone()]));
        }
    }
    Table::new(vec![Point::new(1 + rng.below(2) as u8)]).transitions(bins)
}

/// Sixteen points and eight crosses.
fn many_points(rng: &mut Rng) -> Table {
    let points = (0..16).map(|_| Point::new(1).auto_max(2)).collect();
    let mut table = Table::new(points);
    for _ in 0..8 {
        let mut points: Vec<u8> = (0..16).collect();
        rng.shuffle(&mut points);
        points.truncate(2 + rng.below(3));
        table = table.cross(Cross::new(&points));
    }
    table
}

/// 512 value bins over 16 points, 1,024 ranges.
fn many_bins(rng: &mut Rng) -> Table {
    let points = (0..16).map(|_| Point::new(5)).collect();
    let mut table = Table::new(points);
    for index in 0..512 {
        let lo = rng.between(0, 30);
        let ranges = [value(lo), Range::Span(lo, 31)];
        let kind = match index % 37 {
            0 => Kind::Illegal,
            1 => Kind::Ignore,
            _ => Kind::Cover,
        };
        table
            .value_bins
            .push(ValueBin::new(index as u8 % 16, kind, &ranges[..2]));
    }
    table
}

/// 64 sequences of four steps, two ranges each.
fn many_transitions(rng: &mut Rng) -> Table {
    let mut table = Table::new(vec![Point::new(2), Point::new(2)]);
    for index in 0..64 {
        let steps: Vec<Step> = (0..4)
            .map(|_| {
                let lo = rng.between(0, 2);
                Step::new(&[value(rng.between(0, 3)), Range::Span(lo, lo + 1)])
                    .repeat(1, 1 + rng.below(2) as u8)
            })
            .collect();
        let kind = match index % 16 {
            0 => Kind::Ignore,
            1 => Kind::Illegal,
            _ => Kind::Cover,
        };
        table
            .transition_bins
            .push(TransitionBin::new(index % 2, kind, &[steps]));
    }
    table
}

/// A cross bin of 31 or 32 tokens, leaning left or right.
fn deep_select(rng: &mut Rng) -> Table {
    let points = vec![Point::new(2), Point::new(2)];
    let pools: Vec<Pool> = points
        .iter()
        .map(|p| Pool::new(rng, point_type(p)))
        .collect();
    let mut table = Table::new(points);
    let mut deep = leaf(rng, &table, &pools, &[0, 1]);
    if rng.chance(50) {
        deep = deep.negated();
    }
    let lean_left = rng.chance(50);
    for _ in 0..15 {
        let next = leaf(rng, &table, &pools, &[0, 1]);
        deep = match (lean_left, rng.chance(50)) {
            (true, true) => deep.and(next),
            (true, false) => deep.or(next),
            (false, true) => next.and(deep),
            (false, false) => next.or(deep),
        };
    }
    table
        .crosses
        .push(Cross::new(&[0, 1]).bin(Kind::Cover, deep));
    table
}

/// A table spoiled in one way, and the way in words.
pub fn damaged(rng: &mut Rng, table: &Table) -> (Vec<u8>, String) {
    let mut written = table.written();
    match rng.below(16) {
        0 => {
            let length = rng.below(written.bytes.len());
            written.bytes.truncate(length);
            (written.bytes, format!("cut to {length} bytes"))
        }
        1 => {
            let extra = 1 + rng.below(40);
            written.bytes.extend((0..extra).map(|_| rng.u64() as u8));
            (written.bytes, format!("{extra} bytes left over"))
        }
        2 if rng.chance(20) => {
            let length = table::TABLE_LIMIT + rng.below(3);
            written.bytes.resize(length, 0);
            (written.bytes, format!("filled up to {length} bytes"))
        }
        3 => {
            let length = rng.below(200);
            let bytes = (0..length).map(|_| rng.u64() as u8).collect();
            (bytes, format!("{length} random bytes"))
        }
        4 => {
            let place = rng.below(written.bytes.len());
            written.bytes[place] = rng.u64() as u8;
            (written.bytes, format!("byte {place} changed"))
        }
        5 => {
            let count = written.count(1 + rng.below(10)).clone();
            let name = spoil(rng, &mut written, &count);
            (written.bytes, name)
        }
        6..=9 => broken_relation(rng, table),
        _ => {
            let field = rng.pick(&written.fields).clone();
            let name = spoil(rng, &mut written, &field);
            (written.bytes, name)
        }
    }
}

/// A table with one change, the change in words, and the field that has another
/// value (none in a cut).
pub struct Spoiled {
    pub bytes: Vec<u8>,
    pub what: String,
    pub field: Option<Field>,
}

/// Every cut of a table, and each of its fields with each edge value.
pub fn every_fault(table: &Table) -> Vec<Spoiled> {
    let written = table.written();
    let cuts = 0..written.bytes.len();
    let mut faults: Vec<Spoiled> = cuts
        .map(|length| Spoiled {
            bytes: written.bytes[..length].to_vec(),
            what: format!("cut to {length} bytes"),
            field: None,
        })
        .collect();
    for field in &written.fields {
        let old = field_value(&written, field);
        for new in [old.wrapping_sub(1), old.wrapping_add(1)]
            .iter()
            .chain(&EDGES)
        {
            let mut spoiled = written.clone();
            spoiled.overwrite(field, *new);
            faults.push(Spoiled {
                bytes: spoiled.bytes,
                what: change(field, old, *new),
                field: Some(field.clone()),
            });
        }
    }
    faults
}

/// Values at the edge of what some field allows.
const EDGES: [i64; 32] = [
    0,
    1,
    2,
    3,
    4,
    5,
    6,
    8,
    9,
    15,
    16,
    17,
    31,
    32,
    33,
    63,
    64,
    65,
    128,
    254,
    255,
    256,
    257,
    512,
    513,
    1_024,
    1_025,
    65_535,
    -1,
    1 << 32,
    i64::MIN,
    i64::MAX,
];

fn field_value(written: &Written, field: &Field) -> i64 {
    let mut bytes = [0u8; 8];
    bytes[..field.size].copy_from_slice(&written.bytes[field.place..field.place + field.size]);
    i64::from_le_bytes(bytes)
}

fn change(field: &Field, old: i64, new: i64) -> String {
    let Field {
        section,
        record,
        name,
        ..
    } = field;
    format!("section {section} record {record:?} {name}: {old} to {new}")
}

/// Writes another value over a field, often one at the edge of what is allowed.
fn spoil(rng: &mut Rng, written: &mut Written, field: &Field) -> String {
    let old = field_value(written, field);
    let new = match rng.below(6) {
        0 => old.wrapping_add(1),
        1 => old.wrapping_sub(1),
        2 | 3 => *rng.pick(&EDGES),
        4 => old ^ 1 << rng.below(8 * field.size),
        _ => rng.u64() as i64,
    };
    written.overwrite(field, new);
    change(field, old, new)
}

/// Fields that are fine one by one and do not go together.
fn broken_relation(rng: &mut Rng, table: &Table) -> (Vec<u8>, String) {
    let mut broken = table.clone();
    let point = rng.below(table.points.len()) as u8;
    let what = match rng.below(9) {
        0 => {
            let at = rng.below(broken.value_bins.len() + 1);
            broken.value_bins.insert(at, ValueBin::default(point));
            broken.value_bins.push(ValueBin::default(point));
            "a second default".to_string()
        }
        1 | 2 => {
            let longest = rng.chance(50);
            let step = Step::new(&[value(0)]);
            let steps = match longest {
                true => vec![step.clone().repeat(1, 20), step.clone().repeat(1, 13)],
                false => vec![step.clone()],
            };
            let fine = vec![step.clone(), step];
            let bin = TransitionBin::cover(point, &[fine, steps]);
            let at = rng.below(broken.transition_bins.len() + 1);
            broken.transition_bins.insert(at, bin);
            "a sequence too short or too long".to_string()
        }
        3 => {
            let other = rng.below(table.points.len()) as u8;
            broken.crosses.push(Cross::new(&[point, other, point]));
            format!("point {point} twice in a cross")
        }
        4 => {
            let bin = rng.below(broken.value_bins.len() + 2) as u16;
            let other = (point + 1) % table.points.len() as u8;
            let cross = Cross::new(&[point, other]).bin(Kind::Cover, Select::bin(0, bin));
            broken.crosses.push(cross);
            format!("bin {bin} at point {point}")
        }
        5 => {
            let other = (point + 1) % table.points.len() as u8;
            let leaf = Select::Whole(0).and(Select::Whole(1));
            let select = match rng.chance(50) {
                true => leaf.negated(),
                false => Select::Whole(0).negated().negated(),
            };
            broken
                .crosses
                .push(Cross::new(&[point, other]).bin(Kind::Illegal, select));
            "not before more than a leaf".to_string()
        }
        6 => {
            let bin = ValueBin::cover(point, &[value(0)]).form(Form::Number(256));
            broken.value_bins.push(bin);
            "256 more places".to_string()
        }
        7 => {
            let first = broken.points.len() as u8;
            broken
                .points
                .extend([Point::new(32), Point::new(6), Point::new(32)]);
            broken
                .crosses
                .push(Cross::new(&[first, first + 1, first + 2]));
            "too many products".to_string()
        }
        _ => return swapped_tokens(rng, table),
    };
    (broken.bytes(), what)
}

/// Two token records in each other's place.
fn swapped_tokens(rng: &mut Rng, table: &Table) -> (Vec<u8>, String) {
    let mut written = table.written();
    let size = table::RECORD_SIZE[table::TOKENS];
    let first = written.count(table::TOKENS).place + 2;
    let tokens = (written.bytes.len() - first) / size;
    if tokens < 2 {
        written.bytes.push(0);
        return (written.bytes, "a byte left over".to_string());
    }
    let (a, b) = (rng.below(tokens), rng.below(tokens));
    for byte in 0..size {
        written
            .bytes
            .swap(first + a * size + byte, first + b * size + byte);
    }
    (written.bytes, format!("tokens {a} and {b} swapped"))
}

/// Draws a call list for a table: readings near the listed values, often along
/// a listed sequence, with all the ways in which a call can be refused.
pub struct Caller<'t> {
    table: &'t Table,
    layout: Layout,
    pools: Vec<Vec<i64>>,
    /// Readings still to come of a sequence begun, per point.
    planned: Vec<VecDeque<i64>>,
    stopped: bool,
}

impl<'t> Caller<'t> {
    pub fn new(table: &'t Table) -> Caller<'t> {
        let layout = table::check(&table.bytes()).expect("an accepted table");
        Caller {
            table,
            layout,
            pools: (0..table.points.len())
                .map(|p| listed_values(table, p))
                .collect(),
            planned: vec![VecDeque::new(); table.points.len()],
            stopped: false,
        }
    }

    /// A reset and then this many calls.
    pub fn list(&mut self, rng: &mut Rng, calls: usize) -> Vec<Call> {
        let mut list = vec![Call::Reset];
        list.extend((0..calls).map(|_| self.call(rng)));
        list
    }

    pub fn call(&mut self, rng: &mut Rng) -> Call {
        let draw = rng.below(100);
        match draw {
            _ if self.stopped && draw < 50 => {
                self.stopped = false;
                Call::Start
            }
            0 if rng.chance(50) => {
                self.stopped = false;
                Call::Reset
            }
            1..=4 => {
                self.stopped = true;
                Call::Stop
            }
            5 | 6 => {
                self.stopped = false;
                Call::Start
            }
            7..=16 => self.question(rng),
            _ => self.sample(rng),
        }
    }

    fn question(&self, rng: &mut Rng) -> Call {
        let items = self.table.points.len() + self.table.crosses.len();
        let number = |rng: &mut Rng, count: usize| match rng.below(10) {
            0 => count + rng.below(3),
            1 if rng.chance(20) => usize::MAX,
            _ if count > 0 => rng.below(count),
            _ => 0,
        };
        match rng.below(4) {
            0 => Call::PlaceCount(number(rng, self.layout.places)),
            1 => Call::UnknownCount(number(rng, self.table.points.len())),
            2 => Call::ItemFigure(number(rng, items)),
            _ => Call::GroupFigure,
        }
    }

    fn sample(&mut self, rng: &mut Rng) -> Call {
        let mut words = self.sample_words(rng);
        let mut report = self.layout.illegal_places + rng.below(3);
        if rng.chance(2) {
            words.resize(rng.below(words.len() + 4), 0);
        }
        if rng.chance(2) {
            self.widen(rng, &mut words);
        }
        if rng.chance(3) {
            report = rng.below(self.layout.illegal_places + 1);
        }
        Call::Sample { words, report }
    }

    /// Sets a bit above the width of some point, if there is one.
    fn widen(&self, rng: &mut Rng, words: &mut [u32]) {
        let point = rng.below(self.table.points.len());
        let at = 4 + 2 * point + rng.below(2);
        let width = self.table.points[point].width;
        if width < 32 && at < words.len() {
            words[at] |= 1 << rng.between(width.into(), 31);
        }
    }

    /// Samples in a row, with the ways in which a batch ends early: a sample that is
    /// too wide, words cut anywhere, reports that are too short; or no words.
    pub fn batch(&mut self, rng: &mut Rng) -> Call {
        let count = rng.below(7);
        let mut words = Vec::new();
        for _ in 0..count {
            let mut sample = self.sample_words(rng);
            if rng.chance(5) {
                self.widen(rng, &mut sample);
            }
            words.extend(sample);
        }
        if rng.chance(15) {
            words.truncate(rng.below(words.len() + 1));
        }
        let room = count * self.layout.illegal_places;
        let reports = match rng.chance(15) {
            true => rng.below(room + 1),
            false => room + rng.below(3),
        };
        Call::Samples { words, reports }
    }

    /// A sample that no width or length refuses.
    pub fn sample_words(&mut self, rng: &mut Rng) -> Vec<u32> {
        let mut words = guard_words(rng);
        for (point, record) in self.table.points.iter().enumerate() {
            let ones = point_type(record).ones();
            let value = self.reading(rng, point);
            let unknown = match rng.below(24) {
                0 => 1 << rng.below(record.width.into()),
                1 => (rng.u64() as i64 & ones) as u32,
                _ => 0,
            };
            words.extend([(value & ones) as u32, unknown]);
        }
        words
    }

    /// The next planned reading, or a listed value, or any value.
    fn reading(&mut self, rng: &mut Rng, point: usize) -> i64 {
        if self.planned[point].is_empty() && rng.chance(60) {
            self.plan(rng, point);
        }
        if !rng.chance(4) {
            if let Some(value) = self.planned[point].pop_front() {
                return value;
            }
        }
        let ty = point_type(&self.table.points[point]);
        match rng.below(8) {
            0 => rng.between(ty.lowest(), ty.highest()),
            _ => *rng.pick(&self.pools[point]),
        }
    }

    /// Plans readings that match one of the point's sequences.
    fn plan(&mut self, rng: &mut Rng, point: usize) {
        let bins = self.table.transition_bins.iter();
        let own = bins.filter(|bin| bin.point as usize == point);
        let sequences: Vec<&Vec<Step>> = own.flat_map(|bin| &bin.sequences).collect();
        if sequences.is_empty() {
            return;
        }
        let ones = point_type(&self.table.points[point]).ones();
        for step in *rng.pick(&sequences) {
            for _ in 0..rng.between(step.least.into(), step.most.into()) {
                let value = match *rng.pick(&step.ranges) {
                    Range::Span(lo, hi) => rng.between(lo, hi),
                    Range::Pattern(bits, mask) => bits | (rng.u64() as i64 & ones & !mask),
                };
                self.planned[point].push_back(value);
            }
        }
    }
}

/// Guard bits, mostly true, and unknown guard bits, mostly none.
fn guard_words(rng: &mut Rng) -> Vec<u32> {
    let mostly = |rng: &mut Rng| rng.u32() | rng.u32() | rng.u32();
    let rarely = |rng: &mut Rng| match rng.chance(30) {
        true => rng.u32() & rng.u32() & rng.u32(),
        false => 0,
    };
    vec![mostly(rng), mostly(rng), rarely(rng), rarely(rng)]
}

/// Ends of the point's ranges, their neighbours, and the type's own ends.
fn listed_values(table: &Table, point: usize) -> Vec<i64> {
    let ty = point_type(&table.points[point]);
    let of_point = |owner: u8| owner as usize == point;
    let value_bins = table.value_bins.iter().filter(|bin| of_point(bin.point));
    let transition_bins = table
        .transition_bins
        .iter()
        .filter(|bin| of_point(bin.point));
    let steps = transition_bins.flat_map(|bin| bin.sequences.iter().flatten());
    let ranges = value_bins
        .flat_map(|bin| &bin.ranges)
        .chain(steps.flat_map(|s| &s.ranges));
    let mut values = vec![ty.lowest(), ty.highest()];
    for range in ranges {
        match *range {
            Range::Span(lo, hi) => values.extend([lo, lo, lo + 1, hi, hi + 1, lo - 1]),
            Range::Pattern(bits, mask) => values.extend([bits, bits, bits | (ty.ones() & !mask)]),
        }
    }
    values.retain(|&value| ty.holds(value));
    values
}

/// A register as another hand may have written it.
pub fn foreign_register(rng: &mut Rng, layout: &Layout) -> Vec<u32> {
    let words = layout.words();
    let samples = match rng.below(6) {
        0 => u32::MAX,
        1 => u32::MAX - 1,
        2 => 0,
        3 => rng.u32(),
        _ => 1 + rng.below(20) as u32,
    };
    let mut register = vec![0; words + rng.below(4)];
    for word in register.iter_mut() {
        *word = rng.u32();
    }
    register[0] = match rng.below(20) {
        0 => 2 + rng.u32() % 7,
        1 | 2 => 0,
        _ => 1,
    };
    register[1] = samples;
    for count in &mut register[2..layout.runs_at()] {
        *count = match rng.below(3) {
            0 => samples,
            1 => samples.min(rng.below(4) as u32),
            _ => (u64::from(rng.u32()) % (u64::from(samples) + 1)) as u32,
        };
    }
    let runs = &mut register[layout.runs_at()..words];
    match rng.below(4) {
        0 => runs.fill(u32::MAX),
        1 => runs.fill(0),
        2 => runs
            .iter_mut()
            .for_each(|word| *word &= rng.u32() & rng.u32()),
        _ => {}
    }
    match rng.below(20) {
        0 => {
            let at = 2 + rng.below(layout.runs_at() - 2);
            register[at] = samples.saturating_add(1 + rng.below(2) as u32);
        }
        1 => register.truncate(rng.below(words)),
        _ => {}
    }
    register
}
