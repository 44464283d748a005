//! How many components a conversion loses, counted from the source's bytes, the plan and the range. The Rust has no such count, so this is a
//! model of its own: a cast is Rust's `as`, and its result is held against the source as a number, not cast back.
use crate::casts::{attribute, scalar};
use crate::input::{Buffer, Layout};
use crate::rust::Row;
use Number::{Float, Integer};

/// A number without loss: every integer is an i128, every F32 an F64.
#[derive(Clone, Copy)]
enum Number {
    Integer(i128),
    Float(f64),
}

/// The number that a scalar's pattern stands for.
fn number(scalar: u8, x: u64) -> Number {
    match scalar {
        0 => Integer((x as u8).into()),
        1 => Integer((x as i8).into()),
        2 => Integer((x as u16).into()),
        3 => Integer((x as i16).into()),
        4 => Integer((x as u32).into()),
        5 => Integer((x as i32).into()),
        6 => Integer(x.into()),
        7 => Integer((x as i64).into()),
        8 => Float(f32::from_bits(x as u32).into()),
        _ => Float(f64::from_bits(x)),
    }
}

/// The pattern that `as` makes of another scalar's.
fn cast(from: u8, x: u64, to: u8) -> u64 {
    macro_rules! to {
        ($number:expr) => {
            match to {
                0 => ($number as u8).into(),
                1 => ($number as i8) as u64,
                2 => ($number as u16).into(),
                3 => ($number as i16) as u64,
                4 => ($number as u32).into(),
                5 => ($number as i32) as u64,
                6 => $number as u64,
                7 => ($number as i64) as u64,
                8 => ($number as f32).to_bits().into(),
                _ => ($number as f64).to_bits(),
            }
        };
    }
    match from {
        0 => to!(x as u8),
        1 => to!(x as i8),
        2 => to!(x as u16),
        3 => to!(x as i16),
        4 => to!(x as u32),
        5 => to!(x as i32),
        6 => to!(x),
        7 => to!(x as i64),
        8 => to!(f32::from_bits(x as u32)),
        _ => to!(f64::from_bits(x)),
    }
}

/// Whether a result is the same number as its source; a NaN is, where the result is a NaN too.
fn same(source: Number, result: Number) -> bool {
    match (source, result) {
        (Integer(n), Integer(m)) => n == m,
        (Float(x), Float(y)) => x == y || x.is_nan() && y.is_nan(),
        // Below 2^127 a whole float is an i128, and every integer here is below it.
        (Integer(n), Float(x)) | (Float(x), Integer(n)) => x.abs() < 2f64.powi(127) && x.trunc() == x && x as i128 == n,
    }
}

fn is_lost(from: u8, x: u64, to: u8) -> bool {
    !same(number(from, x), number(to, cast(from, x, to)))
}

/// How many components of one value the cast between two codes loses.
pub fn of_value(from: u8, to: u8, value: &[u8]) -> u64 {
    let (from, to) = (scalar(from), scalar(to));
    let pattern = |bytes: &[u8]| bytes.iter().rev().fold(0, |x, b| x << 8 | u64::from(*b));
    let numbers = value.chunks_exact(attribute(from).size() as usize).map(pattern);
    numbers.filter(|x| is_lost(from, *x, to)).count() as u64
}

/// For each mapping of a plan how many components it loses in the range of the source. A copy loses none.
pub fn by_mapping(rows: &[Row], s: &Layout, source: &[u8], b: &Buffer) -> Vec<u64> {
    let of = |row: &Row| {
        let place = s.attributes.iter().position(|a| *a == row.source).expect("a source of the layout");
        let size = row.source.0.size() as usize;
        let value = |i| s.start(b.storage, b.count, place, i)..s.start(b.storage, b.count, place, i) + size;
        (b.start..b.end).map(|i| of_value(row.source.0.code, row.target.0.code, &source[value(i)])).sum()
    };
    rows.iter().map(|row| if row.cast { of(row) } else { 0 }).collect()
}

/// Whether a source attribute loses something in two mappings.
pub fn is_lost_twice(rows: &[Row], lost: &[u64]) -> bool {
    let sources: Vec<_> = rows.iter().zip(lost).filter(|(_, n)| **n > 0).map(|(row, _)| &row.source).collect();
    sources.iter().enumerate().any(|(i, a)| sources[..i].contains(a))
}

/// Of conversions whose count was compared: how many, how many lose something, how many lose of one source attribute in two mappings, and the
/// components lost.
#[derive(Clone, Copy, Default)]
pub struct Counts {
    pub compared: u64,
    pub some: u64,
    pub twice: u64,
    pub lost: u64,
}

impl Counts {
    pub fn one(lost: u64, twice: bool) -> Counts {
        Counts { compared: 1, some: u64::from(lost > 0), twice: u64::from(twice), lost }
    }
    pub fn add(&mut self, other: Counts) {
        self.compared += other.compared;
        self.some += other.some;
        self.twice += other.twice;
        self.lost += other.lost;
    }
}
