//! All 110 casts: every pattern of the 8- and 16-bit sources, 2^20 and more of the others, through the library's conversion of buffers.
use crate::check::{self, Nans};
use crate::input::*;
use crate::lost::{self, Counts};
use crate::random::Rng;
use crate::{library, rust, sheet};

pub const NAMES: [&str; 17] = [
    "U8", "I8", "U16", "I16", "U32", "I32", "U64", "I64", "F32", "F64", "Vec3u8", "Vec3u16", "Vec3f32", "Vec3i32", "Vec3f64", "Vec4u8",
    "ByteArray",
];

/// The scalar that a Vec3's numbers are, the code itself for a number.
pub fn scalar(code: u8) -> u8 {
    [0, 1, 2, 3, 4, 5, 6, 7, 8, 9, 0, 2, 8, 5, 9][code as usize]
}

pub fn pairs() -> Vec<(u8, u8)> {
    let among = |a: u8, b: u8| (a..b).flat_map(move |x| (a..b).filter(move |y| *y != x).map(move |y| (x, y)));
    among(0, 10).chain(among(10, 15)).collect()
}

/// Each pair of the eighteen datatypes, as a plan of one attribute; the ByteArray is as long as the Custom.
pub fn table() -> Vec<Sheets> {
    let of = |code| Attribute { n: 16, min_alignment: 16, uuid: 1, ..attribute(code) }.without_spare();
    let sheet = |code| Sheet::Says(Base::Placed(vec![(of(code), 0)]));
    let pair = |from, to| Sheets { source: sheet(from), target: sheet(to), mapping: Sheet::Says(Mapping::default()) };
    (0..18).flat_map(|from| (0..18).map(move |to| pair(from, to))).collect()
}

/// Powers of two and their neighbours, and numbers at, just above and just below half of a float's last place.
fn integers(bits: u32, n: usize, r: &mut Rng) -> Vec<u64> {
    let mut list = vec![0, 1, u64::MAX, u64::MAX - 1];
    for k in 0..64 {
        let p = 1u64 << k;
        list.extend([p, p - 1, p + 1, !p, p.wrapping_neg(), p | 1, u64::MAX >> k, !(u64::MAX >> k)]);
    }
    for _ in 0..n / 4 {
        let top = r.below(bits as u64) as u32;
        for precision in [24, 53] {
            if top >= precision {
                let half = 1u64 << (top - precision);
                let x = (1 << top | r.next() & ((1 << top) - 1)) & !(2 * half - 1);
                let x = x | half;
                list.extend([x, x - 1, x + 1, x.wrapping_neg(), x.wrapping_add(half), x.wrapping_sub(half)]);
            }
        }
    }
    list.resize_with(list.len().max(n), || {
        let shift = r.below(64);
        r.next() >> if shift % 2 == 0 { 0 } else { shift }
    });
    list
}

/// Floats of any sign and exponent: whole numbers and their neighbours, subnormals, infinities, NaN, ties on the way to F32.
fn floats(mantissa: u32, bits: u32, n: usize, r: &mut Rng) -> Vec<u64> {
    let exponents = 1u64 << (bits - 1 - mantissa);
    let ones = (1u64 << mantissa) - 1;
    let mut list = vec![];
    for e in 0..exponents {
        for m in [0, 1, ones, ones - 1, ones / 2, ones / 2 + 1, ones / 2 + 2, 1 << r.below(mantissa as u64)] {
            list.extend([e << mantissa | m, 1 << (bits - 1) | e << mantissa | m]);
        }
    }
    let bias = exponents / 2 - 1;
    while list.len() < n {
        let (e, m, sign) = (bias.wrapping_add(r.below(68)).wrapping_sub(2) % exponents, r.next() & ones, r.below(2) << (bits - 1));
        list.push(r.next() & (u64::MAX >> (64 - bits)));
        list.push(sign | e << mantissa | m & !(ones >> r.below(mantissa as u64)));
        list.push(sign | e << mantissa | m | ones >> r.below(mantissa as u64));
        // NaN: of any payload, or of one bit of it.
        list.push(sign | (exponents - 1) << mantissa | if r.below(2) == 0 { m.max(1) } else { 1 << r.below(mantissa as u64) });
        if mantissa == 52 {
            // Around the exponents of F32, with the 29 bits that it drops at half, or one off.
            let e = bias - 152 + r.below(282);
            let (high, low) = (m >> 29 << 29, [1 << 28, (1 << 28) - 1, (1 << 28) + 1, 0, (1 << 29) - 1][r.below(5) as usize]);
            let drop = r.below(24);
            list.push(sign | e << 52 | high | low);
            list.push(sign | (bias - 150 + r.below(26)) << 52 | (m >> (29 + drop) << (29 + drop)) & ones);
        }
    }
    list
}

pub fn patterns(scalar: u8, n: usize, r: &mut Rng) -> Vec<u64> {
    match scalar {
        0 | 1 => (0..256).collect(),
        2 | 3 => (0..65536).collect(),
        4 | 5 => integers(32, n, r),
        6 | 7 => integers(64, n, r),
        8 => floats(23, 32, n, r),
        _ => floats(52, 64, n, r),
    }
}

/// Whether a pattern of the scalar is a NaN's.
pub fn is_nan(scalar: u8, pattern: u64) -> bool {
    matches!(scalar, 8 | 9) && check::is_nan(&pattern.to_le_bytes()[..attribute(scalar).size() as usize])
}

pub fn attribute(code: u8) -> Attribute {
    Attribute::plain("a", code)
}

/// Each pattern as a point; a Vec3 has it in each of its three places, beside others.
pub fn points(code: u8, list: &[u64]) -> Vec<u8> {
    let width = attribute(scalar(code)).size() as usize;
    let numbers = if code < 10 { 1 } else { 3 };
    let at = |i: usize, k: usize| list[(i + k * list.len() / 3) % list.len()];
    (0..list.len()).flat_map(|i| (0..numbers).flat_map(move |k| at(i, k).to_le_bytes().into_iter().take(width))).collect()
}

/// One cast over at least n patterns (all of an 8- or 16-bit source): how many values were compared, the NaN among them, the count of what is
/// lost, and what differs.
pub fn compare(from: u8, to: u8, n: usize, seed: u64) -> (u64, Nans, Counts, Vec<String>) {
    let list = patterns(scalar(from), n, &mut Rng::new(seed, from as u64));
    let source = points(from, &list);
    let base = |code| Base::Placed(vec![(attribute(code), 0)]);
    let (s, t) = (rust::layout(&base(from)).unwrap(), rust::layout(&base(to)).unwrap());
    let count = list.len() as u32;
    let buffer = Buffer::whole(Storage::Interleaved, count);
    let mut ours = vec![0x55; list.len() * attribute(to).size() as usize];
    let plan = rust::plan(&s, &t, &Mapping::default()).unwrap();
    let (sb, mut tb) = (rust::points(&s, &buffer, &source), rust::points(&t, &buffer, &ours));
    let theirs = rust::convert(&plan, (&sb, &buffer), (&mut tb, &buffer)).unwrap();
    let (ss, ts) = (sheet::layout_bytes(&base(from)), sheet::layout_bytes(&base(to)));
    let (mut other, name) = (ours.clone(), format!("{} to {}", NAMES[from as usize], NAMES[to as usize]));
    let mut convert = |b: &Buffer| library::convert(&ss, &ts, &[0], &source, b, &mut ours, b);
    let each: Vec<u64> = source.chunks_exact(attribute(from).size() as usize).map(|value| lost::of_value(from, to, value)).collect();
    let (counted, due) = (convert(&buffer), each.iter().sum());
    let mut differ = match counted {
        Ok(lost) if lost == due => vec![],
        Ok(lost) => {
            let i = first_off(&each, |n| convert(&Buffer { end: n as u32, ..buffer.clone() }));
            let bytes = &source[i * attribute(from).size() as usize..][..attribute(from).size() as usize];
            vec![format!("{}: {} components lost by the library, {} counted here; source bytes {}", name, lost, due, hex(bytes))]
        }
        Err(refused) => vec![format!("{}: refused {}", name, refused)],
    };
    let uncounted = library::plan_of_sheets(&ss, &ts, &[0]).map(|p| library::convert_uncounted(p, &source, &buffer, &mut other, &buffer));
    if uncounted != Ok(0) || other != ours {
        differ.push(format!("{}: uncounted the bytes differ, or it is refused", name));
    }
    let (w, v) = (attribute(scalar(from)).size() as usize, attribute(scalar(to)).size() as usize);
    let mut nans = Nans::default();
    for (i, (x, y)) in ours.chunks_exact(v).zip(theirs.chunks_exact(v)).enumerate() {
        if matches!(scalar(to), 8 | 9) && check::is_nan(x) && check::is_nan(y) {
            nans.add(Nans { both: 1, same: u64::from(x == y) });
        } else if x != y {
            let bytes = &source[i * w..i * w + w];
            differ.push(format!("{}: source bytes {} library {} Rust {}", name, hex(bytes), hex(x), hex(y)));
        }
    }
    ((ours.len() / v) as u64, nans, Counts::one(due, false), differ)
}

/// A point, found by halving, up to which the count over all points before it is right and with which it is not. `each` has what is due.
fn first_off(each: &[u64], mut count: impl FnMut(usize) -> Result<u64, u32>) -> usize {
    let (mut right, mut wrong) = (0, each.len());
    while wrong - right > 1 {
        let middle = (right + wrong) / 2;
        if count(middle) == Ok(each[..middle].iter().sum()) { right = middle } else { wrong = middle }
    }
    right
}
