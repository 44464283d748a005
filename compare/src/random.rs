//! Random cases: mostly sound ones, and around each limit and each line some that are not. A case depends on its seed and number alone.
use crate::input::*;
use crate::sheet::{layout_bytes, long_bytes, mapping_bytes};

pub struct Rng(u64);

impl Rng {
    pub fn new(seed: u64, number: u64) -> Rng {
        Rng(seed.wrapping_mul(0xd134_2543_de82_ef95) ^ number.wrapping_mul(0x9e37_79b9_7f4a_7c15))
    }
    /// splitmix64
    pub fn next(&mut self) -> u64 {
        self.0 = self.0.wrapping_add(0x9e37_79b9_7f4a_7c15);
        let z = (self.0 ^ self.0 >> 30).wrapping_mul(0xbf58_476d_1ce4_e5b9);
        let z = (z ^ z >> 27).wrapping_mul(0x94d0_49bb_1331_11eb);
        z ^ z >> 31
    }
    pub fn below(&mut self, n: u64) -> u64 {
        self.next() % n
    }
    fn percent(&mut self, p: u64) -> bool {
        self.below(100) < p
    }
    fn pick<T: Copy>(&mut self, list: &[T]) -> T {
        list[self.below(list.len() as u64) as usize]
    }
    fn shuffle<T>(&mut self, list: &mut [T]) {
        for i in (1..list.len()).rev() {
            list.swap(i, self.below(i as u64 + 1) as usize);
        }
    }
}

/// For each random byte one of those that make small numbers, infinities and NaN often.
const SPECIAL: [u8; 256] = {
    let mut table = [0; 256];
    let mut b = 0;
    while b < 256 {
        table[b] = [0x00, 0xff, 0x7f, 0x80, 0xf0, 0x3f, 0xc0, 0x01, b as u8][b % 9];
        b += 1;
    }
    table
};

impl Fill {
    /// Random bytes, of every other seed special ones. More than 4 MiB are not made: none then.
    pub fn bytes(&self, due: u64) -> Vec<u8> {
        let due = if due > 1 << 22 { 0 } else { due as i64 };
        let n = (due + self.extra).max(0) as usize;
        let mut r = Rng::new(self.seed, 1);
        let mut bytes = vec![0; n];
        for part in bytes.chunks_mut(8) {
            part.copy_from_slice(&r.next().to_le_bytes()[..part.len()]);
        }
        if self.seed % 2 == 1 {
            bytes.iter_mut().for_each(|b| *b = SPECIAL[*b as usize]);
        }
        bytes
    }
}

fn fill(r: &mut Rng) -> Fill {
    let extra = if r.percent(98) { 0 } else { r.pick(&[-1, 1, -8, 8, 300]) };
    Fill { extra, seed: r.next() }
}

// ---- attributes

fn name(r: &mut Rng) -> Vec<u8> {
    let n = match r.below(20) {
        0 => 0,
        1 => 31,
        2 => r.below(32),
        _ => 1 + r.below(3),
    };
    (0..n).map(|_| r.pick(b" ~AZaz09.b")).collect()
}

/// A kind of datatype, within which most pairs have a copy or a cast: 0 numbers, 1 Vec3, 2 Vec4u8, 3 a ByteArray, 4 a Custom. And a name, an
/// n, an alignment and a Custom's name.
struct Subject {
    kind: u64,
    of: Attribute,
}

fn subject(r: &mut Rng) -> Subject {
    let (name, kind) = (name(r), r.pick(&[0, 0, 0, 0, 1, 1, 1, 2, 3, 4]));
    subject_of(r, name, kind)
}

fn subject_of(r: &mut Rng, name: Vec<u8>, kind: u64) -> Subject {
    let n = length(r);
    let custom = custom(r);
    Subject { kind, of: Attribute { name, n: if kind == 3 { n } else { custom.n }, ..custom } }
}

/// The length of a ByteArray: mostly one that has 8 bits in a sheet; around the least and the greatest that have 16, and some between.
fn length(r: &mut Rng) -> u16 {
    match r.below(50) as usize {
        k @ 0..=34 => [1, 2, 3, 5, 255][k % 5],
        k => [254, 256, 257, 258, 256, 257, 300, 511, 512, 513, 1024, 60000, 65533, 65534, 65535][k - 35],
    }
}

/// Another length: its last bit off, or the same in its low 8 bits. May be 0.
fn other_length(r: &mut Rng, n: u16) -> u16 {
    r.pick(&[n ^ 1, n ^ 256, if n > 255 { n & 255 } else { n | 512 }, n.wrapping_add(256)])
}

/// The name that most Customs have.
pub const SEAL: u128 = 0x5ea1_0000_0000_0000_0017;

/// A Custom: often one and the same, or that one with one thing changed; else any.
fn custom(r: &mut Rng) -> Attribute {
    let one = Attribute { n: 16, min_alignment: 16, uuid: SEAL, ..Attribute::plain("", 17) };
    match r.below(10) {
        0..=4 => one,
        5..=7 => other_custom(r, one),
        _ => {
            let min_alignment = r.pick(&[0, 1, 2, 3, 4, 8, 12, 16, 64, 128, 255]);
            let any = (r.next() as u128) << 64 | r.next() as u128;
            Attribute { n: length(r), min_alignment, uuid: r.pick(&[0, 1, 1 << 63, 1 << 64, u128::MAX, any]), ..one }
        }
    }
}

/// A Custom with one thing changed: its size, which may become 0, its alignment, or one bit of its name.
fn other_custom(r: &mut Rng, a: Attribute) -> Attribute {
    let min_alignment = r.pick(&[0, 0, 3, 3, 16, 128, 128, 1, 255]);
    match r.below(5) {
        0 => Attribute { n: other_length(r, a.n), ..a },
        1 | 2 if min_alignment != a.min_alignment => Attribute { min_alignment, ..a },
        1 | 2 => Attribute { min_alignment: a.min_alignment ^ 8, ..a },
        _ => Attribute { uuid: a.uuid ^ 1 << r.below(128), ..a },
    }
}

fn attribute(r: &mut Rng, s: &Subject) -> Attribute {
    let code = match (r.percent(99), s.kind) {
        (false, _) => r.below(18),
        (_, 0) => r.below(10),
        (_, 1) => 10 + r.below(5),
        (_, 2) => 15,
        (_, 3) => 16,
        // At times a ByteArray as long as the Custom.
        _ => if r.percent(98) { 17 } else { 16 },
    };
    let a = Attribute { code: code as u8, ..s.of.clone() };
    let a = match code {
        16 if r.percent(2) => Attribute { n: other_length(r, a.n), ..a },
        17 if r.percent(15) => other_custom(r, a),
        _ => a,
    };
    Attribute { n: a.n.max(1), ..a }.without_spare()
}

/// Subjects with distinct names, but for a few.
fn pool(r: &mut Rng) -> Vec<Subject> {
    let n = match r.below(40) {
        0 => 30 + r.below(4),
        1 => r.below(30),
        2 => 0,
        _ => 1 + r.below(6),
    };
    let mut list: Vec<Subject> = vec![];
    while (list.len() as u64) < n {
        let mut s = subject(r);
        if list.iter().any(|x| x.of.name == s.of.name) && !r.percent(1) {
            s.of.name = format!("{:x}", r.next()).into_bytes();
        }
        list.push(s);
    }
    list
}

// ---- layouts

fn placed(r: &mut Rng, list: Vec<Attribute>) -> Base {
    let style = r.below(8);
    let p = r.pick(&[1, 1, 2, 4, 8, 16]);
    let packing = |r: &mut Rng| match style {
        0..=2 => 0,
        3..=5 => p,
        6 => r.pick(&[0, 1, 2, 4, 8, 128]),
        _ => r.pick(&[0, 1, 2, 3, 6, 255]),
    };
    Base::Placed(list.into_iter().map(|a| (a, packing(r))).collect())
}

/// Laid out in any order with gaps; at times moved to the limit of 65,535, or one attribute moved onto another.
fn given(r: &mut Rng, list: Vec<Attribute>) -> Base {
    let mut order: Vec<usize> = (0..list.len()).collect();
    r.shuffle(&mut order);
    if list.iter().any(|a| a.size() > 255) && r.percent(50) {
        // The longest last: the others lie before 65,535.
        order.sort_by_key(|&i| list[i].size());
    }
    let mut offsets = vec![0; list.len()];
    let mut at = r.pick(&[0, 0, 0, 1, 8]);
    for &i in &order {
        at += if r.percent(70) { 0 } else { r.below(9) };
        offsets[i] = at;
        at += list[i].size();
    }
    let mut alignment = r.pick(&[1, 1, 1, 2, 4, 8, 16, 256]);
    if r.percent(4) {
        let up = (65533 + r.below(5)).saturating_sub(at);
        offsets.iter_mut().for_each(|o| *o += up);
        alignment = r.pick(&[1, 1, 2, 4, 32768]);
    }
    if r.percent(4) && !list.is_empty() {
        let i = r.below(list.len() as u64) as usize;
        let other = r.pick(&offsets);
        offsets[i] = if r.percent(50) { offsets[i].saturating_sub(1) } else { other };
    }
    if r.percent(3) {
        alignment = r.pick(&[0, 3, 6, 12, 65535, 32768]);
    }
    Base::Given(alignment, list.into_iter().zip(offsets).map(|(a, o)| (a, o.min(65535) as u16)).collect())
}

fn attributes(b: &Base) -> Vec<Attribute> {
    match b {
        Base::Placed(list) => list.iter().map(|x| x.0.clone()).collect(),
        Base::Given(_, list) => list.iter().map(|x| x.0.clone()).collect(),
    }
}

fn codes(b: &Base) -> Vec<u8> {
    attributes(b).iter().map(|a| a.code).collect()
}

fn base(r: &mut Rng, list: Vec<Attribute>) -> Base {
    if r.percent(50) { placed(r, list) } else { given(r, list) }
}

/// Two layouts over one pool; the target's names are mostly among the source's where `within`.
fn two(r: &mut Rng, within: bool) -> (Base, Base) {
    let mut subjects = pool(r);
    r.shuffle(&mut subjects);
    let n = subjects.len();
    let s = n - r.below(n as u64 / 2 + 1) as usize;
    let source: Vec<Attribute> = subjects[..s].iter().map(|x| attribute(r, x)).collect();
    let from = if within && r.percent(95) { s } else { n };
    r.shuffle(&mut subjects[..from]);
    let t = from - r.below(from as u64 / 2 + 1) as usize;
    let target = subjects[..t].iter().map(|x| attribute(r, x)).collect();
    (base(r, source), base(r, target))
}

fn call(r: &mut Rng, s: &Subject) -> Call {
    let mut a = attribute(r, s);
    if r.percent(4) {
        match r.below(4) {
            0 => a.name = vec![b'x'; r.pick(&[32, 33, 255])],
            1 => a.name.push(r.pick(&[0x1f, 0x7f, 0x0a, 0x00, 0xff])),
            2 => a.code = r.pick(&[18, 31, 32, 255]),
            _ => {
                a.code = r.pick(&[16, 17]);
                a.n = 0;
            }
        }
    }
    let packing = match r.below(10) {
        0..=4 => None,
        5..=7 => Some(r.pick(&[1, 2, 4, 8])),
        _ => Some(r.pick(&[0, 1, 3, 5, 16, 128, 255])),
    };
    Call { attribute: a, packing }
}

fn change(r: &mut Rng, n: u64) -> Change {
    let i = r.below(n.max(1)) as usize;
    match r.below(9) {
        0 => Change::Offset(i, r.pick(&[0, 1, 2, 8, 65535])),
        1 => Change::Name(i, name(r)),
        2 => Change::Name(i, vec![r.pick(&[0x1f, 0x7f, b'q']); r.pick(&[1, 31, 32])]),
        3 => Change::Code(i, r.below(21) as u8),
        4 => Change::N(i, r.pick(&[0, 1, 200, 256, 257, 65535])),
        5 => Change::Size(r.pick(&[0, 8, 64, 4096, 65535])),
        6 => Change::Alignment(r.pick(&[0, 1, 2, 3, 8, 32768])),
        7 => Change::Custom(i, r.pick(&[0, 3, 16, 128, 255]), r.next() as u128),
        _ => Change::Count(r.pick(&[0, 1, 32, 33, 255])),
    }
}

fn handed(r: &mut Rng, base: Base) -> Handed {
    let subjects: Vec<Subject> = (0..r.pick(&[0, 0, 1, 3])).map(|_| subject(r)).collect();
    let n = codes(&base).len() as u64;
    let changes = if r.percent(95) { vec![] } else { (0..1 + r.below(2)).map(|_| change(r, n)).collect() };
    Handed { base, calls: subjects.iter().map(|s| call(r, s)).collect(), changes }
}

// ---- sheets

fn mapping(r: &mut Rng, with_default: bool, s: u64, t: u64) -> Mapping {
    let n = match r.below(60) {
        0 => r.pick(&[32, 33, 63]),
        1..=30 => 0,
        _ => 1 + r.below(3),
    };
    let place = |r: &mut Rng, n: u64| if n > 0 && r.percent(99) { r.below(n) as u8 } else { r.below(32) as u8 };
    Mapping { with_default, lines: (0..n).map(|_| (place(r, s), place(r, t))).collect() }
}

fn damaged(r: &mut Rng, mut bytes: Vec<u8>) -> Vec<u8> {
    let n = bytes.len() as u64;
    match r.below(5) {
        0 => bytes.push(r.pick(&[0, 1, 255])),
        1 => bytes.truncate(r.below(n + 1) as usize),
        2 => *bytes.last_mut().unwrap() |= r.pick(&[1, 2, 3, 4]),
        3 => bytes.truncate(n as usize - 1),
        _ => {
            let k = r.below(n * 8);
            bytes[k as usize / 8] ^= 1 << (k % 8);
        }
    }
    bytes
}

/// A sheet that has a ByteArray or a Custom: each length of a ByteArray in 16 bits; one size of 0, and at times an end before the sheet's; or
/// an end inside those 16 bits or what a Custom says.
fn misspelled(r: &mut Rng, mut b: Base) -> Vec<u8> {
    let (mut bytes, places) = long_bytes(&b);
    match r.below(3) {
        0 => {}
        1 => {
            let mut list: Vec<&mut Attribute> = b.attributes_mut().into_iter().filter(|a| a.has_n()).collect();
            let i = r.below(list.len() as u64) as usize;
            list[i].n = 0;
            bytes = layout_bytes(&b);
            if r.percent(30) {
                bytes.truncate(r.below(bytes.len() as u64) as usize);
            }
        }
        _ => {
            let (from, to) = r.pick(&places);
            bytes.truncate(from / 8 + r.below((to - from) as u64 / 8 + 1) as usize);
        }
    }
    bytes
}

fn layout_sheet(r: &mut Rng, b: Base, damage: u64) -> Sheet<Base> {
    if !r.percent(damage) {
        Sheet::Says(b)
    } else if attributes(&b).iter().any(|a| a.has_n()) && r.percent(50) {
        Sheet::Bytes(misspelled(r, b))
    } else {
        Sheet::Bytes(damaged(r, layout_bytes(&b)))
    }
}

/// Lines that mostly have a pair: a few tries for each.
fn sheets(r: &mut Rng, damage: u64) -> Sheets {
    let with_default = r.percent(50);
    let (s, t) = two(r, !with_default);
    let (sc, tc) = (codes(&s), codes(&t));
    let mut m = mapping(r, with_default, sc.len() as u64, tc.len() as u64);
    let kind = |c: Option<&u8>| c.map(|c| if *c < 10 { 0 } else { (*c).max(14) });
    for line in m.lines.iter_mut().filter(|_| !sc.is_empty()) {
        for _ in 0..8 {
            if kind(sc.get(line.0 as usize)) != kind(tc.get(line.1 as usize)) {
                line.0 = r.below(sc.len() as u64) as u8;
            }
        }
    }
    let mapping = if r.percent(damage) { Sheet::Bytes(damaged(r, mapping_bytes(&m))) } else { Sheet::Says(m) };
    Sheets { source: layout_sheet(r, s, damage), target: layout_sheet(r, t, damage), mapping }
}

// ---- buffers and ranges

fn count(r: &mut Rng) -> u32 {
    match r.below(200) {
        0 => r.pick(&[255, 256, 257, 511, 513]),
        1 => r.pick(&[u32::MAX, 1 << 31]),
        _ => r.below(7) as u32,
    }
}

/// A range of so many points within the count; at times one with its ends swapped, or any two numbers around it.
fn range(r: &mut Rng, count: u32, length: u32) -> (u32, u32) {
    if r.percent(96) {
        let start = r.below((count - length) as u64 + 1) as u32;
        if r.percent(3) { (start + length, start) } else { (start, start + length) }
    } else {
        let near = [0, 1, length, count, count.wrapping_add(1), count.wrapping_sub(1), u32::MAX];
        (r.pick(&near), r.pick(&near))
    }
}

fn two_buffers(r: &mut Rng) -> (Buffer, Buffer) {
    let (a, b) = (count(r), count(r));
    let length = if r.percent(30) { a.min(b).min(1000) } else { r.below(a.min(b).min(1000) as u64 + 1) as u32 };
    let buffer = |r: &mut Rng, count| {
        let (start, end) = range(r, count, length);
        Buffer { fill: fill(r), storage: Storage::Interleaved, count, start, end }
    };
    (buffer(r, a), buffer(r, b))
}

/// Of a source and a target: half of them have columns, each of the three pairs as often.
fn storages(r: &mut Rng) -> (Storage, Storage) {
    use Storage::{Columns, Interleaved};
    let columns = r.pick(&[(Interleaved, Columns), (Columns, Interleaved), (Columns, Columns)]);
    if r.percent(50) { columns } else { (Interleaved, Interleaved) }
}

/// A single point's bytes: its size, more, or fewer.
fn point_fill(r: &mut Rng) -> Fill {
    let extra = if r.percent(80) { 0 } else { r.pick(&[-1, -2, -4, -9, 1, 40, -100000]) };
    Fill { extra, seed: r.next() }
}

// ---- cases

/// A place of a layout of n attributes; at times one that is not there.
fn place(r: &mut Rng, n: u64) -> u32 {
    if n > 0 && r.percent(95) { r.below(n) as u32 } else { r.pick(&[n, n + 1, 31, 32, 255, u32::MAX as u64]) as u32 }
}

/// A point of so many; at times one that is not there.
fn point(r: &mut Rng, count: u32) -> u64 {
    match r.below(20) {
        0 => r.pick(&[u64::MAX, 1 << 63, u32::MAX as u64]),
        1 => count as u64,
        _ => r.below(count.min(1000) as u64 + 1),
    }
}

/// The attribute with one thing changed, or one that no layout can have.
fn near(r: &mut Rng, a: Attribute) -> Attribute {
    match r.below(6) {
        _ if a.code == 16 && r.percent(50) => Attribute { n: other_length(r, a.n), ..a },
        _ if a.is_custom() && r.percent(75) => other_custom(r, a),
        0 => Attribute { code: r.below(18) as u8, n: r.pick(&[0, 1, 3, 256, 257]), ..a },
        // A Custom in place of a ByteArray of its size, or the other way.
        1 if a.has_n() => Attribute { code: a.code ^ 1, ..a },
        1 | 2 => Attribute { name: name(r), ..a },
        _ => {
            let kind = r.below(5);
            let s = subject_of(r, a.name, kind);
            call(r, &s).attribute
        }
    }
}

/// A given list as it is lent: what a sheet can say, and now and then a member that none can have.
fn lent(r: &mut Rng) -> Case {
    let b = two(r, false).0;
    match given(r, attributes(&b)) {
        Base::Given(alignment, mut list) => {
            if r.percent(6) && !list.is_empty() {
                let i = r.below(list.len() as u64) as usize;
                list[i].0 = near(r, list[i].0.clone());
            }
            Case::Given(alignment, list)
        }
        Base::Placed(_) => unreachable!("given"),
    }
}

/// An attribute of the layout, one near it, or one of another.
fn lookup(r: &mut Rng) -> Case {
    let (one, other) = two(r, true);
    let from = attributes(if r.percent(80) { &one } else { &other });
    let none = Attribute::plain(name(r), 0);
    let a = if from.is_empty() { none } else { from[r.below(from.len() as u64) as usize].clone() };
    let a = if r.percent(60) { a } else { near(r, a) };
    Case::Lookup(handed(r, one), a)
}

/// A layout and the same attributes in another order and at other offsets, at times with one changed; or two layouts.
fn comparison(r: &mut Rng) -> Case {
    let (one, other) = two(r, true);
    let mut list = attributes(&one);
    r.shuffle(&mut list);
    if r.percent(30) && !list.is_empty() {
        list[0] = near(r, list[0].clone());
    }
    let other = if r.percent(70) { base(r, list) } else { other };
    let as_it_is = |r: &mut Rng, b: Base| if r.percent(70) { Handed { base: b, calls: vec![], changes: vec![] } } else { handed(r, b) };
    Case::Compare(as_it_is(r, one), as_it_is(r, other))
}

/// A value as long as the part, or of another length.
fn write(r: &mut Rng) -> Case {
    let b = two(r, true).0;
    let list = attributes(&b);
    let place = place(r, list.len() as u64);
    let count = count(r);
    let n = list.get(place as usize).map_or(1, |a| a.size());
    let n = if r.percent(80) { n } else { r.pick(&[0, 1, n / 2, n + 1, 300]) };
    let value = Fill { extra: 0, seed: r.next() }.bytes(n);
    Case::Write { layout: handed(r, b), place, count, fill: fill(r), i: point(r, count), value }
}

/// The cases of one number: one of each kind, and a conversion of one pair of storages. Those of the first six kinds are drawn by
/// themselves, and so are the storages, so that compare/keep keeps the same.
pub fn cases(seed: u64, number: u64) -> Vec<Case> {
    let mut list = first_cases(seed, number);
    let r = &mut Rng::new(!seed, number);
    list.extend([lent(r), lookup(r), comparison(r), write(r)]);
    list
}

fn first_cases(seed: u64, number: u64) -> Vec<Case> {
    let r = &mut Rng::new(seed, number);
    let (one, other) = two(r, false);
    let start = base_of_calls(r, other);
    let subjects = pool(r);
    let calls = subjects.iter().map(|s| call(r, s)).collect();
    let plan = sheets(r, 5);
    let converted = sheets(r, 1);
    let (mut sb, mut tb) = two_buffers(r);
    (sb.storage, tb.storage) = storages(&mut Rng::new(seed, !number));
    let (s, t) = two(r, true);
    let (s, t) = (handed(r, s), handed(r, t));
    let viewed = two(r, true).0;
    let n = codes(&viewed).len() as u64;
    let place = place(r, n);
    let count = count(r);
    let i = point(r, count);
    vec![
        Case::Layout(layout_sheet(r, one, 10)),
        Case::Calls(start, calls),
        Case::Plan(plan),
        Case::Convert(converted, sb, tb),
        Case::Point(s, t, point_fill(r), point_fill(r)),
        Case::View { layout: handed(r, viewed), place, count, fill: fill(r), i },
    ]
}

/// What a list of calls starts from: mostly the empty layout or a given one.
fn base_of_calls(r: &mut Rng, b: Base) -> Handed {
    let b = if r.percent(40) { Base::Placed(vec![]) } else { b };
    let mut h = handed(r, b);
    h.calls.clear();
    h
}
