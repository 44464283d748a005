//! The numbered lines of documents 01 and 02, tested apart from the library: the first that holds of an input, or 0. Placement and plans are
//! reckoned here only as far as a line speaks of them.
use crate::input::*;

/// The last number that a line has.
pub const LAST: usize = 22;

/// The lines that document 01 marks as added, of which 9 is one in `add_attribute` alone, and all that document 02 adds.
pub fn is_added(number: u32, in_add: bool) -> bool {
    matches!(number, 1..=7 | 11 | 15 | 16 | 21..) || number == 9 && in_add
}

fn align_to(x: u64, alignment: u64) -> u64 {
    if alignment == 0 || x % alignment == 0 { x } else { x + alignment - x % alignment }
}

fn ends(list: &[(Attribute, u64)]) -> u64 {
    list.iter().map(|(a, o)| o + a.size()).max().unwrap_or(0)
}

/// Two attributes share a byte: the later start of two comes before the earlier end.
fn shares(list: &[(Attribute, u64)]) -> bool {
    let both = |(a, o): &(Attribute, u64), (b, p): &(Attribute, u64)| *o.max(p) < (o + a.size()).min(p + b.size());
    (0..list.len()).any(|i| (0..i).any(|j| both(&list[i], &list[j])))
}

fn name_twice(list: &[(Attribute, u64)]) -> bool {
    (0..list.len()).any(|i| (0..i).any(|j| list[i].0.name == list[j].0.name))
}

fn bad_name(a: &Attribute) -> bool {
    a.name.len() > 31 || a.name.iter().any(|b| !(0x20..=0x7e).contains(b))
}

/// 4, 5, 6 of one attribute.
fn attribute(a: &Attribute) -> u32 {
    if bad_name(a) {
        4
    } else if a.code > 17 {
        5
    } else if a.has_n() && a.n == 0 {
        6
    } else {
        0
    }
}

/// 8 to 11 of a layout as a whole.
fn whole(l: &Layout) -> u32 {
    if name_twice(&l.attributes) {
        8
    } else if shares(&l.attributes) {
        9
    } else if !l.alignment.is_power_of_two() {
        10
    } else if ends(&l.attributes) > 65535 || l.size > 65535 {
        11
    } else {
        0
    }
}

pub fn is_sound(l: &Layout) -> bool {
    l.attributes.len() <= 32
        && l.attributes.iter().all(|(a, _)| attribute(a) == 0)
        && whole(l) == 0
        && ends(&l.attributes) <= l.size
        && l.size % l.alignment == 0
}

fn answer(l: Layout) -> Result<Layout, u32> {
    match whole(&l) {
        0 => Ok(l),
        n => Err(n),
    }
}

/// `add_attribute` on a layout.
pub fn add(l: &Layout, call: &Call) -> Result<Layout, u32> {
    let a = &call.attribute;
    if !is_sound(l) {
        return Err(1);
    }
    if l.attributes.len() >= 32 {
        return Err(3);
    }
    if attribute(a) != 0 {
        return Err(attribute(a));
    }
    let end = l.attributes.last().map_or(0, |(b, o)| o + b.size());
    let (field, alignment) = match call.packing {
        None => (a.alignment(), l.alignment.max(a.alignment())),
        Some(p) => (a.alignment().min(p as u64), l.alignment.min(p as u64)),
    };
    let offset = align_to(end, field);
    let mut attributes = l.attributes.clone();
    attributes.push((a.clone(), offset));
    answer(Layout { attributes, size: align_to(l.size.max(offset + a.size()), alignment), alignment })
}

/// The layout that a sheet says.
pub fn layout(base: &Base) -> Result<Layout, u32> {
    match base {
        Base::Placed(list) => list.iter().try_fold(EMPTY, |l, (a, packing)| {
            add(&l, &Call { attribute: a.clone(), packing: if *packing == 0 { None } else { Some(*packing) } })
        }),
        Base::Given(alignment, list) => {
            let attributes: Vec<_> = list.iter().map(|(a, o)| (a.clone(), *o as u64)).collect();
            let size = align_to(ends(&attributes), *alignment as u64);
            answer(Layout { attributes, size, alignment: *alignment as u64 })
        }
    }
}

/// The given list as it is lent: 3, then 4 to 6 attribute by attribute, then 8 to 11.
pub fn given(alignment: u16, list: &[(Attribute, u16)]) -> Result<Layout, u32> {
    let bad = list.iter().map(|(a, _)| attribute(a)).find(|n| *n != 0);
    match bad {
        _ if list.len() > 32 => Err(3),
        Some(n) => Err(n),
        None => layout(&Base::Given(alignment, list.to_vec())),
    }
}

/// A datatype by itself: 5, 6.
pub fn datatype(a: &Attribute) -> u32 {
    attribute(&Attribute { name: vec![], ..a.clone() })
}

/// A lookup by name: 1, 4.
pub fn by_name(l: &Layout, a: &Attribute) -> u32 {
    if !is_sound(l) {
        1
    } else if bad_name(a) {
        4
    } else {
        0
    }
}

/// A lookup by name and datatype: 1, 4, 5, 6.
pub fn by_definition(l: &Layout, a: &Attribute) -> u32 {
    if is_sound(l) { attribute(a) } else { 1 }
}

/// Neither copy nor cast.
fn no_pair(a: &Attribute, b: &Attribute) -> bool {
    let scalars = a.code <= 9 && b.code <= 9;
    let vectors = (10..=14).contains(&a.code) && (10..=14).contains(&b.code);
    !a.same_datatype(b) && !scalars && !vectors
}

/// 12 and 14 for each target, then 13 and 14 for each line.
pub fn plan(s: &Layout, t: &Layout, m: &Mapping) -> u32 {
    for (b, _) in &t.attributes {
        match s.attributes.iter().find(|(a, _)| a.name == b.name) {
            None if !m.with_default => return 12,
            Some((a, _)) if no_pair(a, b) => return 14,
            _ => {}
        }
    }
    for &(i, k) in &m.lines {
        match (s.attributes.get(i as usize), t.attributes.get(k as usize)) {
            (Some((a, _)), Some((b, _))) if no_pair(a, b) => return 14,
            (Some(_), Some(_)) => {}
            _ => return 13,
        }
    }
    0
}

/// 15 or 22, 16 or 22, 21, 17, 18, 19.
pub fn buffers(s: &Layout, sb: &Buffer, source_length: usize, t: &Layout, tb: &Buffer, target_length: usize) -> u32 {
    let fits = |l: &Layout, b: &Buffer, length: usize| length as u64 == b.count as u64 * l.width(b.storage);
    let wrong = |b: &Buffer, number| if b.storage == Storage::Columns { 22 } else { number };
    let backward = |b: &Buffer| b.start > b.end;
    if !fits(s, sb, source_length) {
        wrong(sb, 15)
    } else if !fits(t, tb, target_length) {
        wrong(tb, 16)
    } else if backward(sb) || backward(tb) {
        21
    } else if sb.end - sb.start != tb.end - tb.start {
        17
    } else if sb.end > sb.count {
        18
    } else if tb.end > tb.count {
        19
    } else {
        0
    }
}

/// `RawPointConverter`: 1, 14 over all pairs, 20 over all pairs.
pub fn point(s: &Layout, t: &Layout, source_length: usize, target_length: usize) -> u32 {
    if !is_sound(s) || !is_sound(t) {
        return 1;
    }
    let mut pairs = vec![];
    for x in &s.attributes {
        for y in &t.attributes {
            if x.0.name == y.0.name && !x.0.same_datatype(&y.0) {
                pairs.push((x, y));
            }
        }
    }
    if pairs.iter().any(|(x, y)| no_pair(&x.0, &y.0)) {
        14
    } else if pairs.iter().any(|(x, y)| x.1 + x.0.size() > source_length as u64 || y.1 + y.0.size() > target_length as u64) {
        20
    } else {
        0
    }
}

/// A view made and read: 1, 13, 15, 18.
pub fn view(l: &Layout, place: u32, count: u32, length: usize, i: u64) -> u32 {
    if !is_sound(l) {
        return 1;
    }
    match l.attributes.get(place as usize) {
        None => 13,
        _ if length as u64 != count as u64 * l.size => 15,
        Some((a, o)) if i as u128 * l.size as u128 + *o as u128 + a.size() as u128 > length as u128 => 18,
        _ => 0,
    }
}
