//! The original, called on the plain values. A panic is an answer: `Err` with document 01's number that its own words stand for, or 0.
use crate::input::*;
use pasture::containers::*;
use pasture::layout::conversion::*;
use pasture::layout::*;
use std::borrow::Cow;
use std::cell::RefCell;
use std::ops::Range;
use std::panic::{catch_unwind, set_hook, AssertUnwindSafe};
use uuid::Uuid;
use PointAttributeDataType as T;

thread_local!(static SAID: RefCell<String> = RefCell::new(String::new()));

/// Panics print nothing; their words are kept.
pub fn silence() {
    set_hook(Box::new(|info| {
        let p = info.payload();
        let words = p.downcast_ref::<&str>().map(|s| s.to_string()).or_else(|| p.downcast_ref::<String>().cloned());
        SAID.with(|s| *s.borrow_mut() = words.unwrap_or_default());
    }));
}

const WORDS: [(&str, u32); 13] = [
    ("is already present in this PointLayout", 8),
    ("All attributes must have unique names", 8),
    ("All attributes must span non-overlapping memory regions", 9),
    ("Could not create memory layout for PointLayout", 10),
    ("Attribute not found in `from_layout`", 12),
    ("index out of bounds", 13),
    ("Invalid conversion", 14),
    ("source_range.len() == target_range.len()", 17),
    ("source_range.end <= source_buffer.len()", 18),
    ("target_range.end <= target_buffer.len()", 19),
    ("out of range for slice", 20),
    ("attempt to multiply with overflow", 20),
    ("attempt to add with overflow", 20),
];

pub fn caught<R>(f: impl FnOnce() -> R) -> Result<R, u32> {
    catch_unwind(AssertUnwindSafe(f)).map_err(|_| SAID.with(|s| WORDS.iter().find(|w| s.borrow().contains(w.0)).map_or(0, |w| w.1)))
}

const CODES: [T; 16] = [
    T::U8, T::I8, T::U16, T::I16, T::U32, T::I32, T::U64, T::I64, T::F32, T::F64, T::Vec3u8, T::Vec3u16, T::Vec3f32, T::Vec3i32,
    T::Vec3f64, T::Vec4u8,
];

/// A code above 17 is a ByteArray's: the answer is not looked at.
pub fn datatype(a: &Attribute) -> T {
    match a.code {
        17 => {
            let name = Uuid::from_u64_pair((a.uuid >> 64) as u64, a.uuid as u64);
            T::Custom { size: a.n as u64, min_alignment: a.min_alignment as u64, name }
        }
        code => CODES.get(code as usize).copied().unwrap_or(T::ByteArray(a.n as u64)),
    }
}

/// A name's bytes as characters of the same numbers: any byte can be said, and unequal names stay unequal.
fn definition(a: &Attribute) -> PointAttributeDefinition {
    let name: String = a.name.iter().map(|&b| b as char).collect();
    PointAttributeDefinition::custom(Cow::Owned(name), datatype(a))
}

fn plain_attribute(m: &PointAttributeMember) -> (Attribute, u64) {
    let name: Vec<u8> = m.name().chars().map(|c| c as u8).collect();
    let a = match m.datatype() {
        T::ByteArray(n) => Attribute { n: n as u16, ..Attribute::plain(name, 16) },
        T::Custom { size, min_alignment, name: uuid } => {
            Attribute { n: size as u16, min_alignment: min_alignment as u8, uuid: uuid.as_u128(), ..Attribute::plain(name, 17) }
        }
        t => Attribute::plain(name, CODES.iter().position(|c| *c == t).unwrap() as u8),
    };
    (a, m.offset())
}

pub fn plain(l: &PointLayout) -> Layout {
    Layout {
        attributes: l.attributes().map(plain_attribute).collect(),
        size: l.size_of_point_entry(),
        alignment: point_layout::probe::alignment(l),
    }
}

fn field_alignment(packing: Option<u8>) -> FieldAlignment {
    packing.map_or(FieldAlignment::Default, |p| FieldAlignment::Packed(p as u64))
}

pub fn layout(base: &Base) -> Result<PointLayout, u32> {
    caught(|| match base {
        Base::Placed(list) => {
            let mut l = PointLayout::default();
            for (a, packing) in list {
                l.add_attribute(definition(a), field_alignment(if *packing == 0 { None } else { Some(*packing) }));
            }
            l
        }
        Base::Given(alignment, list) => {
            let members: Vec<_> = list.iter().map(|(a, o)| definition(a).at_offset_in_type(*o as u64)).collect();
            PointLayout::from_members_and_alignment(&members, *alignment as u64)
        }
    })
}

/// One call on a copy: a call that panics leaves the caller's layout as it was.
pub fn add(l: &PointLayout, call: &Call) -> Result<PointLayout, u32> {
    let mut l = l.clone();
    caught(|| l.add_attribute(definition(&call.attribute), field_alignment(call.packing)))?;
    Ok(l)
}

/// The Rust's value for a sound layout, however it came about.
pub fn handed(l: &Layout) -> PointLayout {
    let members = l.attributes.iter().map(|(a, o)| definition(a).at_offset_in_type(*o)).collect();
    point_layout::probe::layout(members, l.size as usize, l.alignment as usize)
}

/// The place by name, the place by name and datatype, and the offset of that one.
pub fn lookup(l: &PointLayout, a: &Attribute) -> (Option<usize>, Option<usize>, Option<u64>) {
    let d = definition(a);
    let named = l.get_attribute_by_name(d.name());
    (named.and_then(|m| l.index_of(m.attribute_definition())), l.index_of(&d), l.offset_of(&d))
}

pub fn compare(a: &PointLayout, b: &PointLayout) -> bool {
    a.compare_without_offsets(b)
}

pub fn plan<'a>(s: &'a PointLayout, t: &'a PointLayout, m: &Mapping) -> Result<BufferLayoutConverter<'a>, u32> {
    caught(|| {
        let mut c = match m.with_default {
            false => BufferLayoutConverter::for_layouts(s, t),
            true => BufferLayoutConverter::for_layouts_with_default(s, t),
        };
        for &(i, k) in &m.lines {
            c.set_custom_mapping(s.at(i as usize).attribute_definition(), t.at(k as usize).attribute_definition());
        }
        c
    })
}

/// A mapping of a plan: source and target attribute with their offsets, and whether it casts.
pub struct Row {
    pub source: (Attribute, u64),
    pub target: (Attribute, u64),
    pub cast: bool,
}

pub fn rows(c: &BufferLayoutConverter) -> Vec<Row> {
    let row = |r: &buffer_conversion::probe::Row| Row {
        source: plain_attribute(r.source),
        target: plain_attribute(r.target),
        cast: r.cast,
    };
    buffer_conversion::probe::mappings(c).iter().map(row).collect()
}

/// A buffer of count points that holds these bytes, count times the point size.
pub fn buffer(l: &PointLayout, count: u32, bytes: &[u8]) -> VectorBuffer {
    let mut b = VectorBuffer::new_from_layout(l.clone());
    b.resize(count as usize);
    unsafe { b.set_point_range(0..count as usize, bytes) };
    b
}

/// The same of columns: count times the sum of attribute sizes, filled attribute by attribute.
fn columns(l: &PointLayout, count: u32, bytes: &[u8]) -> HashMapBuffer {
    let count = count as usize;
    let mut b = HashMapBuffer::new_from_layout(l.clone());
    b.resize(count);
    let mut at = 0;
    for m in l.attributes() {
        let end = at + count * m.size() as usize;
        unsafe { b.set_attribute_range(m.attribute_definition(), 0..count, &bytes[at..end]) };
        at = end;
    }
    b
}

/// A buffer of either storage.
pub enum Points {
    Interleaved(VectorBuffer),
    Columns(HashMapBuffer),
}

pub fn points(l: &PointLayout, b: &Buffer, bytes: &[u8]) -> Points {
    match b.storage {
        Storage::Interleaved => Points::Interleaved(buffer(l, b.count, bytes)),
        Storage::Columns => Points::Columns(columns(l, b.count, bytes)),
    }
}

impl Points {
    pub fn bytes(&self) -> Vec<u8> {
        match self {
            Points::Interleaved(b) => b.get_point_range_ref(0..b.len()).to_vec(),
            Points::Columns(b) => {
                let column = |m: &PointAttributeMember| b.get_attribute_range_ref(m.attribute_definition(), 0..b.len());
                b.point_layout().attributes().flat_map(column).copied().collect()
            }
        }
    }
}

/// The Rust's own conversion of one range into another, each pair of storages by its own function.
pub fn convert_range(c: &BufferLayoutConverter, source: &Points, from: Range<usize>, target: &mut Points, to: Range<usize>) {
    match (source, target) {
        (Points::Interleaved(s), Points::Interleaved(t)) => c.convert_into_range(s, from, t, to),
        (Points::Interleaved(s), Points::Columns(t)) => c.convert_into_range(s, from, t, to),
        (Points::Columns(s), Points::Interleaved(t)) => c.convert_into_range(s, from, t, to),
        (Points::Columns(s), Points::Columns(t)) => c.convert_into_range(s, from, t, to),
    }
}

/// The target's bytes after the conversion.
pub fn convert(c: &BufferLayoutConverter, sb: (&Points, &Buffer), tb: (&mut Points, &Buffer)) -> Result<Vec<u8>, u32> {
    let (from, to) = (sb.1.start as usize..sb.1.end as usize, tb.1.start as usize..tb.1.end as usize);
    caught(|| convert_range(c, sb.0, from, tb.0, to))?;
    Ok(tb.0.bytes())
}

pub fn point(s: &PointLayout, t: &PointLayout, source: &[u8], target: &[u8]) -> Result<Vec<u8>, u32> {
    let mut target = target.to_vec();
    let c = caught(|| RawPointConverter::from_to(s, t))?;
    caught(|| unsafe { c.convert(source, &mut target) })?;
    Ok(target)
}

/// Where the part lies that point i shows: its start in the buffer and its size.
pub fn view(l: &PointLayout, place: u32, count: u32, bytes: &[u8], i: u64) -> Result<(u64, u64), u32> {
    let member = caught(|| l.at(place as usize))?;
    let b = buffer(l, count, bytes);
    let whole = b.get_point_range_ref(0..b.len()).as_ptr() as usize;
    let v = b.view_raw_attribute(member);
    let part = caught(|| &v[i as usize])?;
    Ok(((part.as_ptr() as usize - whole) as u64, part.len() as u64))
}

/// The buffer's bytes once a value is written to the part of point i that the Rust lends, as many bytes of it as fit.
pub fn write(l: &PointLayout, place: u32, count: u32, bytes: &[u8], i: u64, value: &[u8]) -> Result<Vec<u8>, u32> {
    let member = caught(|| l.at(place as usize))?;
    let mut b = buffer(l, count, bytes);
    let mut v = b.view_raw_attribute_mut(member);
    let part = caught(|| &mut v[i as usize])?;
    let n = part.len().min(value.len());
    part[..n].copy_from_slice(&value[..n]);
    Ok(b.get_point_range_ref(0..b.len()).to_vec())
}
