//! The library, called through its C functions (include/nakvisk.h).
use crate::input::{Attribute, Buffer, Call, Layout, Mapping, Storage, EMPTY};
use std::ffi::{c_char, c_int, c_void, CStr, CString};
use std::mem::{size_of, transmute};

#[repr(C)]
#[derive(Clone, Copy)]
pub struct CDatatype {
    pub code: u8,
    pub n: u16,
    pub alignment: u8,
    pub name_high: u64,
    pub name_low: u64,
}

#[repr(C)]
#[derive(Clone, Copy)]
pub struct CAttribute {
    pub name: [u8; 31],
    pub name_len: u8,
    pub datatype: CDatatype,
}

#[repr(C)]
#[derive(Clone, Copy)]
pub struct CMember {
    pub definition: CAttribute,
    pub offset: u16,
}

#[repr(C)]
#[derive(Clone, Copy)]
pub struct CLayout {
    pub attributes: [CMember; 32],
    pub count: u8,
    pub size: u16,
    pub alignment: u16,
}

#[repr(C)]
struct CLayoutAnswer {
    refusal: u32,
    layout: CLayout,
}

#[repr(C)]
#[derive(Clone, Copy)]
pub struct CMapping {
    pub source: u8,
    pub target: u8,
}

#[repr(C)]
#[derive(Clone, Copy)]
pub struct CPlan {
    pub source: CLayout,
    pub target: CLayout,
    pub mappings: [CMapping; 32],
    pub count: u8,
}

/// As many bytes as the header's structs have.
const _: () = assert!(size_of::<CDatatype>() == 24 && size_of::<CAttribute>() == 56 && size_of::<CMember>() == 64);
const _: () = assert!(size_of::<CLayout>() == 2056 && size_of::<CPlan>() == 4184);

#[repr(C)]
struct CPlanAnswer {
    refusal: u32,
    plan: CPlan,
}

#[repr(C)]
#[derive(Clone, Copy)]
struct CPointRange {
    storage: u32,
    count: u32,
    start: u32,
    end: u32,
}

#[repr(C)]
struct CCounted {
    refusal: u32,
    lost: [u64; 32],
}

#[repr(C)]
struct CDatatypeAnswer {
    refusal: u32,
    size: u32,
    alignment: u32,
}

#[repr(C)]
struct CFound {
    refusal: u32,
    found: u32,
    at: u64,
}

#[repr(C)]
struct CCompared {
    refusal: u32,
    same: u32,
}

#[repr(C)]
struct CPart {
    refusal: u32,
    start: u64,
    size: u64,
}

#[repr(C)]
#[derive(Clone, Copy)]
struct CView {
    offset: u64,
    stride: u64,
    size: u64,
}

#[repr(C)]
struct CViewAnswer {
    refusal: u32,
    view: CView,
}

const RTLD_NOW: c_int = 2;

extern "C" {
    fn dlopen(path: *const c_char, flags: c_int) -> *mut c_void;
    fn dlsym(object: *mut c_void, name: *const c_char) -> *mut c_void;
    fn dlerror() -> *const c_char;
}

extern "C" {
    fn nakvisk_version() -> u32;
    fn nakvisk_point_size(layout_sheet: *const u8, layout_sheet_length: usize, size: *mut u32) -> u32;
    fn nakvisk_datatype_of(datatype: CDatatype) -> CDatatypeAnswer;
    fn nakvisk_layout_of_sheet(layout_sheet: *const u8, layout_sheet_length: usize) -> CLayoutAnswer;
    fn nakvisk_layout_of_members(members: *const CMember, members_length: usize, alignment: u16) -> CLayoutAnswer;
    fn nakvisk_add_attribute(layout: CLayout, attribute: CAttribute) -> CLayoutAnswer;
    fn nakvisk_add_attribute_packed(layout: CLayout, attribute: CAttribute, p: u8) -> CLayoutAnswer;
    fn nakvisk_get_attribute_by_name(layout: CLayout, name: *const u8, name_length: usize) -> CFound;
    fn nakvisk_index_of(layout: CLayout, attribute: CAttribute) -> CFound;
    fn nakvisk_offset_of(layout: CLayout, attribute: CAttribute) -> CFound;
    fn nakvisk_compare_without_offsets(layout: CLayout, other: CLayout) -> CCompared;
    fn nakvisk_plan_of_sheets(
        source_sheet: *const u8, source_sheet_length: usize, target_sheet: *const u8, target_sheet_length: usize,
        mapping_sheet: *const u8, mapping_sheet_length: usize,
    ) -> CPlanAnswer;
    fn nakvisk_plan_of_input(input: *const u8, input_length: usize) -> CPlanAnswer;
    fn nakvisk_plan_of_mapping_sheet(
        source_layout: CLayout, target_layout: CLayout, mapping_sheet: *const u8, mapping_sheet_length: usize,
    ) -> CPlanAnswer;
    fn nakvisk_for_layouts(source_layout: CLayout, target_layout: CLayout) -> CPlanAnswer;
    fn nakvisk_for_layouts_with_default(source_layout: CLayout, target_layout: CLayout) -> CPlanAnswer;
    fn nakvisk_set_custom_mapping(plan: CPlan, source_place: u32, target_place: u32) -> CPlanAnswer;
    fn nakvisk_convert_by_plan(
        plan: CPlan, source: *const u8, source_length: usize, source_range: CPointRange, target: *mut u8, target_length: usize,
        target_range: CPointRange, lost: *mut u64,
    ) -> u32;
    fn nakvisk_convert_by_mapping(
        plan: CPlan, source: *const u8, source_length: usize, source_range: CPointRange, target: *mut u8, target_length: usize,
        target_range: CPointRange,
    ) -> CCounted;
    fn nakvisk_convert_uncounted(
        plan: CPlan, source: *const u8, source_length: usize, source_range: CPointRange, target: *mut u8, target_length: usize,
        target_range: CPointRange,
    ) -> u32;
    fn nakvisk_list_plan(plan: CPlan, text: *mut u8, text_length: usize, written: *mut u32) -> u32;
    fn nakvisk_convert_point(
        source_layout: CLayout, target_layout: CLayout, source_point: *const u8, source_point_length: usize,
        target_point: *mut u8, target_point_length: usize,
    ) -> u32;
    fn nakvisk_read_point(
        layout: CLayout, place: u32, count: u32, point_data: *const u8, point_data_length: usize, i: u64,
    ) -> CPart;
    fn nakvisk_write_point(
        layout: CLayout, place: u32, count: u32, point_data: *mut u8, point_data_length: usize, i: u64, value: *const u8,
        value_length: usize,
    ) -> u32;
    fn nakvisk_view_of(
        layout: CLayout, place: u32, count: u32, point_data: *const u8, point_data_length: usize,
    ) -> CViewAnswer;
    fn nakvisk_read_part(view: CView, point_data: *const u8, point_data_length: usize, i: u64) -> CPart;
    fn nakvisk_write_part(
        view: CView, point_data: *mut u8, point_data_length: usize, i: u64, value: *const u8, value_length: usize,
    ) -> u32;
    fn nakvisk_list(
        source_sheet: *const u8, source_sheet_length: usize, target_sheet: *const u8, target_sheet_length: usize,
        mapping_sheet: *const u8, mapping_sheet_length: usize, text: *mut u8, text_length: usize, written: *mut u32,
    ) -> u32;
    fn nakvisk_convert(
        source_sheet: *const u8, source_sheet_length: usize, target_sheet: *const u8, target_sheet_length: usize,
        mapping_sheet: *const u8, mapping_sheet_length: usize, source: *const u8, source_length: usize,
        source_range: CPointRange, target: *mut u8, target_length: usize, target_range: CPointRange, lost: *mut u64,
    ) -> u32;
}

fn answer<T>(refusal: u32, value: T) -> Result<T, u32> {
    if refusal == 0 { Ok(value) } else { Err(refusal) }
}

/// A datatype in which what its code does not have is `spare`.
fn c_datatype(a: &Attribute, spare: u8) -> CDatatype {
    let n = if a.has_n() { a.n } else { u16::from_ne_bytes([spare; 2]) };
    let (alignment, uuid) = if a.is_custom() { (a.min_alignment, a.uuid) } else { (spare, u128::from_ne_bytes([spare; 16])) };
    CDatatype { code: a.code, n, alignment, name_high: (uuid >> 64) as u64, name_low: uuid as u64 }
}

/// A definition in which what does not count (bytes past the name, what the code does not have) is `spare`.
fn c_attribute(a: &Attribute, spare: u8) -> CAttribute {
    let mut name = [spare; 31];
    let n = a.name.len().min(31);
    name[..n].copy_from_slice(&a.name[..n]);
    CAttribute { name, name_len: a.name.len().min(255) as u8, datatype: c_datatype(a, spare) }
}

/// A record in which what does not count (slots past the count) is `spare`.
pub fn c_layout(l: &Layout, spare: u8) -> CLayout {
    let (n, uuid) = (u16::from_ne_bytes([spare; 2]), u128::from_ne_bytes([spare; 16]));
    let other = Attribute { name: vec![spare; spare as usize % 40], code: spare, n, min_alignment: spare, uuid };
    let none = CMember { definition: c_attribute(&other, spare), offset: spare as u16 };
    let mut attributes = [none; 32];
    for (slot, (a, o)) in attributes.iter_mut().zip(&l.attributes) {
        *slot = CMember { definition: c_attribute(a, spare), offset: *o as u16 };
    }
    CLayout { attributes, count: l.attributes.len() as u8, size: l.size as u16, alignment: l.alignment as u16 }
}

fn plain(l: &CLayout) -> Layout {
    let attribute = |m: &CMember| {
        let d = &m.definition.datatype;
        let name = m.definition.name[..(m.definition.name_len as usize).min(31)].to_vec();
        let uuid = (d.name_high as u128) << 64 | d.name_low as u128;
        (Attribute { name, code: d.code, n: d.n, min_alignment: d.alignment, uuid }.without_spare(), m.offset as u64)
    };
    Layout {
        attributes: l.attributes.iter().take(l.count as usize).map(attribute).collect(),
        size: l.size as u64,
        alignment: l.alignment as u64,
    }
}

/// A refusal hands back its number alone, beside the empty layout.
fn layout_answer(a: CLayoutAnswer) -> Result<Layout, u32> {
    let l = plain(&a.layout);
    assert!(a.refusal == 0 || l == EMPTY, "a layout beside a refusal");
    answer(a.refusal, l)
}

pub fn layout(sheet: &[u8]) -> Result<Layout, u32> {
    layout_answer(unsafe { nakvisk_layout_of_sheet(sheet.as_ptr(), sheet.len()) })
}

/// Of a lent list of members; what does not count is `spare`.
pub fn members(alignment: u16, list: &[(Attribute, u16)], spare: u8) -> Result<Layout, u32> {
    let list: Vec<CMember> = list.iter().map(|(a, o)| CMember { definition: c_attribute(a, spare), offset: *o }).collect();
    layout_answer(unsafe { nakvisk_layout_of_members(list.as_ptr(), list.len(), alignment) })
}

fn found(f: CFound) -> Result<Option<u64>, u32> {
    assert!(f.found == 1 || f.at == 0, "a place beside none");
    assert!(f.refusal == 0 || f.found == 0, "a place beside a refusal");
    answer(f.refusal, if f.found == 1 { Some(f.at) } else { None })
}

/// Size and alignment.
pub fn datatype(a: &Attribute, spare: u8) -> Result<(u64, u64), u32> {
    let d = unsafe { nakvisk_datatype_of(c_datatype(a, spare)) };
    answer(d.refusal, (d.size as u64, d.alignment as u64))
}

pub fn by_name(l: &Layout, name: &[u8], spare: u8) -> Result<Option<u64>, u32> {
    found(unsafe { nakvisk_get_attribute_by_name(c_layout(l, spare), name.as_ptr(), name.len()) })
}

pub fn index_of(l: &Layout, a: &Attribute, spare: u8) -> Result<Option<u64>, u32> {
    found(unsafe { nakvisk_index_of(c_layout(l, spare), c_attribute(a, !spare)) })
}

pub fn offset_of(l: &Layout, a: &Attribute, spare: u8) -> Result<Option<u64>, u32> {
    found(unsafe { nakvisk_offset_of(c_layout(l, spare), c_attribute(a, !spare)) })
}

pub fn compare(l: &Layout, m: &Layout, spare: u8) -> Result<bool, u32> {
    let c = unsafe { nakvisk_compare_without_offsets(c_layout(l, spare), c_layout(m, !spare)) };
    answer(c.refusal, c.same == 1)
}

// ---- plans by value

fn plan_answer(a: CPlanAnswer) -> Result<CPlan, u32> {
    let p = &a.plan;
    assert!(a.refusal == 0 || p.count == 0 && plain(&p.source) == EMPTY && plain(&p.target) == EMPTY, "a plan beside a refusal");
    answer(a.refusal, a.plan)
}

pub fn plan_of_sheets(s: &[u8], t: &[u8], m: &[u8]) -> Result<CPlan, u32> {
    plan_answer(unsafe { nakvisk_plan_of_sheets(s.as_ptr(), s.len(), t.as_ptr(), t.len(), m.as_ptr(), m.len()) })
}

pub fn plan_of_input(input: &[u8]) -> Result<CPlan, u32> {
    plan_answer(unsafe { nakvisk_plan_of_input(input.as_ptr(), input.len()) })
}

pub fn plan_of_mapping_sheet(s: &Layout, t: &Layout, m: &[u8], spare: u8) -> Result<CPlan, u32> {
    plan_answer(unsafe { nakvisk_plan_of_mapping_sheet(c_layout(s, spare), c_layout(t, !spare), m.as_ptr(), m.len()) })
}

/// By calls: the default mappings, then each line.
pub fn plan_of_calls(s: &Layout, t: &Layout, m: &Mapping, spare: u8) -> Result<CPlan, u32> {
    let (s, t) = (c_layout(s, spare), c_layout(t, !spare));
    let start = plan_answer(unsafe {
        if m.with_default { nakvisk_for_layouts_with_default(s, t) } else { nakvisk_for_layouts(s, t) }
    });
    m.lines.iter().fold(start, |plan, &(i, k)| plan_answer(unsafe { nakvisk_set_custom_mapping(plan?, i as u32, k as u32) }))
}

pub fn list_plan(plan: CPlan) -> Result<String, u32> {
    let mut text = vec![0; 4096];
    let mut written = 0;
    let n = unsafe { nakvisk_list_plan(plan, text.as_mut_ptr(), text.len(), &mut written) };
    text.truncate(written as usize);
    answer(n, text.iter().map(|&b| b as char).collect())
}

/// `columns` is the number that stands for columns, 1 in place of 0.
fn c_range(b: &Buffer, columns: u32) -> CPointRange {
    let storage = if b.storage == Storage::Interleaved { 0 } else { columns.max(1) };
    CPointRange { storage, count: b.count, start: b.start, end: b.end }
}

/// The ranges of a conversion by a plan.
fn c_ranges(sb: &Buffer, tb: &Buffer) -> (CPointRange, CPointRange) {
    (c_range(sb, sb.fill.seed as u32), c_range(tb, (tb.fill.seed >> 32) as u32))
}

/// What stands where a count is due, which a refusal leaves.
const NO_COUNT: u64 = 0x5555_aaaa_5555_aaaa;

fn count(refusal: u32, lost: u64) -> Result<u64, u32> {
    assert!(refusal == 0 || lost == NO_COUNT, "a count beside a refusal");
    answer(refusal, lost)
}

/// How many components were lost; the target changes as the library changes it.
pub fn convert_by_plan(plan: CPlan, source: &[u8], sb: &Buffer, target: &mut [u8], tb: &Buffer) -> Result<u64, u32> {
    let (from, to) = c_ranges(sb, tb);
    let mut lost = NO_COUNT;
    let n = unsafe {
        nakvisk_convert_by_plan(plan, source.as_ptr(), source.len(), from, target.as_mut_ptr(), target.len(), to, &mut lost)
    };
    count(n, lost)
}

/// The same for each mapping.
pub fn convert_by_mapping(plan: CPlan, source: &[u8], sb: &Buffer, target: &mut [u8], tb: &Buffer) -> Result<Vec<u64>, u32> {
    let (from, to) = c_ranges(sb, tb);
    let c = unsafe { nakvisk_convert_by_mapping(plan, source.as_ptr(), source.len(), from, target.as_mut_ptr(), target.len(), to) };
    let (listed, others) = c.lost.split_at((plan.count as usize).min(32));
    assert!(others.iter().all(|n| *n == 0), "a count of no mapping");
    assert!(c.refusal == 0 || listed.iter().all(|n| *n == 0), "a count beside a refusal");
    answer(c.refusal, listed.to_vec())
}

type Uncounted = unsafe extern "C" fn(CPlan, *const u8, usize, CPointRange, *mut u8, usize, CPointRange) -> u32;

fn uncounted(convert: Uncounted, plan: CPlan, source: &[u8], sb: &Buffer, target: &mut [u8], tb: &Buffer) -> u32 {
    let (from, to) = c_ranges(sb, tb);
    unsafe { convert(plan, source.as_ptr(), source.len(), from, target.as_mut_ptr(), target.len(), to) }
}

/// The number, 0 for none; the target changes as the library changes it.
pub fn convert_uncounted(plan: CPlan, source: &[u8], sb: &Buffer, target: &mut [u8], tb: &Buffer) -> u32 {
    uncounted(nakvisk_convert_uncounted, plan, source, sb, target, tb)
}

/// A build of the library, by its conversion without a count.
pub struct Build {
    pub name: String,
    convert: Uncounted,
}

impl Build {
    /// Of a shared object, which stays loaded. One of another version is refused, since its structs may lie otherwise.
    pub fn load(name: &str, path: &str) -> Result<Build, String> {
        let path = CString::new(path).map_err(|e| e.to_string())?;
        unsafe {
            let found = |pointer: *mut c_void| match pointer.is_null() {
                true => Err(CStr::from_ptr(dlerror()).to_string_lossy().into_owned()),
                false => Ok(pointer),
            };
            let object = found(dlopen(path.as_ptr(), RTLD_NOW))?;
            let version = found(dlsym(object, c"nakvisk_version".as_ptr()))?;
            let version: extern "C" fn() -> u32 = transmute(version);
            if version() != nakvisk_version() {
                return Err(format!("version {:#x}, where this tree's library has {:#x}", version(), nakvisk_version()));
            }
            let convert = found(dlsym(object, c"nakvisk_convert_uncounted".as_ptr()))?;
            Ok(Build { name: name.to_string(), convert: transmute::<*mut c_void, Uncounted>(convert) })
        }
    }
    pub fn convert_uncounted(&self, plan: CPlan, source: &[u8], sb: &Buffer, target: &mut [u8], tb: &Buffer) -> u32 {
        uncounted(self.convert, plan, source, sb, target, tb)
    }
}

pub fn point_size(sheet: &[u8]) -> Result<u64, u32> {
    let mut size = 0;
    let n = unsafe { nakvisk_point_size(sheet.as_ptr(), sheet.len(), &mut size) };
    answer(n, size as u64)
}

pub fn add(l: &Layout, call: &Call, spare: u8) -> Result<Layout, u32> {
    let (l, a) = (c_layout(l, spare), c_attribute(&call.attribute, !spare));
    layout_answer(unsafe {
        match call.packing {
            None => nakvisk_add_attribute(l, a),
            Some(p) => nakvisk_add_attribute_packed(l, a, p),
        }
    })
}

pub fn list(s: &[u8], t: &[u8], m: &[u8]) -> Result<String, u32> {
    let mut text = vec![0; 4096];
    let mut written = 0;
    let n = unsafe {
        nakvisk_list(s.as_ptr(), s.len(), t.as_ptr(), t.len(), m.as_ptr(), m.len(), text.as_mut_ptr(), text.len(), &mut written)
    };
    text.truncate(written as usize);
    answer(n, text.iter().map(|&b| b as char).collect())
}

/// How many components were lost, by sheets; the target changes as the library changes it.
pub fn convert(s: &[u8], t: &[u8], m: &[u8], source: &[u8], sb: &Buffer, target: &mut [u8], tb: &Buffer) -> Result<u64, u32> {
    let mut lost = NO_COUNT;
    let n = unsafe {
        nakvisk_convert(
            s.as_ptr(), s.len(), t.as_ptr(), t.len(), m.as_ptr(), m.len(), source.as_ptr(), source.len(), c_range(sb, 1),
            target.as_mut_ptr(), target.len(), c_range(tb, 1), &mut lost,
        )
    };
    count(n, lost)
}

pub fn point(s: &Layout, t: &Layout, spare: u8, source: &[u8], target: &mut [u8]) -> u32 {
    let (s, t) = (c_layout(s, spare), c_layout(t, !spare));
    unsafe { nakvisk_convert_point(s, t, source.as_ptr(), source.len(), target.as_mut_ptr(), target.len()) }
}

pub fn view(l: &Layout, spare: u8, place: u32, count: u32, bytes: &[u8], i: u64) -> Result<(u64, u64), u32> {
    let p = unsafe { nakvisk_read_point(c_layout(l, spare), place, count, bytes.as_ptr(), bytes.len(), i) };
    assert!(p.refusal == 0 || (p.start, p.size) == (0, 0), "a part beside a refusal");
    answer(p.refusal, (p.start, p.size))
}

/// The same by a view that is made once, and a part of it.
pub fn view_part(l: &Layout, spare: u8, place: u32, count: u32, bytes: &[u8], i: u64) -> Result<(u64, u64), u32> {
    let made = unsafe { nakvisk_view_of(c_layout(l, spare), place, count, bytes.as_ptr(), bytes.len()) };
    let v = made.view;
    assert!(made.refusal == 0 || (v.offset, v.stride, v.size) == (0, 0, 0), "a view beside a refusal");
    let v = answer(made.refusal, v)?;
    let p = unsafe { nakvisk_read_part(v, bytes.as_ptr(), bytes.len(), i) };
    answer(p.refusal, (p.start, p.size))
}

/// The number, 0 for none; the bytes change as the library changes them.
pub fn write(l: &Layout, spare: u8, place: u32, count: u32, bytes: &mut [u8], i: u64, value: &[u8]) -> u32 {
    let l = c_layout(l, spare);
    unsafe { nakvisk_write_point(l, place, count, bytes.as_mut_ptr(), bytes.len(), i, value.as_ptr(), value.len()) }
}

/// The same by a view that is made once.
pub fn write_part(l: &Layout, spare: u8, place: u32, count: u32, bytes: &mut [u8], i: u64, value: &[u8]) -> u32 {
    let made = unsafe { nakvisk_view_of(c_layout(l, spare), place, count, bytes.as_ptr(), bytes.len()) };
    if made.refusal != 0 {
        return made.refusal;
    }
    unsafe { nakvisk_write_part(made.view, bytes.as_mut_ptr(), bytes.len(), i, value.as_ptr(), value.len()) }
}
