//! differences: each intended difference on its smallest input, asked of both sides; a row of docs/DIFFERENCES.md for each.
use compare::input::*;
use compare::{library, rust, sheet};
use pasture::containers::*;
use pasture::layout::conversion::{get_generic_converter, RawPointConverter};
use pasture::layout::{FieldAlignment, PointAttributeDataType, PointLayout};
use std::borrow::Cow;
use Storage::{Columns, Interleaved};

const NONE: &str = "has no such value";

fn attribute(name: &str, code: u8) -> Attribute {
    Attribute::plain(name, code)
}

/// Attributes a, b, c .. of these codes, at these offsets.
fn given(alignment: u16, list: &[(u8, u16)]) -> Base {
    let name = |k: usize| ((b'a' + k as u8) as char).to_string();
    Base::Given(alignment, list.iter().enumerate().map(|(k, (code, o))| (attribute(&name(k), *code), *o)).collect())
}

fn placed(list: &[(u8, u8)]) -> Base {
    let name = |k: usize| format!("a{}", k);
    Base::Placed(list.iter().enumerate().map(|(k, (code, p))| (attribute(&name(k), *code), *p)).collect())
}

fn show(l: &Layout) -> String {
    let offsets: Vec<String> = l.attributes.iter().map(|(_, o)| o.to_string()).collect();
    let offsets = if offsets.len() > 4 { format!(".. {}", offsets.last().unwrap()) } else { offsets.join(", ") };
    format!("offsets {}; size {}, alignment {}", offsets, l.size, l.alignment)
}

fn ours<T>(r: Result<T, u32>, f: impl Fn(T) -> String) -> String {
    r.map_or_else(|n| format!("refused {}", n), f)
}

fn theirs<T>(r: Result<T, u32>, f: impl Fn(T) -> String) -> String {
    match r {
        Ok(x) => f(x),
        Err(0) => "panics".into(),
        Err(n) => format!("panics for {}", n),
    }
}

fn row(what: &str, ours: String, theirs: String) {
    println!("| {} | {} | {} |", what, ours, theirs);
}

/// The lent list of a given base.
fn lent_row(what: &str, base: &Base) {
    let here = match base {
        Base::Given(alignment, list) => library::members(*alignment, list, 0),
        Base::Placed(_) => panic!("a given list"),
    };
    row(what, ours(here, |l| show(&l)), theirs(rust::layout(base), |l| show(&rust::plain(&l))));
}

/// Of an attribute in the empty layout, by name or by name and datatype.
fn lookup_row(what: &str, a: &Attribute, typed: bool) {
    let said = |p: Option<u64>| p.map_or("none".into(), |p| format!("place {}", p));
    let here = if typed { library::index_of(&EMPTY, a, 0) } else { library::by_name(&EMPTY, &a.name, 0) };
    let (named, place, _) = rust::lookup(&PointLayout::default(), a);
    row(what, ours(here, said), said(if typed { place } else { named }.map(|p| p as u64)));
}

fn sheet_row(what: &str, bytes: &[u8]) {
    row(what, ours(library::layout(bytes), |l| show(&l)), NONE.into());
}

fn layout_row(what: &str, base: &Base) {
    let bytes = sheet::layout_bytes(base);
    row(what, ours(library::layout(&bytes), |l| show(&l)), theirs(rust::layout(base), |l| show(&rust::plain(&l))));
}

fn add_row(what: &str, start: &Base, call: Call) {
    let l = rust::layout(start).unwrap();
    let given = library::add(&rust::plain(&l), &call, 0);
    row(what, ours(given, |l| show(&l)), theirs(rust::add(&l, &call), |l| show(&rust::plain(&l))));
}

fn call(name: &str, code: u8, packing: Option<u8>) -> Call {
    Call { attribute: attribute(name, code), packing }
}

/// A ByteArray of n, placed alone.
fn array(n: u16) -> Base {
    Base::Placed(vec![(Attribute { n, ..attribute("a", 16) }, 0)])
}

fn added() {
    let empty = placed(&[]);
    let odd = Layout { alignment: 3, ..EMPTY };
    row("1: U8 Default on a layout record with alignment 3", ours(library::add(&odd, &call("a", 0, None), 0), |l| show(&l)), NONE.into());
    sheet_row("2: a layout sheet of no byte", &[]);
    add_row("3: U8 Default on 32 U8", &placed(&[(0, 0); 32]), call("b", 0, None));
    let many: Vec<(u8, u16)> = (0..33).map(|o| (0, o)).collect();
    lent_row("3: a lent list of 33 U8 at 0 to 32, alignment 1", &given(1, &many));
    add_row("4: U8 Default, its name 32 letters", &empty, call(&"x".repeat(32), 0, None));
    add_row("4: U8 Default, its name hex 0A", &empty, call("\n", 0, None));
    lookup_row("4: a lookup of the name hex 0A in the empty layout", &attribute("\n", 0), false);
    let unknown = library::add(&EMPTY, &call("a", 18, None), 0);
    row("5: code 18 Default", ours(unknown, |l| show(&l)), NONE.into());
    add_row("6: ByteArray of 0 Default", &empty, call("a", 16, None));
    layout_row("6: given ByteArray of 0 at 0, U8 at 0, alignment 1", &given(1, &[(16, 0), (0, 0)]));
    layout_row("6: given U8 at 0, ByteArray of 0 at 0, alignment 1", &given(1, &[(0, 0), (16, 0)]));
    lookup_row("6: a lookup of ByteArray of 0 in the empty layout", &attribute("a", 16), true);
    sheet_row("6: a layout sheet that gives ByteArray of 255 in 16 bits", &sheet::long_bytes(&array(255)).0);
    let custom = Attribute { min_alignment: 4, ..attribute("a", 17) };
    add_row("6: Custom of size 0, alignment 4, Default", &empty, Call { attribute: custom.clone(), packing: None });
    layout_row("6: a layout sheet with Custom of size 0, alignment 4, Default", &Base::Placed(vec![(custom.clone(), 0)]));
    lookup_row("6: a lookup of Custom of size 0 in the empty layout", &custom, true);
    sheet_row("7: a layout sheet of one byte, hex 01", &[1]);
    add_row("9: U8 Default on given U8 at 1, U8 at 0, alignment 1", &given(1, &[(0, 1), (0, 0)]), call("c", 0, None));
    layout_row("11: given U8 at 65535, alignment 1", &given(1, &[(0, 65535)]));
    layout_row("11: given U8 at 65534, alignment 2", &given(2, &[(0, 65534)]));
    add_row("11: U8 Default on ByteArray of 65535", &array(65535), call("b", 0, None));
    row("15: one U8 point, a source of 2 bytes", convert(Interleaved, 2, 1), NONE.into());
    row("16: one U8 point, a target of 2 bytes", convert(Interleaved, 1, 2), NONE.into());
    backward("21: six U8 points, ranges 5..3 and 2..2", Interleaved, (5, 3), (2, 2));
    backward("21: six U8 points, ranges 2..2 and 5..3", Interleaved, (2, 2), (5, 3));
    backward("21: six U8 points, ranges 5..3 and 2..3", Interleaved, (5, 3), (2, 3));
    backward("21: six U8 points as columns, ranges 5..3 and 2..2", Columns, (5, 3), (2, 2));
    backward("21: six U8 points as columns, ranges 2..2 and 5..3", Columns, (2, 2), (5, 3));
    row("22: one U8 point as columns, a source of 2 bytes", convert(Columns, 2, 1), NONE.into());
    row("22: one U8 point as columns, a target of 2 bytes", convert(Columns, 1, 2), NONE.into());
}

/// Six points of a U8 on both sides, from one range to the other.
fn backward(what: &str, storage: Storage, from: (u32, u32), to: (u32, u32)) {
    let layout = placed(&[(0, 0)]);
    let sheet = sheet::layout_bytes(&layout);
    let [from, to] = [from, to].map(|(start, end)| Buffer { start, end, ..Buffer::whole(storage, 6) });
    let (source, before) = ([1; 6], [7; 6]);
    let mut target = before;
    let here = library::convert(&sheet, &sheet, &[0], &source, &from, &mut target, &to).map(|_| target.to_vec());
    let l = rust::layout(&layout).unwrap();
    let plan = rust::plan(&l, &l, &Mapping::default()).unwrap();
    let there = rust::convert(&plan, (&rust::points(&l, &from, &source), &from), (&mut rust::points(&l, &to, &before), &to));
    let said = |bytes: Vec<u8>| if bytes == before { "accepted, no byte changes".to_string() } else { hex(&bytes) };
    row(what, ours(here, said), theirs(there, said));
}

/// One point of a U8, with buffers of these lengths.
fn convert(storage: Storage, source: usize, target: usize) -> String {
    let sheet = sheet::layout_bytes(&placed(&[(0, 0)]));
    let b = Buffer::whole(storage, 1);
    ours(library::convert(&sheet, &sheet, &[0], &vec![7; source], &b, &mut vec![0; target], &b), |_| "accepted".into())
}

fn u8_datatype() -> PointAttributeDataType {
    rust::datatype(&attribute("a", 0))
}

fn calls() {
    add_row("9 and 10 at once: U8 Packed 3 on given U8 at 1, U8 at 0, alignment 4", &given(4, &[(0, 1), (0, 0)]), call("c", 0, Some(3)));
    let mut l = PointLayout::default();
    let definition = pasture::layout::PointAttributeDefinition::custom(Cow::Borrowed("a"), u8_datatype());
    let result = rust::caught(|| l.add_attribute(definition, FieldAlignment::Packed(0)));
    let after = format!("{}, and its layout has {} attribute", theirs(result, |_| "accepts".into()), l.attributes().count());
    row("U8 Packed 0 on the empty layout", ours(library::add(&EMPTY, &call("a", 0, Some(0)), 0), |l| show(&l)), after);
}

fn casts() {
    let one = Sheet::Says(placed(&[(0, 0)]));
    let copy = Sheets { source: one.clone(), target: one, mapping: Sheet::Says(Mapping::default()) };
    let listing = library::list(&copy.source.bytes(), &copy.target.bytes(), &copy.mapping.bytes()).unwrap();
    let how = listing.lines().nth(2).unwrap().split(' ').nth(4).unwrap().to_string();
    let generic = theirs(rust::caught(|| get_generic_converter(u8_datatype(), u8_datatype())), |_| "gives a converter".into());
    row("U8 to U8 by `get_generic_converter`", how, generic);
}

fn points() {
    let (s, t) = (given(1, &[(0, 0), (0, 1)]), given(1, &[(2, 0), (2, 2)]));
    let (s, t) = (rust::layout(&s).unwrap(), rust::layout(&t).unwrap());
    let (source, mut target) = ([5, 6], [0xaa, 0xbb, 0xcc]);
    let n = library::point(&rust::plain(&s), &rust::plain(&t), 0, &source, &mut target);
    let left = format!("refused {}, the target {}", n, hex(&target));
    let mut target = [0xaa, 0xbb, 0xcc];
    let c = RawPointConverter::from_to(&s, &t);
    let result = rust::caught(|| unsafe { c.convert(&source, &mut target) });
    let theirs = format!("{}, the target {}", theirs(result, |_| "accepts".into()), hex(&target));
    row("U8, U8 to U16, U16 by `RawPointConverter`, points hex 0506 and aabbcc", left, theirs);
}

fn empty_points() {
    let sheet = sheet::layout_bytes(&placed(&[]));
    let by_caller = |storage| {
        let b = Buffer::whole(storage, 3);
        ours(library::convert(&sheet, &sheet, &[0], &[], &b, &mut [], &b), |_| "count 3, as the caller says".into())
    };
    let mut resized = VectorBuffer::new_from_layout(PointLayout::default());
    resized.resize(3);
    let mut pushed = VectorBuffer::new_from_layout(PointLayout::default());
    let pushed = theirs(rust::caught(|| { unsafe { pushed.push_points(&[]) }; pushed.len() }), |n| n.to_string());
    let external = theirs(rust::caught(|| ExternalMemoryBuffer::new(&[][..], PointLayout::default()).len()), |n| n.to_string());
    let said = format!("count {} by `resize(3)`, {} by `push_points`, {} by `ExternalMemoryBuffer`", resized.len(), pushed, external);
    row("three points of size 0", by_caller(Interleaved), said);
    let mut columns = HashMapBuffer::new_from_layout(PointLayout::default());
    columns.resize(3);
    let said = format!("count {} by `resize(3)`; `push_points` ", columns.len());
    let pushed = theirs(rust::caught(|| { unsafe { columns.push_points(&[]) }; columns.len() }), |n| format!("then has {}", n));
    row("the same as columns", by_caller(Columns), said + &pushed);
    let foreign = pasture::layout::PointAttributeMember::custom("a", u8_datatype(), 0);
    let length = theirs(rust::caught(|| resized.view_raw_attribute(&foreign).len()), |n| n.to_string());
    row("`len` of a view of points of size 0", "is not there".into(), length);
}

fn views() {
    let l = rust::layout(&given(1, &[(0, 0), (0, 1)])).unwrap();
    let part = |(start, size)| format!("bytes {} to before {}", start, start + size);
    let i = 1 << 63;
    let (a, b) = (library::view(&rust::plain(&l), 0, 0, 1, &[5, 6], i), rust::view(&l, 0, 1, &[5, 6], i));
    row("a view of U8 at 0 in points of size 2, one point, read at 2^63", ours(a, part), theirs(b, part));
}

fn main() {
    rust::silence();
    println!("| smallest input | library | Rust |\n|---|---|---|");
    added();
    calls();
    casts();
    points();
    empty_points();
    views();
}
