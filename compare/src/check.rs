//! One case on both sides. Demand 2: the same answer where both accept, any NaN out of a cast matching any NaN; a refusal here wherever
//! the Rust panics; only the added refusals go further. Beside that the number must be the first of the documents' lines that holds.
use crate::input::*;
use crate::lost::{self, Counts};
use crate::{library, lines, rust, sheet};
use pasture::layout::PointLayout;
use std::fmt::Debug;

pub const KINDS: [&str; 13] = [
    "layout sheets", "add_attribute calls", "plans", "conversions", "single points", "views", "given lists", "lookups", "comparisons",
    "writes", "conversions to columns", "conversions from columns", "columns to columns",
];

#[derive(Clone, Copy, PartialEq, Debug)]
pub enum Rust {
    Accepts,
    Panics(u32),
    /// The Rust cannot be asked: a sheet that says nothing, a code above 17, an unsound layout, a buffer of a wrong length.
    HasNoSuchValue,
}

/// NaN out of casts, of both sides: how many, and of how many the bits are the same.
#[derive(Clone, Copy, Default)]
pub struct Nans {
    pub both: u64,
    pub same: u64,
}

impl Nans {
    pub fn add(&mut self, other: Nans) {
        self.both += other.both;
        self.same += other.same;
    }
}

pub struct Verdict {
    pub kind: usize,
    pub ours: u32,
    pub rust: Rust,
    pub differs: Option<String>,
    pub nans: Nans,
    pub counts: Counts,
}

/// A difference that is found before the two answers are judged.
fn at_odds(kind: usize, ours: u32, differs: impl Into<String>) -> Verdict {
    Verdict { kind, ours, rust: Rust::Accepts, differs: Some(differs.into()), nans: Nans::default(), counts: Counts::default() }
}

fn said<T: Debug>(r: &Result<T, u32>, refused: &str) -> String {
    r.as_ref().map_or_else(|n| format!("{} {}", refused, n), |x| format!("{:x?}", x))
}

/// Of a long answer a part, from a little before the first character in which it is not the other.
fn part(words: &str, other: &str) -> String {
    if words.len() <= 4000 {
        return words.to_string();
    }
    let from = words.chars().zip(other.chars()).take_while(|(a, b)| a == b).count().saturating_sub(200);
    format!("{} (from character {} of {})", words.chars().skip(from).take(4000).collect::<String>(), from, words.len())
}

/// `due` is the number that the documents give. The Rust's answer is none where it has no such value.
fn judge<T: PartialEq + Debug>(kind: usize, ours: Result<T, u32>, theirs: Option<Result<T, u32>>, due: u32) -> Verdict {
    let number = ours.as_ref().err().copied().unwrap_or(0);
    let added = lines::is_added(number, kind == 1);
    let rust = match &theirs {
        None => Rust::HasNoSuchValue,
        Some(Ok(_)) => Rust::Accepts,
        Some(Err(n)) => Rust::Panics(*n),
    };
    let fault = match (&theirs, &ours) {
        _ if number != due => Some("the documents say otherwise"),
        (Some(Err(_)), Ok(_)) => Some("the Rust panics, the library accepts"),
        (Some(Err(n)), Err(m)) if !added && n != m => Some("the Rust panics for another reason"),
        (Some(Ok(_)), Err(_)) if !added => Some("the Rust accepts, and the refusal is not an added one"),
        (Some(Ok(x)), Ok(y)) if x != y => Some("the answers differ"),
        _ => None,
    };
    let differs = fault.map(|f| {
        let theirs = theirs.as_ref().map_or("has no such value".into(), |r| said(r, "panics for"));
        let ours = said(&ours, "refused");
        format!("{}\n  the documents: {}\n  library: {}\n  Rust: {}", f, due, part(&ours, &theirs), part(&theirs, &ours))
    });
    Verdict { kind, ours: number, rust, differs, nans: Nans::default(), counts: Counts::default() }
}

// ---- layouts

/// What the documents say of a sheet, and what the Rust makes of it where it says a layout.
fn of_sheet(bytes: &[u8]) -> (Result<Layout, u32>, Option<Result<PointLayout, u32>>) {
    match sheet::read_layout(bytes) {
        Err(n) => (Err(n), None),
        Ok(base) => (lines::layout(&base), Some(rust::layout(&base))),
    }
}

fn number<T>(r: &Result<T, u32>) -> u32 {
    r.as_ref().err().copied().unwrap_or(0)
}

fn layout(bytes: &[u8]) -> Verdict {
    let (due, theirs) = of_sheet(bytes);
    let ours = library::layout(bytes);
    if library::point_size(bytes) != ours.clone().map(|l| l.size) {
        return at_odds(0, number(&ours), "nakvisk_point_size and nakvisk_layout_of_sheet differ");
    }
    judge(0, ours, theirs.map(|r| r.map(|l| rust::plain(&l))), number(&due))
}

/// A given list that is lent. The Rust is asked where it has the datatypes.
fn given(alignment: u16, list: &[(Attribute, u16)]) -> Verdict {
    let due = lines::given(alignment, list);
    let can = list.iter().all(|(a, _)| a.code <= 17);
    let theirs = if can { Some(rust::layout(&Base::Given(alignment, list.to_vec())).map(|l| rust::plain(&l))) } else { None };
    judge(6, library::members(alignment, list, alignment as u8), theirs, number(&due))
}

/// By name, by name and datatype, and the offset; and what the datatype is by itself.
fn lookup(h: &Handed, a: &Attribute) -> Vec<Verdict> {
    let (l, spare) = (value(h), a.name.len() as u8);
    let (named, defined) = (lines::by_name(&l, a), lines::by_definition(&l, a));
    let theirs = if named == 1 { None } else { Some(rust::lookup(&rust::handed(&l), a)) };
    // A datatype that the Rust has not is no value of it; its name is.
    let typed = theirs.filter(|_| a.code <= 17);
    let known = Some(rust::datatype(a)).filter(|_| a.code <= 17);
    vec![
        judge(7, library::by_name(&l, &a.name, spare), theirs.map(|t| Ok(t.0.map(|p| p as u64))), named),
        judge(7, library::index_of(&l, a, spare), typed.map(|t| Ok(t.1.map(|p| p as u64))), defined),
        judge(7, library::offset_of(&l, a, spare), typed.map(|t| Ok(t.2)), defined),
        judge(7, library::datatype(a, spare), known.map(|d| Ok((d.size(), d.min_alignment()))), lines::datatype(a)),
    ]
}

fn compare(a: &Handed, b: &Handed) -> Verdict {
    let (l, m) = (value(a), value(b));
    let due = u32::from(!lines::is_sound(&l) || !lines::is_sound(&m));
    let theirs = if due == 1 { None } else { Some(Ok(rust::compare(&rust::handed(&l), &rust::handed(&m)))) };
    judge(8, library::compare(&l, &m, l.size as u8), theirs, due)
}

/// A layout as it is handed in; what a refused base leaves is the empty layout.
pub fn value(h: &Handed) -> Layout {
    let start = lines::layout(&h.base).unwrap_or(EMPTY);
    let mut l = h.calls.iter().fold(start, |l, c| lines::add(&l, c).unwrap_or(l));
    for c in &h.changes {
        match c {
            Change::Size(s) => l.size = *s as u64,
            Change::Alignment(a) => l.alignment = *a as u64,
            Change::Count(n) => l.attributes.resize(*n as usize, (Attribute::default(), 0)),
            Change::Offset(i, o) => l.attributes.iter_mut().skip(*i).take(1).for_each(|a| a.1 = *o as u64),
            Change::Name(i, name) => l.attributes.iter_mut().skip(*i).take(1).for_each(|a| a.0.name = name.clone()),
            Change::Code(i, code) => l.attributes.iter_mut().skip(*i).take(1).for_each(|a| a.0.code = *code),
            Change::N(i, n) => l.attributes.iter_mut().skip(*i).take(1).for_each(|a| a.0.n = *n),
            Change::Custom(i, k, u) => l.attributes.iter_mut().skip(*i).take(1).for_each(|a| (a.0.min_alignment, a.0.uuid) = (*k, *u)),
        }
    }
    l.attributes.iter_mut().for_each(|a| a.0 = std::mem::take(&mut a.0).without_spare());
    l
}

fn calls(start: &Handed, list: &[Call]) -> Vec<Verdict> {
    let mut l = value(start);
    let mut verdicts = vec![];
    for (k, call) in list.iter().enumerate() {
        let due = lines::add(&l, call);
        let can = lines::is_sound(&l) && call.attribute.code <= 17;
        let theirs = if can { Some(rust::add(&rust::handed(&l), call).map(|l| rust::plain(&l))) } else { None };
        let ours = library::add(&l, call, k as u8);
        let next = ours.clone();
        verdicts.push(judge(1, ours, theirs, number(&due)));
        l = next.unwrap_or(l);
    }
    verdicts
}

// ---- plans and conversions

pub fn listing(s: &Layout, t: &Layout, rows: &[rust::Row]) -> String {
    let head = |l: &Layout| format!("{} {} {}\n", l.attributes.len(), l.size, l.alignment);
    let line = |r: &rust::Row| {
        let how = if r.cast { "cast" } else { "copy" };
        let name: String = r.target.0.name.iter().map(|&b| b as char).collect();
        format!("{} {} {} {} {} {}\n", r.source.1, r.source.0.size(), r.target.1, r.target.0.size(), how, name)
    };
    format!("source {}target {}{}", head(s), head(t), rows.iter().map(line).collect::<String>())
}

/// Two layouts and a mapping, as the documents have them and as the Rust has them.
pub struct Read {
    pub s: Layout,
    pub t: Layout,
    pub mapping: Mapping,
    pub theirs: [PointLayout; 2],
}

fn stopped(kind: usize, ours: u32, theirs: Option<Result<(), u32>>, due: u32) -> Verdict {
    judge(kind, if ours == 0 { Ok(()) } else { Err(ours) }, theirs, due)
}

/// The three sheets read, or the verdict where one of them is refused.
pub fn read(kind: usize, ours: u32, s: &[u8], t: &[u8], m: &[u8]) -> Result<Read, Verdict> {
    let layout = |bytes: &[u8]| match of_sheet(bytes) {
        (Ok(due), Some(Ok(theirs))) if due == rust::plain(&theirs) => Ok((due, theirs)),
        (Ok(due), Some(Ok(theirs))) => {
            Err(at_odds(kind, ours, format!("the layouts differ\n  the documents: {:?}\n  Rust: {:?}", due, rust::plain(&theirs))))
        }
        (due, theirs) => Err(stopped(kind, ours, theirs.map(|r| r.map(|_| ())), number(&due))),
    };
    let (s, t) = (layout(s)?, layout(t)?);
    let mapping = sheet::read_mapping(m).map_err(|n| stopped(kind, ours, None, n))?;
    Ok(Read { s: s.0, t: t.0, mapping, theirs: [s.1, t.1] })
}

/// The plan by value, made in each way that there is, lists as the three sheets do.
fn plan_ways(s: &[u8], t: &[u8], m: &[u8], due: &Result<String, u32>) -> Option<String> {
    let framed = [s, t, m].iter().flat_map(|b| (b.len() as u16).to_be_bytes().into_iter().chain(b.iter().copied())).collect::<Vec<u8>>();
    let mut ways = vec![("sheets", library::plan_of_sheets(s, t, m))];
    if framed.len() <= 4096 {
        ways.push(("input", library::plan_of_input(&framed)));
    }
    if let (Ok(l), Ok(k)) = (library::layout(s), library::layout(t)) {
        ways.push(("mapping sheet", library::plan_of_mapping_sheet(&l, &k, m, m.len() as u8)));
        if let Ok(mapping) = sheet::read_mapping(m) {
            ways.push(("calls", library::plan_of_calls(&l, &k, &mapping, m.len() as u8)));
        }
    }
    let other = ways.into_iter().map(|(way, plan)| (way, plan.and_then(library::list_plan))).find(|(_, listed)| listed != due);
    other.map(|(way, listed)| format!("the plan of {} lists otherwise\n  sheets: {:?}\n  {}: {:?}", way, due, way, listed))
}

fn plan(sheets: &Sheets) -> Verdict {
    let (s, t, m) = (sheets.source.bytes(), sheets.target.bytes(), sheets.mapping.bytes());
    let ours = library::list(&s, &t, &m);
    if let Some(differs) = plan_ways(&s, &t, &m, &ours) {
        return at_odds(2, number(&ours), differs);
    }
    match read(2, number(&ours), &s, &t, &m) {
        Err(verdict) => verdict,
        Ok(r) => {
            let theirs = rust::plan(&r.theirs[0], &r.theirs[1], &r.mapping).map(|c| listing(&r.s, &r.t, &rust::rows(&c)));
            judge(2, ours, Some(theirs), lines::plan(&r.s, &r.t, &r.mapping))
        }
    }
}

/// Numbers that a cast put there, F32 or F64: where both sides have a NaN, the Rust's becomes the library's.
fn match_nans(ours: &[u8], theirs: &mut [u8], at: usize, code: u8) -> Nans {
    let (width, numbers) = match code {
        8 => (4, 1),
        9 => (8, 1),
        12 => (4, 3),
        14 => (8, 3),
        _ => return Nans::default(),
    };
    let part = at..at + width * numbers;
    let mut nans = Nans::default();
    for (x, y) in ours[part.clone()].chunks_exact(width).zip(theirs[part].chunks_exact_mut(width)) {
        if is_nan(x) && is_nan(y) {
            nans.add(Nans { both: 1, same: u64::from(x == y) });
            y.copy_from_slice(x);
        }
    }
    nans
}

/// Of the bytes of an F32 or an F64.
pub fn is_nan(x: &[u8]) -> bool {
    match x.len() {
        4 => f32::from_le_bytes([x[0], x[1], x[2], x[3]]).is_nan(),
        _ => f64::from_le_bytes([x[0], x[1], x[2], x[3], x[4], x[5], x[6], x[7]]).is_nan(),
    }
}

fn match_points(ours: &[u8], theirs: &mut [u8], rows: &[rust::Row], t: &Layout, b: &Buffer) -> Nans {
    let mut nans = Nans::default();
    for row in rows.iter().filter(|row| row.cast) {
        let place = t.attributes.iter().position(|a| *a == row.target).expect("a target of the layout");
        for i in b.start..b.end {
            nans.add(match_nans(ours, theirs, t.start(b.storage, b.count, place, i), row.target.0.code));
        }
    }
    nans
}

fn match_point(ours: &[u8], theirs: &mut [u8], s: &Layout, t: &Layout) -> Nans {
    let mut nans = Nans::default();
    for (b, o) in &t.attributes {
        if s.attributes.iter().any(|(a, _)| a.name == b.name && !a.same_datatype(b)) {
            nans.add(match_nans(ours, theirs, *o as usize, b.code));
        }
    }
    nans
}

/// The kind of a conversion, by its storages.
fn storages(sb: &Buffer, tb: &Buffer) -> usize {
    match (sb.storage, tb.storage) {
        (Storage::Interleaved, Storage::Interleaved) => 3,
        (Storage::Interleaved, Storage::Columns) => 10,
        (Storage::Columns, Storage::Interleaved) => 11,
        (Storage::Columns, Storage::Columns) => 12,
    }
}

fn convert(sheets: &Sheets, sb: &Buffer, tb: &Buffer) -> Verdict {
    let kind = storages(sb, tb);
    let (sh, th, mh) = (sheets.source.bytes(), sheets.target.bytes(), sheets.mapping.bytes());
    let (source, before) = (bytes(&sh, sb), bytes(&th, tb));
    let mut target = before.clone();
    let counted = library::convert(&sh, &th, &mh, &source, sb, &mut target, tb);
    let n = number(&counted);
    if n != 0 && target != before {
        return at_odds(kind, n, format!("refused {}, and a lent byte changed", n));
    }
    let each = match by_plan(library::plan_of_sheets(&sh, &th, &mh), (&source, sb), (&before, tb), (&counted, &target)) {
        Err(differs) => return at_odds(kind, n, differs),
        Ok(each) => each,
    };
    let r = match read(kind, n, &sh, &th, &mh) {
        Err(verdict) => return verdict,
        Ok(r) => r,
    };
    let plan = match (rust::plan(&r.theirs[0], &r.theirs[1], &r.mapping), lines::plan(&r.s, &r.t, &r.mapping)) {
        (Ok(plan), 0) => plan,
        (theirs, due) => return stopped(kind, n, Some(theirs.map(|_| ())), due),
    };
    let due = lines::buffers(&r.s, sb, source.len(), &r.t, tb, target.len());
    if matches!(due, 15 | 16 | 22) {
        return stopped(kind, n, None, due);
    }
    let rows = rust::rows(&plan);
    let sb_theirs = rust::points(&r.theirs[0], sb, &source);
    let mut tb_theirs = rust::points(&r.theirs[1], tb, &before);
    let mut theirs = rust::convert(&plan, (&sb_theirs, sb), (&mut tb_theirs, tb));
    let nans = match &mut theirs {
        Ok(bytes) if n == 0 => match_points(&target, bytes, &rows, &r.t, tb),
        _ => Nans::default(),
    };
    let verdict = Verdict { nans, ..judge(kind, if n == 0 { Ok(target) } else { Err(n) }, Some(theirs), due) };
    if n != 0 || verdict.differs.is_some() {
        return verdict;
    }
    let lost = lost::by_mapping(&rows, &r.s, &source, sb);
    if each != lost {
        return at_odds(kind, n, format!("components lost, by mapping\n  library: {:?}\n  counted here: {:?}", each, lost));
    }
    Verdict { counts: Counts::one(lost.iter().sum(), lost::is_lost_twice(&rows, &lost)), ..verdict }
}

/// The conversion by a plan in each way that there is gives the answer and the bytes of that by sheets: what each mapping loses, which adds up
/// to the whole; none where it is refused.
fn by_plan(
    plan: Result<library::CPlan, u32>, (source, sb): (&[u8], &Buffer), (before, tb): (&[u8], &Buffer),
    (counted, target): (&Result<u64, u32>, &[u8]),
) -> Result<Vec<u64>, String> {
    let (mut whole, mut each, mut uncounted) = (before.to_vec(), before.to_vec(), before.to_vec());
    let sum = plan.and_then(|p| library::convert_by_plan(p, source, sb, &mut whole, tb));
    let lost = plan.and_then(|p| library::convert_by_mapping(p, source, sb, &mut each, tb));
    let n = plan.map_or_else(|n| n, |p| library::convert_uncounted(p, source, sb, &mut uncounted, tb));
    if sum != *counted || whole != target {
        return Err(format!("by the plan the answer is {:?}, and not {:?}, or bytes differ", sum, counted));
    }
    if lost.clone().map(|list| list.iter().sum()) != *counted || each != target {
        return Err(format!("by mapping the answer is {:?}, and not {:?}, or bytes differ", lost, counted));
    }
    if n != number(counted) || uncounted != target {
        return Err(format!("uncounted the number is {}, or bytes differ", n));
    }
    Ok(lost.unwrap_or_default())
}

/// A buffer's bytes: those of its points by the layout that the sheet says, a byte each where it says none.
pub fn bytes(sheet: &[u8], b: &Buffer) -> Vec<u8> {
    let width = sheet::read_layout(sheet).and_then(|base| lines::layout(&base)).map_or(1, |l| l.width(b.storage));
    b.fill.bytes(b.count as u64 * width)
}

// ---- single points and views

fn point(s: &Handed, t: &Handed, sf: &Fill, tf: &Fill) -> Verdict {
    let (s, t) = (value(s), value(t));
    let (source, before) = (sf.bytes(s.size), tf.bytes(t.size));
    let mut target = before.clone();
    let n = library::point(&s, &t, sf.seed as u8, &source, &mut target);
    if n != 0 && target != before {
        return at_odds(4, n, format!("refused {}, and a lent byte changed", n));
    }
    let due = lines::point(&s, &t, source.len(), target.len());
    let mut theirs = if due == 1 { None } else { Some(rust::point(&rust::handed(&s), &rust::handed(&t), &source, &before)) };
    let nans = match &mut theirs {
        Some(Ok(bytes)) if n == 0 => match_point(&target, bytes, &s, &t),
        _ => Nans::default(),
    };
    Verdict { nans, ..judge(4, if n == 0 { Ok(target) } else { Err(n) }, theirs, due) }
}

fn view(l: &Handed, place: u32, count: u32, fill: &Fill, i: u64) -> Verdict {
    let l = value(l);
    let bytes = fill.bytes(count as u64 * l.size);
    let due = lines::view(&l, place, count, bytes.len(), i);
    // A slice index out of range is 18 here.
    let theirs = || rust::view(&rust::handed(&l), place, count, &bytes, i).map_err(|n| if n == 20 { 18 } else { n });
    let theirs = if due == 1 || due == 15 { None } else { Some(theirs()) };
    let ours = library::view(&l, fill.seed as u8, place, count, &bytes, i);
    if library::view_part(&l, fill.seed as u8, place, count, &bytes, i) != ours {
        return at_odds(5, number(&ours), "nakvisk_read_point and a view's nakvisk_read_part differ");
    }
    judge(5, ours, theirs, due)
}

fn write(l: &Handed, place: u32, count: u32, fill: &Fill, i: u64, value: &[u8]) -> Verdict {
    let l = self::value(l);
    let before = fill.bytes(count as u64 * l.size);
    let due = lines::view(&l, place, count, before.len(), i);
    let (mut bytes, mut by_view, spare) = (before.clone(), before.clone(), fill.seed as u8);
    let n = library::write(&l, spare, place, count, &mut bytes, i, value);
    let m = library::write_part(&l, spare, place, count, &mut by_view, i, value);
    if m != n || by_view != bytes {
        return at_odds(9, n, "nakvisk_write_point and a view's nakvisk_write_part differ");
    }
    if n != 0 && bytes != before {
        return at_odds(9, n, format!("refused {}, and a lent byte changed", n));
    }
    let theirs = || rust::write(&rust::handed(&l), place, count, &before, i, value).map_err(|n| if n == 20 { 18 } else { n });
    let theirs = if due == 1 || due == 15 { None } else { Some(theirs()) };
    judge(9, if n == 0 { Ok(bytes) } else { Err(n) }, theirs, due)
}

pub fn check(case: &Case) -> Vec<Verdict> {
    let lost = |n| Verdict { rust: Rust::Panics(n), ..at_odds(kind(case), 0, "a panic outside the calls that are compared") };
    rust::caught(|| checked(case)).unwrap_or_else(|n| vec![lost(n)])
}

fn kind(case: &Case) -> usize {
    match case {
        Case::Layout(..) => 0,
        Case::Calls(..) => 1,
        Case::Plan(..) => 2,
        Case::Convert(_, sb, tb) => storages(sb, tb),
        Case::Point(..) => 4,
        Case::View { .. } => 5,
        Case::Given(..) => 6,
        Case::Lookup(..) => 7,
        Case::Compare(..) => 8,
        Case::Write { .. } => 9,
    }
}

fn checked(case: &Case) -> Vec<Verdict> {
    match case {
        Case::Layout(s) => vec![layout(&s.bytes())],
        Case::Calls(start, list) => calls(start, list),
        Case::Plan(sheets) => vec![plan(sheets)],
        Case::Convert(sheets, sb, tb) => vec![convert(sheets, sb, tb)],
        Case::Point(s, t, sf, tf) => vec![point(s, t, sf, tf)],
        Case::View { layout, place, count, fill, i } => vec![view(layout, *place, *count, fill, *i)],
        Case::Given(alignment, list) => vec![given(*alignment, list)],
        Case::Lookup(h, a) => lookup(h, a),
        Case::Compare(a, b) => vec![compare(a, b)],
        Case::Write { layout, place, count, fill, i, value } => vec![write(layout, *place, *count, fill, *i, value)],
    }
}

/// The bytes of a case as they are handed in; of many the first.
pub fn show(case: &Case) -> String {
    let hex = |bytes: &[u8]| match bytes.get(..1000) {
        Some(first) => format!("{} .. ({} bytes)", hex(first), bytes.len()),
        None => hex(bytes),
    };
    let layout = |h: &Handed| {
        let l = value(h);
        let attribute = |(a, o): &(Attribute, u64)| format!(" {:?}@{}", a, o);
        format!("size {} alignment {}{}", l.size, l.alignment, l.attributes.iter().map(attribute).collect::<String>())
    };
    let sheets = |s: &Sheets| {
        let (source, target, mapping) = (s.source.bytes(), s.target.bytes(), s.mapping.bytes());
        format!("source {} target {} mapping {}", hex(&source), hex(&target), hex(&mapping))
    };
    match case {
        Case::Layout(s) => format!("layout sheet {}", hex(&s.bytes())),
        Case::Calls(h, list) => {
            let call = |c: &Call| format!("\n  {:?} Packed {:?}", c.attribute, c.packing);
            format!("calls on {}{}", layout(h), list.iter().map(call).collect::<String>())
        }
        Case::Plan(s) => format!("plan {}", sheets(s)),
        Case::Convert(s, a, b) => {
            let buffer = |sheet: &[u8], b: &Buffer| {
                format!("{:?} count {} range {}..{} bytes {}", b.storage, b.count, b.start, b.end, hex(&bytes(sheet, b)))
            };
            format!("convert {}\n  source {}\n  target {}", sheets(s), buffer(&s.source.bytes(), a), buffer(&s.target.bytes(), b))
        }
        Case::Point(s, t, sf, tf) => {
            let (a, b) = (sf.bytes(value(s).size), tf.bytes(value(t).size));
            format!("point\n  source {} bytes {}\n  target {} bytes {}", layout(s), hex(&a), layout(t), hex(&b))
        }
        Case::View { layout: l, place, count, fill, i } => {
            format!("view {} place {} count {} i {} bytes {}", layout(l), place, count, i, hex(&fill.bytes(*count as u64 * value(l).size)))
        }
        Case::Given(alignment, list) => {
            let member = |(a, o): &(Attribute, u16)| format!(" {:?}@{}", a, o);
            format!("given alignment {}{}", alignment, list.iter().map(member).collect::<String>())
        }
        Case::Lookup(h, a) => format!("lookup {:?} in {}", a, layout(h)),
        Case::Compare(a, b) => format!("compare {}\n  with {}", layout(a), layout(b)),
        Case::Write { layout: l, place, count, fill, i, value: v } => {
            let bytes = fill.bytes(*count as u64 * value(l).size);
            format!("write {} to {} place {} count {} i {} bytes {}", hex(v), layout(l), place, count, i, hex(&bytes))
        }
    }
}
