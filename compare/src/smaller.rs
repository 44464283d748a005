//! A case that differs, made smaller while it still differs.
use crate::check::check;
use crate::input::*;

fn without<T: Clone>(list: &[T]) -> Vec<Vec<T>> {
    let one = |i: usize| list.iter().enumerate().filter(|(k, _)| *k != i).map(|(_, x)| x.clone()).collect();
    (0..list.len()).map(one).collect()
}

fn bases(b: &Base) -> Vec<Base> {
    match b {
        Base::Placed(list) => without(list).into_iter().map(Base::Placed).collect(),
        Base::Given(alignment, list) => without(list).into_iter().map(|l| Base::Given(*alignment, l)).collect(),
    }
}

fn base_sheets(s: &Sheet<Base>) -> Vec<Sheet<Base>> {
    match s {
        Sheet::Says(b) => bases(b).into_iter().map(Sheet::Says).collect(),
        Sheet::Bytes(_) => vec![],
    }
}

fn mapping_sheets(s: &Sheet<Mapping>) -> Vec<Sheet<Mapping>> {
    match s {
        Sheet::Says(m) => without(&m.lines).into_iter().map(|lines| Sheet::Says(Mapping { lines, ..m.clone() })).collect(),
        Sheet::Bytes(_) => vec![],
    }
}

fn sheets(s: &Sheets) -> Vec<Sheets> {
    let mut list: Vec<Sheets> = base_sheets(&s.source).into_iter().map(|source| Sheets { source, ..s.clone() }).collect();
    list.extend(base_sheets(&s.target).into_iter().map(|target| Sheets { target, ..s.clone() }));
    list.extend(mapping_sheets(&s.mapping).into_iter().map(|mapping| Sheets { mapping, ..s.clone() }));
    list
}

fn handed(h: &Handed) -> Vec<Handed> {
    let mut list: Vec<Handed> = bases(&h.base).into_iter().map(|base| Handed { base, ..h.clone() }).collect();
    list.extend(without(&h.calls).into_iter().map(|calls| Handed { calls, ..h.clone() }));
    list.extend(without(&h.changes).into_iter().map(|changes| Handed { changes, ..h.clone() }));
    list
}

/// Interleaved points in place of columns, the same range in fewer points, and a range of one point.
fn buffers(a: &Buffer, b: &Buffer) -> Vec<(Buffer, Buffer)> {
    let cut = |b: &Buffer| Buffer { count: b.end.min(b.count), ..b.clone() };
    let one = |b: &Buffer| Buffer { end: b.start.saturating_add(1), ..b.clone() };
    let first = |b: &Buffer| Buffer { start: 0, end: b.end.saturating_sub(b.start), ..b.clone() };
    let points = |b: &Buffer| Buffer { storage: Storage::Interleaved, ..b.clone() };
    let list = vec![
        (points(a), b.clone()), (a.clone(), points(b)), (cut(a), b.clone()), (a.clone(), cut(b)), (one(a), one(b)),
        (first(a), b.clone()), (a.clone(), first(b)),
    ];
    let key = |b: &Buffer| (b.storage == Storage::Columns, b.count, b.start, b.end);
    list.into_iter().filter(|(x, y)| (key(x), key(y)) != (key(a), key(b))).collect()
}

/// All sizes of ByteArrays and Customs made smaller by one step, or those of one size wherever it stands; the largest steps first.
fn lengths(case: &Case) -> Vec<Case> {
    let mut all: Vec<u16> = case.clone().attributes_mut().iter().filter(|a| a.has_n() && a.n > 1).map(|a| a.n).collect();
    all.sort();
    all.dedup();
    let smaller = |(from, to, step): (u16, u16, u16)| {
        let mut case = case.clone();
        case.attributes_mut().into_iter().filter(|a| a.has_n() && (from..=to).contains(&a.n)).for_each(|a| a.n -= step);
        case
    };
    let steps = |n: u16| [n - 1].into_iter().chain((1..16).map(move |k| n >> k).take_while(|step| *step > 0));
    let together = all.iter().take(1).flat_map(|&n| steps(n).map(move |step| (n, u16::MAX, step)));
    let each = all.iter().flat_map(|&n| steps(n).map(move |step| (n, n, step)));
    together.chain(each).map(smaller).collect()
}

/// One alignment of Customs made smaller wherever it stands, or one name, or some bits taken out of all names; the most bits first.
fn customs(case: &Case) -> Vec<Case> {
    let mut copy = case.clone();
    let customs = copy.attributes_mut().into_iter().filter(|a| a.is_custom());
    let mut all: Vec<(u8, u128)> = customs.map(|a| (a.min_alignment, a.uuid)).collect();
    all.sort();
    all.dedup();
    let bits = [64, 8, 1].into_iter().flat_map(|width| (0..128 / width).map(move |k| (u128::MAX >> (128 - width)) << (k * width)));
    let bits = bits.filter(|mask| all.iter().any(|(_, name)| name & mask != 0));
    let changed = |change: &dyn Fn(&mut Attribute)| {
        let mut case = case.clone();
        case.attributes_mut().into_iter().filter(|a| a.is_custom()).for_each(change);
        case
    };
    let mut list = vec![];
    for &(old, name) in &all {
        for new in [0, 1, old / 2].into_iter().filter(|new| *new < old) {
            list.push(changed(&|a| a.min_alignment = if a.min_alignment == old { new } else { a.min_alignment }));
        }
        for new in [0, 1].into_iter().filter(|new| *new < name) {
            list.push(changed(&|a| a.uuid = if a.uuid == name { new } else { a.uuid }));
        }
    }
    list.extend(bits.map(|mask| changed(&|a| a.uuid &= !mask)));
    list
}

fn candidates(case: &Case) -> Vec<Case> {
    let mut list = parts(case);
    list.extend(lengths(case));
    list.extend(customs(case));
    list
}

fn parts(case: &Case) -> Vec<Case> {
    match case {
        Case::Layout(s) => base_sheets(s).into_iter().map(Case::Layout).collect(),
        Case::Calls(h, calls) => {
            let mut list: Vec<Case> = without(calls).into_iter().map(|c| Case::Calls(h.clone(), c)).collect();
            list.extend(handed(h).into_iter().map(|h| Case::Calls(h, calls.clone())));
            list
        }
        Case::Plan(s) => sheets(s).into_iter().map(Case::Plan).collect(),
        Case::Convert(s, a, b) => {
            let mut list: Vec<Case> = sheets(s).into_iter().map(|s| Case::Convert(s, a.clone(), b.clone())).collect();
            list.extend(buffers(a, b).into_iter().map(|(a, b)| Case::Convert(s.clone(), a, b)));
            list
        }
        Case::Point(s, t, a, b) => {
            let mut list: Vec<Case> = handed(s).into_iter().map(|s| Case::Point(s, t.clone(), a.clone(), b.clone())).collect();
            list.extend(handed(t).into_iter().map(|t| Case::Point(s.clone(), t, a.clone(), b.clone())));
            list
        }
        Case::View { layout, place, count, fill, i } => {
            let view = |layout| Case::View { layout, place: *place, count: *count, fill: fill.clone(), i: *i };
            handed(layout).into_iter().map(view).collect()
        }
        Case::Given(alignment, list) => without(list).into_iter().map(|l| Case::Given(*alignment, l)).collect(),
        Case::Lookup(h, a) => handed(h).into_iter().map(|h| Case::Lookup(h, a.clone())).collect(),
        Case::Compare(a, b) => {
            let mut list: Vec<Case> = handed(a).into_iter().map(|a| Case::Compare(a, b.clone())).collect();
            list.extend(handed(b).into_iter().map(|b| Case::Compare(a.clone(), b)));
            list
        }
        Case::Write { layout, place, count, fill, i, value } => {
            let write = |layout| Case::Write { layout, place: *place, count: *count, fill: fill.clone(), i: *i, value: value.clone() };
            handed(layout).into_iter().map(write).collect()
        }
    }
}

pub fn differs(case: &Case) -> bool {
    check(case).iter().any(|v| v.differs.is_some())
}

pub fn smallest(case: &Case) -> Case {
    let mut case = case.clone();
    for _ in 0..200 {
        match candidates(&case).into_iter().find(differs) {
            Some(next) => case = next,
            None => break,
        }
    }
    case
}
