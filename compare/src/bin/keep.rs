//! keep SEED FILE: writes the kept answers of the Rust into FILE, which is crates/replay/stdin: the lines from the title with the Rust's commit
//! on, in the notation that the head of that file explains. The program of crates/replay makes the calls and compares, without the Rust at
//! hand. A refusal's number is the one that the words of the Rust's panic stand for. A NaN out of a cast is kept as the Rust gives it: a
//! random case in which its bits are not the library's is passed over, and where one of the 110 casts has such a NaN nothing is kept.
use compare::check::{self, Rust};
use compare::input::*;
use compare::random::Rng;
use compare::{casts, kept, library, lines, random, rust, sheet};

/// No line is longer, and so many are kept of plans, conversions, points, calls of add_attribute, lookups, comparisons, and conversions to
/// columns, from them and between them, at most three in four of each accepted, found or the same; one conversion more for each cast, twelve
/// of long ByteArrays and four of Customs, and sixteen answers on unequal Customs.
const LONGEST: usize = 400;
const KEPT: [usize; 9] = [580, 220, 460, 700, 260, 180, 100, 100, 100];
/// The bytes of the text that a listing is lent, and what stands for no place.
const TEXT: usize = 1996;
const NOTHING: u64 = 100_000;
/// The title that the kept lines begin with, up to the seed.
const TITLE: &str = "= Answers of pasture 1b0b39c18e, built unmodified: compare/keep, seed ";

// ---- the notation

/// Bytes: pairs of hex digits, or where `text` is said what can be read in quotes; one that is repeated often once, and the length with all
/// of them, after which empty quotes keep digits apart.
fn bytes(b: &[u8], text: bool) -> String {
    let (mut s, mut quoted, mut at) = (String::new(), false, 0);
    while at < b.len() {
        let x = b[at];
        let end = at + b[at..].iter().take_while(|y| **y == x).count();
        let often = end - at >= if end == b.len() { 8 } else { 32 };
        let plain = text && (0x20..0x7f).contains(&x) && x != b'"' && !often;
        if plain != quoted {
            s.push('"');
            quoted = plain;
        }
        if often {
            s += &format!("{:02x}*{}{}", x, end, if end < b.len() { "\"\"" } else { "" });
        } else if plain {
            s.push(x as char);
        } else {
            s += &format!("{:02x}", x);
        }
        at = if often { end } else { at + 1 };
    }
    if quoted {
        s.push('"');
    }
    if s.is_empty() { "\"\"".to_string() } else { s }
}

fn hex(b: &[u8]) -> String {
    bytes(b, false)
}

/// A Custom's name is in hex, in halves.
fn definition(a: &Attribute) -> String {
    let has = match a.code {
        17 => format!(".{}.{}.{:x}.{:x}", a.n, a.min_alignment, (a.uuid >> 64) as u64, a.uuid as u64),
        _ if a.n > 0 => format!(".{}", a.n),
        _ => String::new(),
    };
    format!("{}:{}{}", bytes(&a.name, true), a.code, has)
}

fn layout(l: &Layout) -> String {
    let members: String = l.attributes.iter().map(|(a, o)| format!(",{}@{}", definition(a), o)).collect();
    format!("{}/{}/{}{}", l.size, l.alignment, l.attributes.len(), members)
}

fn range(b: &Buffer) -> String {
    let storage = if b.storage == Storage::Columns { "|" } else { "" };
    format!("{}{}-{}/{}", storage, b.start, b.end, b.count)
}

/// Three sheets, each after its length.
fn framed(s: &Sheets) -> String {
    let sheets = [s.source.bytes(), s.target.bytes(), s.mapping.bytes()];
    hex(&sheets.iter().flat_map(|b| (b.len() as u16).to_be_bytes().into_iter().chain(b.iter().copied())).collect::<Vec<u8>>())
}

// ---- the answers

/// An answer's number and its line.
type Answer = (u8, String);

/// The number of a case that both sides accept, or that the Rust panics on; none where the Rust could not be asked, accepts alone, or gives a
/// NaN of other bits.
fn number(case: &Case) -> Option<u8> {
    match check::check(case).first() {
        Some(v) if v.differs.is_some() => panic!("the library and the Rust differ: compare/run shows where"),
        Some(v) if v.ours == 0 && v.rust == Rust::Accepts && v.nans.both == v.nans.same => Some(0),
        Some(v) if v.rust == Rust::Panics(v.ours) => Some(v.ours as u8),
        _ => None,
    }
}

fn plan(s: &Sheets) -> Option<Answer> {
    let n = number(&Case::Plan(s.clone()))?;
    if n > 0 {
        return Some((n, format!("sheets {} = {} {{{} {} 0}}", framed(s), n, layout(&EMPTY), layout(&EMPTY))));
    }
    let listing = kept::listing_of(s);
    let mut after = listing.clone().into_bytes();
    after.resize(TEXT, 0);
    Some((n, format!("list {} {} = {} {}", framed(s), hex(&[0; TEXT]), listing.len(), bytes(&after, true))))
}

fn conversion_line(s: &Sheets, sb: &Buffer, tb: &Buffer, c: &kept::Converted, n: u8) -> String {
    let after = if n == 0 { &c.after } else { &c.before };
    format!("convert {} {} {} {} {} = {} {}", framed(s), range(sb), range(tb), hex(&c.source), hex(&c.before), n, hex(after))
}

fn conversion(s: &Sheets, sb: &Buffer, tb: &Buffer) -> Option<Answer> {
    let n = number(&Case::Convert(s.clone(), sb.clone(), tb.clone()))?;
    // A plan that is refused is kept as one.
    let c = kept::converted(s, sb, tb)?;
    Some((n, conversion_line(s, sb, tb, &c, n)))
}

/// The sheet that gives a layout: its offsets and alignment, where they give its size too.
fn sheet_of(l: &Layout) -> Option<Vec<u8>> {
    let base = Base::Given(l.alignment as u16, l.attributes.iter().map(|(a, o)| (a.clone(), *o as u16)).collect());
    if lines::layout(&base).as_ref() == Ok(l) { Some(sheet::layout_bytes(&base)) } else { None }
}

fn point(s: &Handed, t: &Handed, sf: &Fill, tf: &Fill) -> Option<Answer> {
    let n = number(&Case::Point(s.clone(), t.clone(), sf.clone(), tf.clone()))?;
    let (s, t) = (check::value(s), check::value(t));
    let (source, before) = (sf.bytes(s.size), tf.bytes(t.size));
    let after = if n == 0 { kept::point_after(&s, &t, &source, &before) } else { before.clone() };
    Some((n, format!("point {} {} {} {} = {} {}", layout(&s), layout(&t), hex(&source), hex(&before), n, hex(&after))))
}

fn call(start: &Handed, calls: &[Call], k: usize) -> Option<Answer> {
    let l = check::value(&Handed { calls: calls[..k].to_vec(), ..start.clone() });
    let c = &calls[k];
    let one = Handed { base: sheet::read_layout(&sheet_of(&l)?).ok()?, calls: vec![], changes: vec![] };
    let n = number(&Case::Calls(one, vec![c.clone()]))?;
    let how = c.packing.map_or("d".to_string(), |p| format!("p{}", p));
    let after = rust::add(&rust::handed(&l), c).map_or(EMPTY, |l| rust::plain(&l));
    let after = if n == 0 { after } else { EMPTY };
    Some((n, format!("add {} {} {} = {} {}", layout(&l), definition(&c.attribute), how, n, layout(&after))))
}

/// Looks an attribute of either layout up in the first.
fn lookup(s: &Layout, t: &Layout, k: usize) -> Option<Answer> {
    let l = rust::handed(s);
    let list = if k % 2 == 0 { &s.attributes } else { &t.attributes };
    let a = &list.get(k / 2 % list.len().max(1))?.0;
    let (named, found, offset) = rust::lookup(&l, a);
    let [named, place] = [named, found].map(|p| p.map_or(NOTHING, |p| p as u64));
    let offset = offset.unwrap_or(NOTHING);
    Some((u8::from(found.is_none()), format!("lookup {} {} = {} {} {}", layout(s), definition(a), named, place, offset)))
}

/// Two layouts, or one and the same in another order.
fn comparison(s: &Layout, t: &Layout, k: usize) -> Option<Answer> {
    let mut turned = s.clone();
    turned.attributes.reverse();
    let t = if k % 2 == 0 { &turned } else { t };
    let same = rust::handed(s).compare_without_offsets(&rust::handed(t));
    Some((u8::from(!same), format!("compare {} {} = {}", layout(s), layout(t), u8::from(same))))
}

/// Sixteen values of a cast: two boundary values, of a float four NaN, and others.
fn cast(from: u8, to: u8, r: &mut Rng) -> String {
    let all = casts::patterns(casts::scalar(from), 1 << 16, r);
    let nans: Vec<u64> = all.iter().copied().filter(|x| casts::is_nan(casts::scalar(from), *x)).collect();
    let mut any = |list: &[u64]| list[r.below(list.len() as u64) as usize];
    let list: Vec<u64> = (0..16)
        .map(|k| match k {
            0 | 1 => all[k],
            2..=5 if !nans.is_empty() => any(&nans),
            _ => any(&all),
        })
        .collect();
    let sheet = |code| Sheet::Says(Base::Placed(vec![(casts::attribute(code), 0)]));
    let sheets = Sheets { source: sheet(from), target: sheet(to), mapping: Sheet::Says(Mapping::default()) };
    let buffer = Buffer::whole(Storage::Interleaved, 16);
    let source = casts::points(from, &list);
    let before = vec![0x55; 16 * casts::attribute(to).size() as usize];
    let after = kept::bytes_after(&sheets, &source, &before, &buffer, &buffer).expect("a cast");
    let mut ours = before.clone();
    let counted = library::convert(&sheets.source.bytes(), &sheets.target.bytes(), &[0], &source, &buffer, &mut ours, &buffer);
    assert!(counted.is_ok() && ours == after, "the library and the Rust differ, or have NaN of other bits: compare/run shows which");
    conversion_line(&sheets, &buffer, &buffer, &kept::Converted { source, before, after }, 0)
}

/// Two points with a ByteArray or a Custom and a U16 into the last two of three, which have them in another order. Of a long one all bytes
/// but the first three and the last three are the same.
fn copied(a: Attribute, (from, to): (Storage, Storage), r: &mut Rng) -> String {
    let n = a.n as usize;
    let number = |code| Attribute::plain("b", code);
    let bases = [vec![(a.clone(), 0), (number(2), 0)], vec![(number(4), 0), (a, 0)]].map(Base::Placed);
    let [s, t] = [0, 1].map(|k| lines::layout(&bases[k]).expect("a layout"));
    let [source, target] = bases.map(Sheet::Says);
    let sheets = Sheets { source, target, mapping: Sheet::Says(Mapping::default()) };
    let (sb, tb) = (Buffer::whole(from, 2), Buffer { start: 1, ..Buffer::whole(to, 3) });
    let mut source = Fill { extra: 0, seed: r.next() & !1 }.bytes(2 * s.width(from));
    for i in (0..2).filter(|_| n > 255) {
        let at = s.start(from, 2, 0, i);
        source[at + 3..at + n - 3].fill(0xa0 + i as u8);
    }
    let before = vec![0x55; 3 * t.width(to) as usize];
    let after = kept::bytes_after(&sheets, &source, &before, &sb, &tb).expect("a plan");
    let mut ours = before.clone();
    let counted = library::convert(&sheets.source.bytes(), &sheets.target.bytes(), &[0], &source, &sb, &mut ours, &tb);
    assert!(counted == Ok(0) && ours == after, "the library and the Rust differ: compare/run shows where");
    conversion_line(&sheets, &sb, &tb, &kept::Converted { source, before, after }, 0)
}

/// A Custom of 16 bytes.
fn custom(min_alignment: u8) -> Attribute {
    Attribute { n: 16, min_alignment, uuid: random::SEAL, ..Attribute::plain("a", 17) }
}

/// Two attributes of one name whose Customs differ in one thing: the plan and the point are refused, the other is not found, and the layouts
/// are not the same.
fn unequal(other: Attribute) -> Vec<String> {
    let bases = [custom(16), other].map(|a| Base::Placed(vec![(a, 0)]));
    let [s, t] = [0, 1].map(|k| lines::layout(&bases[k]).expect("a layout"));
    let [a, b] = bases.clone().map(|base| Handed { base, calls: vec![], changes: vec![] });
    let [source, target] = bases.map(Sheet::Says);
    let (one, fill) = (plan(&Sheets { source, target, mapping: Sheet::Says(Mapping::default()) }), Fill { extra: 0, seed: 2 });
    [one, point(&a, &b, &fill, &fill), lookup(&s, &t, 1), comparison(&s, &t, 1)].map(|answer| answer.expect("an answer").1).to_vec()
}

/// What a case gives to keep, each with its place in KEPT.
fn answers(case: &Case, k: usize) -> Vec<(usize, Option<Answer>)> {
    match case {
        Case::Plan(s) => vec![(0, plan(s))],
        Case::Convert(s, a, b) => {
            let which = match (a.storage, b.storage) {
                (Storage::Interleaved, Storage::Interleaved) => 1,
                (Storage::Interleaved, Storage::Columns) => 6,
                (Storage::Columns, Storage::Interleaved) => 7,
                (Storage::Columns, Storage::Columns) => 8,
            };
            vec![(which, conversion(s, a, b))]
        }
        Case::Point(s, t, a, b) => {
            let (x, y) = (check::value(s), check::value(t));
            let sound = lines::is_sound(&x) && lines::is_sound(&y);
            let looked = if sound { (lookup(&x, &y, k), comparison(&x, &y, k)) } else { (None, None) };
            vec![(2, point(s, t, a, b)), (4, looked.0), (5, looked.1)]
        }
        Case::Calls(h, calls) if !calls.is_empty() => vec![(3, call(h, calls, k % calls.len()))],
        _ => vec![],
    }
}

fn main() {
    let seed: u64 = std::env::args().nth(1).expect("SEED").parse().expect("a number");
    let path = std::env::args().nth(2).expect("FILE");
    rust::silence();
    let mut r = Rng::new(seed, 0);
    let mut list: Vec<String> = casts::pairs().into_iter().map(|(from, to)| cast(from, to, &mut r)).collect();
    let (points, columns) = (Storage::Interleaved, Storage::Columns);
    for (from, to, alignment) in [(points, points, 0), (points, columns, 2), (columns, points, 16), (columns, columns, 32)] {
        list.extend([256, 257, 300].map(|n| copied(Attribute { n, ..Attribute::plain("a", 16) }, (from, to), &mut r)));
        list.push(copied(custom(alignment), (from, to), &mut r));
    }
    let one = custom(16);
    let named = |bit: u32| Attribute { uuid: one.uuid ^ 1 << bit, ..one.clone() };
    for other in [Attribute { n: 17, ..one.clone() }, custom(8), named(64), named(1)] {
        list.extend(unequal(other));
    }
    let (mut taken, mut accepted) = ([0; KEPT.len()], [0; KEPT.len()]);
    for k in 0.. {
        for (which, answer) in random::cases(seed, k).iter().flat_map(|case| answers(case, k as usize)) {
            let wanted = |n: u8| taken[which] < KEPT[which] && (n > 0 || accepted[which] < KEPT[which] * 3 / 4);
            if let Some((n, line)) = answer.filter(|a| a.1.len() <= LONGEST && wanted(a.0)) {
                taken[which] += 1;
                accepted[which] += usize::from(n == 0);
                list.push(line);
            }
        }
        if taken == KEPT {
            break;
        }
    }
    // The lines before the title are written by hand, and stay.
    let old = std::fs::read_to_string(&path).expect("the file is read");
    let front = &old[..old.find(TITLE).expect("the title is there")];
    std::fs::write(&path, format!("{}{}{}.\n{}\n", front, TITLE, seed, list.join("\n"))).expect("the file is written");
    println!("{}: {} answers", path, list.len());
}
