//! bench POINTS plain|any [SVG]: times the Rust's conversion and the library's on the same buffers, in turn, least of many runs; see
//! compare/bench. The plans of both are made once, outside the timed part, and the library's is handed to each call by value.
//! bench lengths: the LAS-like plan over more and more points, plans of more and more mappings, and calls on an empty range.
//! bench columns POINTS: the LAS-like plan and five pairs of datatypes over each pair of storages.
//! bench arrays: the copy of a ByteArray of 10, 300 and 60,000, beside plain copies of the same bytes.
//! bench integers NAME=OBJECT..: the casts from integers to floats, by the Rust and by each build of the library, a shared object.
//! bench lost POINTS plain|any: what counting the lost components costs. All other modes convert without a count, but for calls by sheets.
use compare::casts::{attribute, pairs, NAMES};
use compare::check::is_nan;
use compare::input::*;
use compare::library::Build;
use compare::random::Rng;
use compare::rust::Points;
use compare::{library, lost, rust, sheet};
use pasture::containers::{BorrowedBuffer, InterleavedBuffer, InterleavedBufferMut};
use pasture::layout::conversion::BufferLayoutConverter;
use pasture::layout::PointLayout;
use std::ptr::copy_nonoverlapping;
use std::time::Instant;

struct Time {
    name: String,
    rust: f64,
    ours: f64,
}

impl Time {
    fn ratio(&self) -> f64 {
        self.rust / self.ours
    }
}

/// The same reference, of which the compiler knows nothing: so no conversion is left out or taken out of its loop.
fn opaque<T>(x: T) -> T {
    let same = unsafe { std::ptr::read_volatile(&x) };
    std::mem::forget(x);
    same
}

#[derive(Clone, Copy, PartialEq)]
enum Values {
    /// Random bytes: floats may be NaN, infinities, subnormals.
    Any,
    /// The same, but floats are numbers of either sign below 500,000.
    Plain,
    /// Plain, but integers are 0 to 99, or -50 to 49 where they have a sign.
    Small,
}

/// A code's numbers: how many, and of how many bytes each.
fn numbers(code: u8) -> (usize, usize) {
    let widths = [1, 1, 2, 2, 4, 4, 8, 8, 4, 8, 1, 2, 4, 4, 8];
    widths.get(code as usize).map_or((0, 0), |w| (if code < 10 { 1 } else { 3 }, *w))
}

fn bytes(l: &Layout, b: &Buffer, values: Values) -> Vec<u8> {
    let mut bytes = Fill { extra: (b.count as u64 * l.width(b.storage)) as i64, seed: 2 }.bytes(0);
    let r = &mut Rng::new(3, 3);
    for i in (0..b.count).filter(|_| values != Values::Any) {
        for (place, (a, _)) in l.attributes.iter().enumerate() {
            let (n, width) = numbers(a.code);
            for at in (0..n).map(|k| l.start(b.storage, b.count, place, i) + k * width) {
                let mut number = || (r.next() >> 11) as f64 / (1u64 << 53) as f64 * 1e6 - 5e5;
                let value = match a.code {
                    8 | 12 => (number() as f32).to_le_bytes().to_vec(),
                    9 | 14 => number().to_le_bytes().to_vec(),
                    _ if values == Values::Plain => continue,
                    1 | 3 | 5 | 7 | 13 => (r.below(100) as i64 - 50).to_le_bytes().to_vec(),
                    _ => r.below(100).to_le_bytes().to_vec(),
                };
                bytes[at..at + width].copy_from_slice(&value[..width]);
            }
        }
    }
    bytes
}

/// Any NaN matches any NaN: numbers of the width that the target's floats have.
fn same(a: &[u8], b: &[u8], code: u8) -> bool {
    let width = match code {
        8 | 12 => 4,
        9 | 14 => 8,
        _ => return a == b,
    };
    a.chunks(width).zip(b.chunks(width)).all(|(x, y)| x == y || is_nan(x) && is_nan(y))
}

/// The plans of both sides, and the layouts.
struct Plans<'a> {
    rust: BufferLayoutConverter<'a>,
    ours: library::CPlan,
    s: &'a PointLayout,
    t: &'a PointLayout,
}

impl<'a> Plans<'a> {
    /// By name; missing names are passed over.
    fn new((from, to): &(Base, Base), s: &'a PointLayout, t: &'a PointLayout) -> Plans<'a> {
        let mapping = Mapping { with_default: true, lines: vec![] };
        let sheets = [sheet::layout_bytes(from), sheet::layout_bytes(to), sheet::mapping_bytes(&mapping)];
        let ours = library::plan_of_sheets(&sheets[0], &sheets[1], &sheets[2]).unwrap();
        Plans { rust: rust::plan(s, t, &mapping).unwrap(), ours, s, t }
    }
}

/// A conversion of buffers of two storages, which either side can carry out: on the Rust's bytes, or, since it keeps each column apart, the
/// library on its own.
struct Work<'a> {
    plans: &'a Plans<'a>,
    source: Points,
    target: Points,
    own: Option<(Vec<u8>, Vec<u8>)>,
    from: Buffer,
    to: Buffer,
}

impl<'a> Work<'a> {
    fn new(plans: &'a Plans, storages: (Storage, Storage), own: bool, points: usize, values: Values) -> Work<'a> {
        let (from, to) = (Buffer::whole(storages.0, points as u32), Buffer::whole(storages.1, points as u32));
        let before = vec![0x55; points * rust::plain(plans.t).width(to.storage) as usize];
        let bytes = bytes(&rust::plain(plans.s), &from, values);
        let (source, target) = (rust::points(plans.s, &from, &bytes), rust::points(plans.t, &to, &before));
        Work { plans, source, target, own: own.then_some((bytes, before)), from, to }
    }
    fn rust(&mut self) {
        let n = self.from.count as usize;
        rust::convert_range(&self.plans.rust, opaque(&self.source), 0..n, opaque(&mut self.target), 0..n);
    }
    fn ours(&mut self) -> u32 {
        let (source, target) = lent(&mut self.own, &self.source, &mut self.target);
        opaque(library::convert_uncounted(*opaque(&self.plans.ours), opaque(source), &self.from, opaque(target), &self.to))
    }
    /// With the count.
    fn counted(&mut self) -> Result<u64, u32> {
        let (source, target) = lent(&mut self.own, &self.source, &mut self.target);
        opaque(library::convert_by_plan(*opaque(&self.plans.ours), opaque(source), &self.from, opaque(target), &self.to))
    }
    fn by(&mut self, build: &Build) -> u32 {
        let (source, target) = lent(&mut self.own, &self.source, &mut self.target);
        opaque(build.convert_uncounted(*opaque(&self.plans.ours), opaque(source), &self.from, opaque(target), &self.to))
    }
    /// A plain copy of so many bytes every so many, from the source's start to the target's.
    fn copied(&mut self, n: usize, stride: usize) {
        let (source, target) = lent(&mut self.own, &self.source, &mut self.target);
        assert!(n <= stride && source.len() == target.len() && source.len() % stride == 0);
        let (source, target, n, stride) = (opaque(source), opaque(target), opaque(n), opaque(stride));
        for at in (0..source.len()).step_by(stride) {
            unsafe { copy_nonoverlapping(source.as_ptr().add(at), target.as_mut_ptr().add(at), n) };
        }
    }
    /// Both once, untimed, each into bytes hex 55, and the bytes compared.
    fn compared(mut self, name: &str) -> Self {
        self.rust();
        let theirs = self.target.bytes();
        self.target = rust::points(self.plans.t, &self.to, &vec![0x55; theirs.len()]);
        assert_eq!(self.ours(), 0, "{}", name);
        let ours = self.own.as_ref().map_or_else(|| self.target.bytes(), |own| own.1.clone());
        let code = rust::plain(self.plans.t).attributes[0].0.code;
        assert!(same(&theirs, &ours, code), "{}: the bytes differ", name);
        self
    }
}

/// The bytes of a work's source and target.
fn lent<'b>(own: &'b mut Option<(Vec<u8>, Vec<u8>)>, source: &'b Points, target: &'b mut Points) -> (&'b [u8], &'b mut [u8]) {
    match (own, source, target) {
        (Some((source, target)), _, _) => (&source[..], &mut target[..]),
        (None, Points::Interleaved(s), Points::Interleaved(t)) => (s.get_point_range_ref(0..s.len()), t.get_point_range_mut(0..t.len())),
        _ => unreachable!("columns are the library's own"),
    }
}

/// Nanoseconds a point of each work, the Rust's and the library's, all in turn.
fn least(works: &mut [Work], points: usize) -> Vec<(f64, f64)> {
    let repeated = (200_000 / points).max(1);
    let runs = if points > 100_000 { 15 } else { 61 };
    let mut least = vec![(f64::MAX, f64::MAX); works.len()];
    let took = |began: Instant| began.elapsed().as_nanos() as f64 / (repeated * points) as f64;
    for _ in 0..runs {
        for (work, least) in works.iter_mut().zip(&mut least) {
            let began = Instant::now();
            (0..repeated).for_each(|_| work.rust());
            least.0 = least.0.min(took(began));
            let began = Instant::now();
            (0..repeated).for_each(|_| assert_eq!(work.ours(), 0));
            least.1 = least.1.min(took(began));
        }
    }
    least
}

/// A conversion over buffers of these pairs of storages. Where there are several, each finds its bytes as cold.
fn times(name: &str, bases: (Base, Base), storages: &[(Storage, Storage)], points: usize, values: Values) -> Vec<Time> {
    let (s, t) = (rust::layout(&bases.0).unwrap(), rust::layout(&bases.1).unwrap());
    let plans = Plans::new(&bases, &s, &t);
    let work = |&pair| Work::new(&plans, pair, storages.len() > 1, points, values).compared(name);
    let mut works: Vec<Work> = storages.iter().map(work).collect();
    least(&mut works, points).into_iter().map(|(rust, ours)| Time { name: name.to_string(), rust, ours }).collect()
}

fn time(name: String, from: Base, to: Base, points: usize, values: Values) -> Time {
    times(&name, (from, to), &[(Storage::Interleaved, Storage::Interleaved)], points, values).remove(0)
}

fn pair(from: u8, to: u8) -> String {
    format!("{} to {}", NAMES[from as usize], NAMES[to as usize])
}

fn single(code: u8) -> Base {
    Base::Placed(vec![(Attribute { n: if code == 16 { 10 } else { 0 }, ..attribute(code) }, 0)])
}

/// The LAS-like plan: eight attributes Packed 1 into four Default ones.
fn las() -> (Base, Base) {
    let list = |names: &[(&str, u8)], packing| {
        Base::Placed(names.iter().map(|(n, code)| (Attribute::plain(*n, *code), packing)).collect())
    };
    let source = [
        ("Position3D", 13), ("Intensity", 2), ("ReturnNumber", 0), ("Classification", 0), ("ScanAngleRank", 1), ("UserData", 0),
        ("PointSourceID", 2), ("GpsTime", 9),
    ];
    (list(&source, 1), list(&[("Position3D", 14), ("Intensity", 2), ("Classification", 0), ("GpsTime", 9)], 0))
}

/// So many attributes, each a U16 onto a U32 of the same name.
fn wide(mappings: u8) -> (Base, Base) {
    let list = |code| Base::Placed((0..mappings).map(|k| (Attribute::plain([b'A' + k], code), 0)).collect());
    (list(2), list(4))
}

/// Nanoseconds of one call on the empty range of empty buffers: the Rust's, the library's by its plan, and by sheets.
fn empty_calls(from: Base, to: Base) -> [f64; 3] {
    let (s, t) = (rust::layout(&from).unwrap(), rust::layout(&to).unwrap());
    let plan = rust::plan(&s, &t, &Mapping::default()).unwrap();
    let (s_sheet, t_sheet) = (sheet::layout_bytes(&from), sheet::layout_bytes(&to));
    let ours = library::plan_of_sheets(&s_sheet, &t_sheet, &[0]).unwrap();
    let source = rust::buffer(&s, 0, &[]);
    let mut target = rust::buffer(&t, 0, &[]);
    let none = Buffer::whole(Storage::Interleaved, 0);
    let mut least = [f64::MAX; 3];
    for run in 0..3 * 61 {
        let began = Instant::now();
        for _ in 0..2_000 {
            match run % 3 {
                0 => plan.convert_into_range(opaque(&source), 0..0, opaque(&mut target), 0..0),
                1 => assert_eq!(opaque(library::convert_uncounted(*opaque(&ours), &[], &none, &mut [], &none)), 0),
                _ => assert_eq!(opaque(library::convert(opaque(&s_sheet), &t_sheet, &[0], &[], &none, &mut [], &none)), Ok(0)),
            }
        }
        least[run % 3] = least[run % 3].min(began.elapsed().as_nanos() as f64 / 2_000.0);
    }
    least
}

/// Two attributes, each beside a U8 that is not mapped.
fn beside(from: Attribute, to: Attribute) -> (Base, Base) {
    let list = |a, other: &str| Base::Placed(vec![(a, 0), (Attribute::plain(other, 0), 0)]);
    (list(from, "s"), list(to, "t"))
}

fn columns(points: usize) {
    use Storage::{Columns, Interleaved};
    let storages = [(Interleaved, Interleaved), (Interleaved, Columns), (Columns, Interleaved), (Columns, Columns)];
    let mut list = vec![("LAS-like plan".to_string(), las())];
    for (a, b) in [(0, 0), (2, 9), (9, 8), (13, 14), (14, 12)] {
        let name = pair(a, b);
        list.push((name.clone(), (single(a), single(b))));
        list.push((format!("{} beside a U8", name), beside(attribute(a), attribute(b))));
    }
    let pairs = ["interleaved", "to columns", "from columns", "columns to columns"];
    println!("| {} points | {} |\n|---|---|---|---|---|", points, pairs.join(" | "));
    let (mut rust, mut interleaved) = ((f64::MAX, String::new()), (f64::MAX, String::new()));
    for (name, bases) in list {
        let times = times(&name, bases, &storages, points, Values::Plain);
        let cells: Vec<String> = times.iter().map(|t| format!("{:.2} ({:.2})", t.ours, t.ratio())).collect();
        println!("| {} | {} |", name, cells.join(" | "));
        for (t, pair) in times.iter().zip(pairs).skip(1) {
            for (slowest, ratio) in [(&mut rust, t.ratio()), (&mut interleaved, times[0].ours / t.ours)] {
                if ratio < slowest.0 {
                    *slowest = (ratio, format!("{}, {}", name, pair));
                }
            }
        }
    }
    println!("\nThe least of columns: Rust's time over the library's {:.2} ({});", rust.0, rust.1);
    println!("the library's time for interleaved points over that for columns {:.2} ({}).", interleaved.0, interleaved.1);
}

/// Nanoseconds a point of the copy of a ByteArray, all in turn: the library's, the Rust's, a plain copy of each array, and one of the whole
/// buffer, as many of them in a row as copy 20 MB.
fn array(name: &str, bases: (Base, Base), n: usize, points: usize) -> [f64; 4] {
    let (s, t) = (rust::layout(&bases.0).unwrap(), rust::layout(&bases.1).unwrap());
    let plans = Plans::new(&bases, &s, &t);
    let stride = s.size_of_point_entry() as usize;
    let mut work = Work::new(&plans, (Storage::Interleaved, Storage::Interleaved), false, points, Values::Plain).compared(name);
    let repeated = (20_000_000 / (n * points)).max(1);
    let runs = if repeated > 1 { 61 } else { 15 };
    let mut least = [f64::MAX; 4];
    for run in 0..4 * runs {
        let began = Instant::now();
        for _ in 0..repeated {
            match run % 4 {
                0 => assert_eq!(work.ours(), 0),
                1 => work.rust(),
                2 => work.copied(n, stride),
                _ => work.copied(points * stride, points * stride),
            }
        }
        least[run % 4] = least[run % 4].min(began.elapsed().as_nanos() as f64 / (repeated * points) as f64);
    }
    least
}

fn arrays() {
    let by = ["library, ns", "Rust, ns", "memcpy of each array, ns", "memcpy of the buffer, ns", "each array over library", "buffer over library"];
    println!("| copy | points | {} |\n|---|---|---|---|---|---|---|---|", by.join(" | "));
    let mut slowest = [(f64::MAX, String::new()), (f64::MAX, String::new())];
    for other in [false, true] {
        for n in [10, 300, 60_000] {
            for points in [240_000 / n, 90_000_000 / n] {
                let a = Attribute { n: n as u16, ..attribute(16) };
                let alone = || Base::Placed(vec![(a.clone(), 0)]);
                let bases = if other { beside(a.clone(), a.clone()) } else { (alone(), alone()) };
                let name = format!("ByteArray {}{}", n, if other { " beside a U8" } else { "" });
                let [ours, rust, each, whole] = array(&name, bases, n, points);
                let (by_array, by_buffer) = (each / ours, whole / ours);
                println!(
                    "| {} | {} | {:.2} | {:.2} | {:.2} | {:.2} | {:.2} | {:.2} |",
                    name, points, ours, rust, each, whole, by_array, by_buffer
                );
                // The buffer has more bytes than the arrays where a U8 stands beside them.
                for (slowest, ratio) in slowest.iter_mut().zip([by_array, if other { f64::MAX } else { by_buffer }]) {
                    if n > 10 && ratio < slowest.0 {
                        *slowest = (ratio, format!("{}, {} points", name, points));
                    }
                }
            }
        }
    }
    let [each, whole] = slowest;
    println!("\nThe least of memcpy's time over the library's at 300 and 60,000: of each array {:.2} ({});", each.0, each.1);
    println!("of the buffer, where the ByteArray stands alone, {:.2} ({}).", whole.0, whole.1);
}

/// Nanoseconds a point, all in turn: the Rust's, and each build's.
fn by_builds(from: u8, to: u8, builds: &[Build], points: usize, values: Values) -> Vec<f64> {
    let (s, t) = (rust::layout(&single(from)).unwrap(), rust::layout(&single(to)).unwrap());
    let plans = Plans::new(&(single(from), single(to)), &s, &t);
    let mut work = Work::new(&plans, (Storage::Interleaved, Storage::Interleaved), false, points, values).compared(&pair(from, to));
    let right = work.target.bytes();
    for build in builds {
        work.target = rust::points(&t, &work.to, &vec![0x55; right.len()]);
        assert!(work.by(build) == 0 && work.target.bytes() == right, "{} by {}: the bytes differ", pair(from, to), build.name);
    }
    let repeated = (200_000 / points).max(1);
    let runs = if points > 100_000 { 31 } else { 61 };
    let mut least = vec![f64::MAX; 1 + builds.len()];
    for _ in 0..runs {
        for (k, least) in least.iter_mut().enumerate() {
            let began = Instant::now();
            for _ in 0..repeated {
                match k {
                    0 => work.rust(),
                    _ => assert_eq!(work.by(&builds[k - 1]), 0),
                }
            }
            *least = least.min(began.elapsed().as_nanos() as f64 / (repeated * points) as f64);
        }
    }
    least
}

/// The sixteen casts from integers to floats, and the Vec3 pairs through them. The first build is the one that the Rust is held against.
fn integers(builds: &[Build]) {
    let scalars = (0..8).flat_map(|a| [(a, 8), (a, 9)]);
    let casts: Vec<(u8, u8)> = scalars.chain([10, 11, 13].into_iter().flat_map(|a| [(a, 12), (a, 14)])).collect();
    for (values, what) in [(Values::Any, "any integers"), (Values::Small, "small integers")] {
        for points in [1_000_000, 1_000] {
            if (values, points) != (Values::Any, 1_000_000) {
                println!();
            }
            let names: Vec<String> = builds.iter().map(|b| format!("{}, ns", b.name)).collect();
            println!("| {} points, {} | Rust, ns | {} | Rust over {} |", points, what, names.join(" | "), builds[0].name);
            println!("|---|---|{}---|", "---|".repeat(builds.len()));
            for &(from, to) in &casts {
                let times = by_builds(from, to, builds, points, values);
                let cells: Vec<String> = times.iter().map(|t| format!("{:.2}", t)).collect();
                println!("| {} | {} | {:.2} |", pair(from, to), cells.join(" | "), times[0] / times[1]);
            }
        }
    }
}

/// Nanoseconds a point of one conversion, all in turn: the Rust's, the library's, and the library's with the count.
fn with_count(name: &str, bases: (Base, Base), points: usize, values: Values) -> [f64; 3] {
    let (s, t) = (rust::layout(&bases.0).unwrap(), rust::layout(&bases.1).unwrap());
    let plans = Plans::new(&bases, &s, &t);
    let mut work = Work::new(&plans, (Storage::Interleaved, Storage::Interleaved), false, points, values).compared(name);
    let (source, right) = (work.source.bytes(), work.target.bytes());
    let due: u64 = lost::by_mapping(&rust::rows(&plans.rust), &rust::plain(&s), &source, &work.from).iter().sum();
    work.target = rust::points(&t, &work.to, &vec![0x55; right.len()]);
    assert!(work.counted() == Ok(due) && work.target.bytes() == right, "{}: the count or the bytes differ", name);
    let repeated = (200_000 / points).max(1);
    let runs = if points > 100_000 { 15 } else { 61 };
    let mut least = [f64::MAX; 3];
    for run in 0..3 * runs {
        let began = Instant::now();
        for _ in 0..repeated {
            match run % 3 {
                0 => work.rust(),
                1 => assert_eq!(work.ours(), 0),
                _ => assert_eq!(work.counted(), Ok(due)),
            }
        }
        least[run % 3] = least[run % 3].min(began.elapsed().as_nanos() as f64 / (repeated * points) as f64);
    }
    least
}

/// The 110 casts, five copies and the LAS-like plan, with and without the count.
fn counted(points: usize, values: Values) {
    let list = pairs().into_iter().chain([0, 5, 9, 14, 16].map(|c| (c, c))).map(|(a, b)| (pair(a, b), (single(a), single(b))));
    println!("| conversion | Rust, ns | uncounted, ns | counted, ns | Rust over counted | counted over uncounted |\n|---|---|---|---|---|---|");
    let (mut of_rust, mut of_count) = (vec![], vec![]);
    for (name, bases) in list.chain([("LAS-like plan".to_string(), las())]) {
        let [theirs, ours, counted] = with_count(&name, bases, points, values);
        let (ratio, cost) = (theirs / counted, counted / ours);
        println!("| {} | {:.2} | {:.2} | {:.2} | {:.2} | {:.2} |", name, theirs, ours, counted, ratio, cost);
        of_rust.push((ratio, name.clone()));
        of_count.push((cost, name));
    }
    let mean = |list: &[(f64, String)]| (list.iter().map(|x| x.0.ln()).sum::<f64>() / list.len() as f64).exp();
    let slowest = of_rust.iter().min_by(|a, b| a.0.total_cmp(&b.0)).unwrap();
    let dearest = of_count.iter().max_by(|a, b| a.0.total_cmp(&b.0)).unwrap();
    println!("\nslowest: {}", slowest.1);
    println!("counted over uncounted: most {:.2} ({}), geometric mean {:.2}", dearest.0, dearest.1, mean(&of_count));
    println!("slowest {:.2}, geometric mean {:.2}", slowest.0, mean(&of_rust));
}

fn lengths() {
    println!("| points of the LAS-like plan | Rust, ns a point | library, ns a point |\n|---|---|---|");
    for points in [10_000, 100_000, 1_000_000, 10_000_000] {
        let (from, to) = las();
        let t = time("LAS-like plan".into(), from, to, points, Values::Plain);
        println!("| {} | {:.2} | {:.2} |", points, t.rust, t.ours);
    }
    println!("\n| mappings of U16 to U32, 100,000 points | Rust, ns a point and mapping | library, ns a point and mapping |\n|---|---|---|");
    for mappings in [1, 4, 16, 32] {
        let (from, to) = wide(mappings);
        let t = time("mappings".into(), from, to, 100_000, Values::Plain);
        println!("| {} | {:.2} | {:.2} |", mappings, t.rust / mappings as f64, t.ours / mappings as f64);
    }
    println!("\n| mappings of U16 to U32, empty range | Rust, ns a call | library, ns a call | library by sheets, ns a call |\n|---|---|---|---|");
    for mappings in [1, 8, 32] {
        let (from, to) = wide(mappings);
        let [theirs, ours, by_sheets] = empty_calls(from, to);
        println!("| {} | {:.0} | {:.0} | {:.0} |", mappings, theirs, ours, by_sheets);
    }
}

fn main() {
    let argument = |k: usize| std::env::args().nth(k);
    if argument(1).as_deref() == Some("lengths") {
        return lengths();
    }
    if argument(1).as_deref() == Some("arrays") {
        return arrays();
    }
    if argument(1).as_deref() == Some("integers") {
        let load = |word: String| {
            let (name, path) = word.split_once('=').expect("NAME=OBJECT");
            Build::load(name, path).unwrap_or_else(|e| panic!("{}: {}", path, e))
        };
        return integers(&std::env::args().skip(2).map(load).collect::<Vec<Build>>());
    }
    if argument(1).as_deref() == Some("columns") {
        return columns(argument(2).expect("POINTS").parse().expect("a number"));
    }
    let values = |k| if argument(k).as_deref() == Some("plain") { Values::Plain } else { Values::Any };
    if argument(1).as_deref() == Some("lost") {
        return counted(argument(2).expect("POINTS").parse().expect("a number"), values(3));
    }
    let points: usize = argument(1).expect("POINTS").parse().expect("a number");
    let values = values(2);
    let mut times: Vec<Time> = vec![];
    for (a, b) in pairs().into_iter().chain((0..17).map(|c| (c, c))) {
        times.push(time(pair(a, b), single(a), single(b), points, values));
    }
    let (from, to) = las();
    let plan = time("LAS-like plan".into(), from, to, points, values);
    println!("| conversion | Rust, ns | library, ns | ratio |\n|---|---|---|---|");
    for t in times.iter().chain([&plan]) {
        println!("| {} | {:.2} | {:.2} | {:.2} |", t.name, t.rust, t.ours, t.ratio());
    }
    let slowest = times.iter().min_by(|a, b| a.ratio().total_cmp(&b.ratio())).unwrap();
    let mean = (times.iter().map(|t| t.ratio().ln()).sum::<f64>() / times.len() as f64).exp();
    if let Some(path) = argument(3) {
        std::fs::write(path, plot(&times, &plan)).expect("the plot is written");
    }
    println!("\nslowest: {}", slowest.name);
    println!("slowest {:.2}, geometric mean {:.2}, plan {:.2}", slowest.ratio(), mean, plan.ratio());
}

/// A table of colours: rows are source datatypes, columns target datatypes; copies on the diagonal. Blue where the library is faster.
fn plot(times: &[Time], plan: &Time) -> String {
    const CELL: usize = 44;
    let colour = |ratio: f64| {
        let x = ratio.log2().clamp(-2.0, 3.0);
        let (r, g, b) = if x < 0.0 { (214.0, 96.0, 77.0) } else { (67.0, 147.0, 195.0) };
        let w = if x < 0.0 { -x / 2.0 } else { x / 3.0 };
        let mix = |c: f64| (247.0 + (c - 247.0) * w) as u8;
        format!("#{:02x}{:02x}{:02x}", mix(r), mix(g), mix(b))
    };
    let mut out = String::new();
    let mut text = |x: usize, y: usize, anchor: &str, s: &str| {
        out += &format!("<text x=\"{}\" y=\"{}\" text-anchor=\"{}\">{}</text>\n", x, y, anchor, s);
    };
    let (left, top) = (90, 80);
    text(10, 20, "start", "Rust's time over the library's: above 1 the library is faster. Rows: source; columns: target; diagonal: copies.");
    text(10, 40, "start", &format!("LAS-like plan: {:.2}", plan.ratio()));
    for (k, n) in NAMES.iter().enumerate() {
        text(left - 8, top + k * CELL + 27, "end", n);
        text(left + k * CELL + CELL / 2, top - 8, "middle", &n.replace("ByteArray", "Bytes").replace("Vec", "V"));
    }
    for t in times {
        let place = |s: &str| NAMES.iter().position(|n| *n == s).unwrap();
        let (a, b) = t.name.split_once(" to ").unwrap();
        let (x, y) = (left + place(b) * CELL, top + place(a) * CELL);
        out += &format!("<rect x=\"{}\" y=\"{}\" width=\"{}\" height=\"{}\" fill=\"{}\"/>\n", x, y, CELL - 2, CELL - 2, colour(t.ratio()));
        out += &format!("<text x=\"{}\" y=\"{}\" text-anchor=\"middle\">{:.1}</text>\n", x + CELL / 2 - 1, y + 26, t.ratio());
    }
    let (width, height) = (left + 17 * CELL + 10, top + 17 * CELL + 10);
    let head = "xmlns=\"http://www.w3.org/2000/svg\" font-family=\"sans-serif\" font-size=\"12\"";
    let ground = "<rect width=\"100%\" height=\"100%\" fill=\"white\"/>";
    format!("<svg {} width=\"{}\" height=\"{}\">\n{}\n{}</svg>\n", head, width, height, ground, out)
}
