//! What was compared, by kind and by refusal.
use crate::check::{value, Nans, Rust, Verdict, KINDS};
use crate::input::{Attribute, Base, Case, Handed, Sheet, PARTS};
use crate::lines::LAST;
use crate::lost::Counts;
use crate::sheet;

/// Where unequal Customs are counted: in the last two both sides accept, in the others both refuse with 14.
const WHERE_MET: [&str; 5] = ["plans", "conversions", "single points", "lookups", "comparisons"];
/// The alignments that a placed Custom must have had.
const ALIGNMENTS: [u8; 4] = [0, 3, 16, 128];
/// Of the eighteen datatypes: how many pairs copy, cast, and do neither.
const TABLE: [u64; 3] = [18, 110, 196];

#[derive(Default, Clone)]
struct Row {
    both_accept: u64,
    both_refuse: u64,
    refused_here: u64,
    no_such_value: u64,
    /// Accepted by both, with a long ByteArray in the case, and with a Custom.
    long: u64,
    custom: u64,
    /// Of conversions, what they lose.
    counts: Counts,
}

/// What of a case is counted: whether it has a ByteArray of 256 bytes or more, or a Custom, and whether it is a layout sheet that places
/// attributes.
#[derive(Clone, Copy)]
pub struct Has {
    long: bool,
    custom: bool,
    placed: bool,
    /// A Custom of size 0.
    empty: bool,
    /// A Custom placed by Default in a layout sheet, of each of the alignments.
    alignments: [bool; 4],
    /// Between the two sides the only attributes of one name and unequal datatypes are Customs that differ in one thing alone: which.
    unequal: Option<usize>,
    /// The last code read in a sheet that is refused with 6.
    six: u8,
}

/// The two sides of a case.
fn sides(case: &Case) -> (Vec<Attribute>, Vec<Attribute>) {
    let said = |s: &Sheet<Base>| s.clone().attributes_mut().into_iter().map(|a| a.clone()).collect();
    let handed = |h: &Handed| value(h).attributes.into_iter().map(|x| x.0).collect();
    match case {
        Case::Plan(s) | Case::Convert(s, ..) => (said(&s.source), said(&s.target)),
        Case::Point(a, b, ..) | Case::Compare(a, b) => (handed(a), handed(b)),
        Case::Lookup(h, a) => (handed(h), vec![a.clone()]),
        _ => (vec![], vec![]),
    }
}

/// In what one thing the Customs of attributes of one name differ, where no other attributes of one name have unequal datatypes. Two layouts
/// that are compared have the same names.
fn unequal(case: &Case) -> Option<usize> {
    let (left, right) = sides(case);
    let named = |a: &Attribute| right.iter().find(|b| b.name == a.name);
    if matches!(case, Case::Compare(..)) && (left.len() != right.len() || left.iter().any(|a| named(a).is_none())) {
        return None;
    }
    let mut found = None;
    for (a, b) in left.iter().filter_map(|a| Some((a, named(a)?))).filter(|(a, b)| !a.same_datatype(b)) {
        let things = a.unequal(b);
        let thing = things.iter().position(|x| *x)?;
        if !a.is_custom() || !b.is_custom() || things.iter().filter(|x| **x).count() > 1 || found.unwrap_or(thing) != thing {
            return None;
        }
        found = Some(thing);
    }
    found
}

/// The last code read in the first sheet that is refused by itself, where that is with 6.
fn six(case: &Case) -> u8 {
    let sheets = match case {
        Case::Layout(s) => vec![s],
        Case::Plan(s) | Case::Convert(s, ..) => vec![&s.source, &s.target],
        _ => vec![],
    };
    let refused = |s: &&Sheet<Base>| match s {
        Sheet::Says(_) => None,
        Sheet::Bytes(b) => sheet::refused(b),
    };
    match sheets.iter().find_map(refused) {
        Some((6, code)) => code,
        _ => 0,
    }
}

#[derive(Default)]
pub struct Report {
    rows: [Row; KINDS.len()],
    /// Of each refusal: how often, and where the Rust panics, accepts, has no such value.
    refusals: [[u64; 4]; LAST + 1],
    /// The cases that have a long ByteArray, and those that have a Custom.
    long_cases: u64,
    custom_cases: u64,
    /// 6 in a sheet by a length below 256 in 16 bits, and by a Custom of size 0; and 6 by such a Custom in a call.
    sixteen_bits: u64,
    empty: [u64; 2],
    /// Placed layout sheets that are accepted and have a Custom of such an alignment, and those with one of 3 that are refused with 10.
    alignments: [u64; 4],
    no_power: u64,
    /// Unequal Customs of attributes of one name, by where they meet and by the thing.
    unequal: [[u64; 4]; WHERE_MET.len()],
    /// How many pairs of datatypes copy, cast, and do neither.
    pub table: [u64; 3],
    /// 11 where attributes are placed, by a call and by a layout sheet.
    past_end: [u64; 2],
    pub casts: u64,
    /// What the casts of many values lose, a count for each cast.
    pub cast_counts: Counts,
    pub nans: Nans,
    pub differ: u64,
}

impl Report {
    pub fn begin(&mut self, case: &mut Case) -> Has {
        let all = case.attributes_mut();
        let long = all.iter().any(|a| a.is_long());
        let custom = all.iter().any(|a| a.is_custom());
        let empty = all.iter().any(|a| a.is_custom() && a.n == 0);
        self.long_cases += u64::from(long);
        self.custom_cases += u64::from(custom);
        let list = match &*case {
            Case::Layout(Sheet::Says(Base::Placed(list))) => Some(list),
            _ => None,
        };
        let by_default = |k: u8| list.is_some_and(|l| l.iter().any(|(a, p)| a.is_custom() && a.min_alignment == k && *p == 0));
        let unequal = if custom { unequal(case) } else { None };
        Has { long, custom, placed: list.is_some(), empty, alignments: ALIGNMENTS.map(by_default), unequal, six: six(case) }
    }

    pub fn take(&mut self, v: &Verdict, has: Has) {
        let row = &mut self.rows[v.kind];
        let accepted = (v.ours, v.rust) == (0, Rust::Accepts);
        row.long += u64::from(has.long && accepted);
        row.custom += u64::from(has.custom && accepted);
        row.counts.add(v.counts);
        self.sixteen_bits += u64::from(v.ours == 6 && has.six == 16);
        self.empty[0] += u64::from(v.ours == 6 && has.six == 17);
        self.empty[1] += u64::from(v.ours == 6 && has.empty && matches!(v.kind, 1 | 6 | 7));
        for (n, met) in self.alignments.iter_mut().zip(has.alignments) {
            *n += u64::from(met && accepted);
        }
        self.no_power += u64::from(has.alignments[1] && v.ours == 10);
        if let Some(thing) = has.unequal {
            let (place, met) = match v.kind {
                2 => (0, v.ours == 14),
                3 | 10.. => (1, v.ours == 14),
                4 => (2, v.ours == 14),
                7 => (3, accepted),
                _ => (4, accepted),
            };
            self.unequal[place][thing] += u64::from(met);
        }
        self.past_end[0] += u64::from(v.ours == 11 && v.kind == 1);
        self.past_end[1] += u64::from(v.ours == 11 && has.placed);
        match (v.ours, v.rust) {
            (_, Rust::HasNoSuchValue) => row.no_such_value += 1,
            (0, _) => row.both_accept += 1,
            (_, Rust::Accepts) => row.refused_here += 1,
            (_, Rust::Panics(_)) => row.both_refuse += 1,
        }
        let column = match v.rust {
            Rust::Panics(_) => 1,
            Rust::Accepts => 2,
            Rust::HasNoSuchValue => 3,
        };
        let Some(refusal) = self.refusals.get_mut(v.ours as usize) else {
            eprintln!("refusal {} comes after {}, the last that compare/src/lines.rs has", v.ours, LAST);
            std::process::exit(1);
        };
        refusal[0] += 1;
        refusal[column] += 1;
        self.nans.add(v.nans);
        self.differ += u64::from(v.differs.is_some());
    }

    /// Of all conversions and casts.
    fn counts(&self) -> Counts {
        let mut all = self.cast_counts;
        self.rows.iter().for_each(|r| all.add(r.counts));
        all
    }

    pub fn compared(&self) -> u64 {
        self.casts + self.counts().compared + self.rows.iter().map(|r| r.both_accept + r.both_refuse + r.refused_here + r.no_such_value).sum::<u64>()
    }

    /// What no case met: refusals, and what long arrays and Customs lead to.
    pub fn unmet(&self) -> Vec<String> {
        let mut met: Vec<(String, u64)> = (1..=LAST).map(|n| (format!("refusal {}", n), self.refusals[n][0])).collect();
        for (name, r) in KINDS.iter().zip(&self.rows) {
            met.extend([(format!("a long array in {}", name), r.long), (format!("a Custom in {}", name), r.custom)]);
        }
        met.extend([3, 10, 11, 12].map(|k| (format!("a lost component in {}", KINDS[k]), self.rows[k].counts.some)));
        met.push(("a source that is lost in two mappings".into(), self.counts().twice));
        met.extend([("6 by 16 bits".into(), self.sixteen_bits), ("11 by a call".into(), self.past_end[0])]);
        met.extend([("11 by a placed sheet".into(), self.past_end[1]), ("10 by a Custom of alignment 3".into(), self.no_power)]);
        met.extend([("6 by a Custom in a sheet".into(), self.empty[0]), ("6 by a Custom in a call".into(), self.empty[1])]);
        met.extend(ALIGNMENTS.iter().zip(self.alignments).map(|(k, n)| (format!("a placed Custom of alignment {}", k), n)));
        for (place, row) in WHERE_MET.iter().zip(&self.unequal) {
            met.extend(PARTS.iter().zip(row).map(|(part, n)| (format!("Customs of unequal {} in {}", part, place), *n)));
        }
        met.push((format!("{:?} pairs that copy, cast, do neither", TABLE), u64::from(self.table == TABLE)));
        met.into_iter().filter(|m| m.1 == 0).map(|m| m.0).collect()
    }

    pub fn print(&self) {
        let head = ("both accept", "both refuse", "refused here", "no value in Rust", "accept long array", "accept Custom");
        println!("{:24} {:>12} {:>12} {:>16} {:>18} {:>18} {:>14}", "", head.0, head.1, head.2, head.3, head.4, head.5);
        for (name, r) in KINDS.iter().zip(&self.rows) {
            let [accept, refuse, here, none] = [r.both_accept, r.both_refuse, r.refused_here, r.no_such_value];
            println!("{:24} {:>12} {:>12} {:>16} {:>18} {:>18} {:>14}", name, accept, refuse, here, none, r.long, r.custom);
        }
        let [copy, cast, neither] = self.table;
        println!("{:24} {:>12} copy, {} cast, {} do neither", "pairs of datatypes", copy, cast, neither);
        println!("{:24} {:>12}", "values cast", self.casts);
        println!("{:24} {:>12}, the same bits in {}", "NaN to NaN", self.nans.both, self.nans.same);
        let c = self.counts();
        let how = format!("{} of them not 0, {} of one source in two mappings, {} components in all", c.some, c.twice, c.lost);
        println!("{:24} {:>12}, {}", "counts of what is lost", c.compared, how);
        println!("{:24} {:>12}, a ByteArray of 256 bytes or more", "cases with a long array", self.long_cases);
        println!("{:24} {:>12}", "cases with a Custom", self.custom_cases);
        println!("{:24} {:>12}", "6 by 16 bits", self.sixteen_bits);
        println!("{:24} {:>12} in a sheet, {} in a call", "6 by a Custom", self.empty[0], self.empty[1]);
        let [zero, three, sixteen, most] = self.alignments;
        let alignments = format!("{} of 0, {} of 3, {} of 16, {} of 128", zero, three, sixteen, most);
        println!("{:24} {:>12}; refused with 10: {} of 3", "placed Customs aligned", alignments, self.no_power);
        println!("{:24} {:>12} by a call, {} by a layout sheet", "11 of a placed layout", self.past_end[0], self.past_end[1]);
        println!("\n{:24} {:>12} {:>12} {:>16} {:>18}", "unequal Customs, by", PARTS[0], PARTS[1], PARTS[2], PARTS[3]);
        for (name, r) in WHERE_MET.iter().zip(&self.unequal) {
            println!("{:24} {:>12} {:>12} {:>16} {:>18}", name, r[0], r[1], r[2], r[3]);
        }
        println!("\n{:24} {:>12} {:>12} {:>16} {:>18}", "refusal", "met", "Rust panics", "Rust accepts", "no value in Rust");
        for n in 1..=LAST {
            let r = self.refusals[n];
            println!("{:24} {:>12} {:>12} {:>16} {:>18}", n, r[0], r[1], r[2], r[3]);
        }
        println!();
    }
}
