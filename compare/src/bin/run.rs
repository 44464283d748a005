//! run CASES SEED PATTERNS: compares the library with the Rust; see compare/README.md. Ends in 'N compared, 0 differ', or exits 1.
use compare::check::Nans;
use compare::input::Case;
use compare::lost::Counts;
use compare::report::Report;
use compare::{casts, check, library, random, rust, smaller};
use std::fmt::Arguments;

const SHOWN: u64 = 5;

fn one(report: &mut Report, mut case: Case, name: Arguments) {
    let has = report.begin(&mut case);
    for v in check::check(&case) {
        if v.differs.is_some() && report.differ < SHOWN {
            let small = smaller::smallest(&case);
            let said = check::check(&small).into_iter().filter_map(|v| v.differs).next();
            println!("{}: {}\n{}\n", name, said.unwrap_or_default(), check::show(&small));
        }
        if report.differ == 0 && v.differs.is_some() {
            println!("first difference after {} compared", report.compared() + 1);
        }
        report.take(&v, has);
    }
}

fn cases(report: &mut Report, n: u64, seed: u64) {
    for k in 0..n {
        for case in random::cases(seed, k) {
            one(report, case, format_args!("case {} of seed {}", k, seed));
        }
    }
}

/// All pairs of datatypes, and how many of them the library copies and casts, and with how many it does neither.
fn table(report: &mut Report) {
    for (k, pair) in casts::table().into_iter().enumerate() {
        let listing = library::list(&pair.source.bytes(), &pair.target.bytes(), &pair.mapping.bytes());
        let how = listing.map_or(2, |text| usize::from(text.contains(" cast ")));
        report.table[how] += 1;
        one(report, Case::Plan(pair), format_args!("code {} to {}", k / 18, k % 18));
    }
}

fn all_casts(report: &mut Report, patterns: usize, seed: u64) {
    for (from, to) in casts::pairs() {
        let name = || format!("{} to {}", casts::NAMES[from as usize], casts::NAMES[to as usize]);
        let panics = |_| (1, Nans::default(), Counts::default(), vec![format!("{}: the Rust panics", name())]);
        let (compared, nans, counts, differ) = rust::caught(|| casts::compare(from, to, patterns, seed)).unwrap_or_else(panics);
        if report.differ == 0 && !differ.is_empty() {
            println!("first difference after {} compared", report.compared() + 1);
        }
        differ.iter().take(1).for_each(|d| println!("{}", d));
        report.casts += compared;
        report.nans.add(nans);
        report.cast_counts.add(counts);
        report.differ += differ.len() as u64;
    }
}

fn main() {
    let number = |k: usize, default: u64| std::env::args().nth(k).map_or(default, |s| s.parse().expect("a number"));
    let (n, seed, patterns) = (number(1, 300_000), number(2, 1), number(3, 1 << 20));
    rust::silence();
    let mut report = Report::default();
    cases(&mut report, n, seed);
    table(&mut report);
    all_casts(&mut report, patterns as usize, seed);
    report.print();
    let unmet = report.unmet();
    let covers = n < 10_000 || unmet.is_empty();
    if !covers {
        println!("no case met {}", unmet.join(", "));
    }
    println!("{} compared, {} differ", report.compared(), report.differ);
    std::process::exit(i32::from(report.differ != 0 || !covers));
}
