//! The Rust's answers alone, for the kept list.
use crate::check::{bytes, listing, read};
use crate::input::*;
use crate::rust;

/// The listing of a plan that the Rust makes.
pub fn listing_of(sheets: &Sheets) -> String {
    let r = read(2, 0, &sheets.source.bytes(), &sheets.target.bytes(), &sheets.mapping.bytes()).ok().expect("accepted");
    let plan = rust::plan(&r.theirs[0], &r.theirs[1], &r.mapping).expect("accepted");
    listing(&r.s, &r.t, &rust::rows(&plan))
}

pub struct Converted {
    pub source: Vec<u8>,
    pub before: Vec<u8>,
    pub after: Vec<u8>,
}

/// The buffers of a conversion whose plan the Rust makes; what it leaves where it panics is not looked at.
pub fn converted(sheets: &Sheets, sb: &Buffer, tb: &Buffer) -> Option<Converted> {
    let (source, before) = (bytes(&sheets.source.bytes(), sb), bytes(&sheets.target.bytes(), tb));
    let after = bytes_after(sheets, &source, &before, sb, tb)?;
    Some(Converted { source, before, after })
}

/// The target's bytes after the Rust's conversion, as before where it panics; none where there is no plan.
pub fn bytes_after(sheets: &Sheets, source: &[u8], before: &[u8], sb: &Buffer, tb: &Buffer) -> Option<Vec<u8>> {
    let r = read(3, 0, &sheets.source.bytes(), &sheets.target.bytes(), &sheets.mapping.bytes()).ok()?;
    let plan = rust::plan(&r.theirs[0], &r.theirs[1], &r.mapping).ok()?;
    let from = rust::points(&r.theirs[0], sb, source);
    let mut to = rust::points(&r.theirs[1], tb, before);
    Some(rust::convert(&plan, (&from, sb), (&mut to, tb)).unwrap_or_else(|_| before.to_vec()))
}

pub fn point_after(s: &Layout, t: &Layout, source: &[u8], before: &[u8]) -> Vec<u8> {
    rust::point(&rust::handed(s), &rust::handed(t), source, before).expect("accepted")
}
