//! Brings about each refusal by its smallest input (docs/REFUSALS.md), and prints its number and its sentence.
//! bindings/test compares the lines with refusals.out.
use std::ops::Range;

use nakvisk::{convert, convert_point, list, Attribute, Datatype, Layout, PointRange, Refusal, Sheets};

/// What the call refused.
fn refused<T>(result: Result<T, Refusal>) -> Refusal {
    match result {
        Err(refusal) => refusal,
        Ok(_) => panic!("the call was accepted"),
    }
}

/// Three sheets; those after a refused one are not looked at.
fn sheets(source: &[u8], target: &[u8], mapping: &[u8]) -> Refusal {
    refused(list(Sheets::new(source, target, mapping)))
}

/// A layout of one attribute with the empty name.
fn one(datatype: Datatype) -> Layout {
    Attribute::new("", datatype).and_then(|a| Layout::EMPTY.add_attribute(&a)).expect("one attribute is accepted")
}

/// Some of so many points.
fn some(count: u32, range: Range<u32>) -> PointRange {
    PointRange::interleaved(count, range)
}

/// A conversion of points of one U8: source bytes and range, target bytes and range.
fn points(source: &[u8], from: PointRange, target: &mut [u8], to: PointRange) -> Refusal {
    let sheet = b"\x04\0\0\0";
    let sheets = Sheets::new(sheet, sheet, b"\0");
    refused(convert(sheets, source, from, target, to))
}

fn main() {
    let not_sound = Layout::filled_in(&[], 0, 3).expect("no attribute is not too many");
    let byte = Attribute::new("", Datatype::U8).expect("an attribute without a name");
    let refusals = [
        refused(not_sound.add_attribute(&byte)),
        sheets(b"", b"", b""),
        sheets(b"\x84", b"", b""),
        sheets(b"\x04\x10\x00", b"", b""),
        sheets(b"\x04\x09\x00", b"", b""),
        sheets(b"\x04\x08\x80\x00\x00", b"", b""),
        sheets(b"\x01", b"", b""),
        sheets(b"\x08\x00\x00\x00\x00\x00", b"", b""),
        sheets(b"\x0a\x00\x02\x00\x00\x00\x05\x04\x00\x00\x00", b"", b""),
        sheets(b"\x02\x00\x00", b"", b""),
        sheets(b"\x06\x00\x02\x00\x7f\xff\x80", b"", b""),
        sheets(b"\x00", b"\x04\x00\x00\x00", b"\x00"),
        sheets(b"\x00", b"\x00", b"\x04\x00\x00"),
        sheets(b"\x04\x00\x00\x00", b"\x04\x05\x00\x00", b"\x00"),
        points(&[0], some(0, 0..0), &mut [], some(0, 0..0)),
        points(&[], some(0, 0..0), &mut [0], some(0, 0..0)),
        points(&[0], some(1, 0..1), &mut [], some(0, 0..0)),
        points(&[], some(0, 0..1), &mut [0], some(1, 0..1)),
        points(&[0], some(1, 0..1), &mut [], some(0, 0..1)),
        refused(convert_point(&one(Datatype::U8), &one(Datatype::U16), &[], &mut [0, 0])),
        points(&[], PointRange { start: 1, ..some(0, 0..0) }, &mut [], some(0, 0..0)),
        points(&[0], PointRange::columns(0, 0..0), &mut [], some(0, 0..0)),
    ];
    for refusal in refusals {
        println!("{refusal}");
    }
}
