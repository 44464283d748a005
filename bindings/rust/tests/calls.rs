// The library's calls from Rust: document 01's example, ranges, and the smallest input of each refusal that a call with sheets can give.
use nakvisk::{convert, list, list_into, point_size, PointRange, Refusal, Sheets, LISTING_SIZE};
use std::ops::Range;

// Document 01's example: P U16, C U8 placed by Default; P F32 given at 4, alignment 4; by name.
const SOURCE: &[u8] = b"\x08\x15\x01\x00\x05\x0c\x00\x00";
const TARGET: &[u8] = b"\x06\x00\x08\x15\x04\x00\x02\x00";
const BY_NAME: &[u8] = b"\x00";
const EXAMPLE: Sheets = Sheets::new(SOURCE, TARGET, BY_NAME);

// One attribute of the name A, a U8.
const A: &[u8] = b"\x04\x14\x10\x00\x00";

fn sheets<'a>(source: &'a [u8], target: &'a [u8], mapping: &'a [u8]) -> Sheets<'a> {
    Sheets::new(source, target, mapping)
}

fn points(count: u32, range: Range<u32>) -> PointRange {
    PointRange::interleaved(count, range)
}

#[test]
fn example_is_listed() {
    assert_eq!(list(EXAMPLE).as_deref(), Ok("source 2 4 2\ntarget 1 8 4\n0 2 4 4 cast P\n"));
}

#[test]
fn listing_that_does_not_fit_leaves_the_text() {
    let mut text = [b'.'; 40];
    assert_eq!(list_into(EXAMPLE, &mut text), Ok(41));
    assert_eq!(text, [b'.'; 40]);
    let mut text = [b'.'; 42];
    assert_eq!(list_into(EXAMPLE, &mut text), Ok(41));
    assert_eq!(&text, b"source 2 4 2\ntarget 1 8 4\n0 2 4 4 cast P\n.");
    let mut text = [b'.'; LISTING_SIZE];
    assert_eq!(list_into(sheets(b"", A, BY_NAME), &mut text), Err(Refusal::SheetEnds));
    assert_eq!(text, [b'.'; LISTING_SIZE]);
}

#[test]
fn point_sizes() {
    assert_eq!(point_size(SOURCE), Ok(4));
    assert_eq!(point_size(TARGET), Ok(8));
    assert_eq!(point_size(b"\x00"), Ok(0));
    assert_eq!(point_size(b""), Err(Refusal::SheetEnds));
}

#[test]
fn points_of_the_range_are_converted_and_no_other_byte() {
    let source = [1, 0, 9, 9, 0x2c, 1, 9, 9, 0xff, 0xff, 9, 9];
    let mut target = [7; 32];
    assert_eq!(convert(EXAMPLE, &source, points(3, 1..3), &mut target, points(4, 2..4)), Ok(0));
    let mut expected = [7; 32];
    expected[20..24].copy_from_slice(&300f32.to_le_bytes());
    expected[28..32].copy_from_slice(&65535f32.to_le_bytes());
    assert_eq!(target, expected);
}

#[test]
fn ranges_without_points_change_nothing() {
    let source = [1; 24];
    let mut target = [7; 48];
    assert_eq!(convert(EXAMPLE, &source, points(6, 3..3), &mut target, points(6, 2..2)), Ok(0));
    assert_eq!(convert(EXAMPLE, &source, points(6, 6..6), &mut target, points(6, 6..6)), Ok(0));
    assert_eq!(target, [7; 48]);
}

#[test]
fn ranges_that_start_after_their_end_are_refused() {
    let source = [1; 24];
    let mut target = [7; 48];
    let backward = PointRange { start: 5, end: 3, ..points(6, 0..0) };
    let refused = Err(Refusal::BackwardRange);
    assert_eq!(convert(EXAMPLE, &source, backward, &mut target, points(6, 2..2)), refused);
    assert_eq!(convert(EXAMPLE, &source, points(6, 2..2), &mut target, backward), refused);
    // 21 before 17, 18 and 19, and after 16
    assert_eq!(convert(EXAMPLE, &source, backward, &mut target, points(6, 1..2)), refused);
    assert_eq!(convert(EXAMPLE, &source, PointRange { start: 9, end: 7, ..backward }, &mut target, points(6, 8..8)), refused);
    assert_eq!(convert(EXAMPLE, &source, backward, &mut target, points(5, 2..2)), Err(Refusal::TargetLength));
    assert_eq!(target, [7; 48]);
}

#[test]
fn no_point_and_no_attribute() {
    assert_eq!(convert(sheets(b"\x00", b"\x00", b"\x00"), &[], points(5, 0..5), &mut [], points(5, 0..5)), Ok(0));
}

#[test]
fn crate_and_archive_are_of_one_version() {
    assert_eq!(nakvisk::version(), nakvisk::VERSION);
    let mut numbers = env!("CARGO_PKG_VERSION").split('.').map(|part| part.parse::<u32>().unwrap());
    let mut next = || numbers.next().unwrap();
    assert_eq!(nakvisk::VERSION, next() << 16 | next() << 8 | next());
}

#[test]
fn sheets_are_refused() {
    let cases = [
        (sheets(b"\x04\x14\x10\x00", A, BY_NAME), 2),
        // inside the 16 bits of a length
        (sheets(b"\x04\x14\x18\x00\x00", A, BY_NAME), 2),
        (sheets(b"\x04\x14\x18\x00\x00\x00", A, BY_NAME), 2),
        // inside the size, the alignment and the name of a Custom
        (sheets(b"\x04\x08\x80", A, BY_NAME), 2),
        (sheets(b"\x04\x08\x80\x08\x04", A, BY_NAME), 2),
        (sheets(b"\x04\x08\x80\x08\x04\x07", A, BY_NAME), 2),
        (sheets(A, A, b""), 2),
        (sheets(b"\x84", A, BY_NAME), 3),
        (sheets(A, A, b"\x84"), 3),
        (sheets(b"\x04\x17\xf0\x00\x00", A, BY_NAME), 4),
        (sheets(b"\x04\x09\x00", A, BY_NAME), 5),
        (sheets(b"\x04\x0f\x80", A, BY_NAME), 5),
        // 0 and 255 in 16 bits
        (sheets(A, b"\x04\x14\x18\x00\x00\x00\x00", BY_NAME), 6),
        (sheets(A, b"\x04\x14\x18\x00\x00\x7f\x80", BY_NAME), 6),
        // a Custom of size 0, where the sheet ends and where it goes on
        (sheets(A, b"\x04\x08\x80\x00\x00", BY_NAME), 6),
        (sheets(A, b"\x04\x08\x80\x00\x04\x07\x37", BY_NAME), 6),
        (sheets(A, A, b"\x01"), 7),
        (sheets(b"\x08\x14\x10\x00\x05\x04\x40\x00", A, BY_NAME), 8),
        (sheets(A, b"\x0a\x00\x02\x14\x12\x00\x02\x05\x08\x00\x00\xe0", BY_NAME), 9),
        (sheets(A, b"\x08\x14\x12\x00\x05\x08\x00\x60", BY_NAME), 10),
        // a Custom of a byte and of alignment 3, alone
        (sheets(b"\x04\x08\x80\x00\x81\x80\0\0\0\0\0\0\0\0\0\0\0\0\0\0\0\0\0", A, BY_NAME), 10),
        (sheets(b"\x06\x00\x02\x14\x10\x7f\xff\x80", A, BY_NAME), 11),
        (sheets(b"\x08\x08\x00\x7f\xff\x80\x05\x04\x00\x00", A, BY_NAME), 11),
        (sheets(A, b"\x04\x14\x20\x00\x00", BY_NAME), 12),
        (sheets(A, A, b"\x04\x10\x00"), 13),
        (sheets(A, A, b"\x04\x00\x80"), 13),
        (sheets(A, b"\x04\x14\x15\x00\x00", BY_NAME), 14),
    ];
    for (given, number) in cases {
        let refusal = Refusal::from_number(number).unwrap();
        let mut target = [7; 3];
        assert_eq!(convert(given, &[1], points(1, 0..1), &mut target, points(1, 0..1)), Err(refusal));
        assert_eq!(target, [7; 3]);
        assert_eq!(list(given), Err(refusal));
    }
}

#[test]
fn the_source_sheet_is_judged_first() {
    assert_eq!(list(sheets(b"\x84", b"", b"\x01")), Err(Refusal::TooMany));
    assert_eq!(list(sheets(A, b"", b"\x01")), Err(Refusal::SheetEnds));
}

#[test]
fn buffers_are_refused() {
    let given = sheets(A, A, BY_NAME);
    let source = [1, 2, 3];
    let mut target = [7; 3];
    assert_eq!(convert(given, &source, points(4, 0..1), &mut target, points(4, 0..2)), Err(Refusal::SourceLength));
    assert_eq!(convert(given, &source, points(3, 0..1), &mut target, points(4, 0..2)), Err(Refusal::TargetLength));
    assert_eq!(convert(given, &source, points(3, 0..4), &mut target, points(3, 0..2)), Err(Refusal::RangesDiffer));
    assert_eq!(convert(given, &source, points(3, 0..4), &mut target, points(3, 0..4)), Err(Refusal::SourceRange));
    assert_eq!(convert(given, &source, points(3, 0..3), &mut target, points(3, 1..4)), Err(Refusal::TargetRange));
    assert_eq!(target, [7; 3]);
    assert_eq!(convert(given, &source, points(3, 0..3), &mut target, points(3, 0..3)), Ok(0));
    assert_eq!(target, [1, 2, 3]);
}

#[test]
fn each_refusal_has_its_number_and_a_sentence() {
    for (number, refusal) in (1..).zip(Refusal::all()) {
        assert_eq!(refusal.number(), number);
        assert_eq!(Refusal::from_number(number), Some(refusal));
        assert!(refusal.to_string().ends_with('.'));
    }
    let last = Refusal::all().last().expect("there are refusals");
    assert_eq!(Refusal::from_number(0), None);
    assert_eq!(Refusal::from_number(last.number() + 1), None);
    assert_eq!(Refusal::SharedByte.to_string(), "refused 9: Two attributes share a byte.");
}
