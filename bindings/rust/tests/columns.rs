// Columns: the four pairs of storage, points turned into columns and back, and refusal 22 with its order among the checks.
use nakvisk::{convert, Attribute, Datatype, Layout, Plan, PointRange, Refusal, Sheets, Storage};

const STORAGES: [Storage; 2] = [Storage::Interleaved, Storage::Columns];

fn layout(members: &[(&str, Datatype, u16)], alignment: u16) -> Layout {
    let given: Vec<_> = members.iter().map(|&(name, datatype, offset)| Attribute::new(name, datatype).unwrap().at_offset(offset)).collect();
    Layout::from_members(&given, alignment).unwrap()
}

// A U8 at 0 and B U16 at 4: 8 bytes to a point, padding between the two and after; 3 bytes to a point as columns.
fn scanner() -> Layout {
    layout(&[("A", Datatype::U8, 0), ("B", Datatype::U16, 4)], 4)
}

// B U32 at 4 stands in the list before A U16 at 0: 8 bytes to a point, padding between the two; 6 bytes to a point as columns, B's first.
fn reader() -> Layout {
    layout(&[("B", Datatype::U32, 4), ("A", Datatype::U16, 0)], 4)
}

// Three points of scanner(), interleaved and as columns. 9 is padding.
const POINTS: [u8; 24] = [1, 9, 9, 9, 11, 21, 9, 9, 2, 9, 9, 9, 12, 22, 9, 9, 3, 9, 9, 9, 13, 23, 9, 9];
const COLUMNS: [u8; 9] = [1, 2, 3, 11, 21, 12, 22, 13, 23];

fn buffers() -> [(&'static [u8], Storage); 2] {
    [(&POINTS, Storage::Interleaved), (&COLUMNS, Storage::Columns)]
}

fn range(storage: Storage, count: u32, start: u32, end: u32) -> PointRange {
    PointRange { storage, count, start, end }
}

#[test]
fn each_storage_is_converted_into_each() {
    let plan = Plan::for_layouts(&scanner(), &reader()).unwrap();
    for (source, storage) in buffers() {
        let from = range(storage, 3, 1, 3);
        // four points, of which the last two are made
        let mut target = [7; 32];
        assert_eq!(plan.convert(source, from, &mut target, PointRange::interleaved(4, 2..4)), Ok(0));
        assert_eq!(target[..16], [7; 16]);
        assert_eq!(target[16..], [2, 0, 7, 7, 12, 22, 0, 0, 3, 0, 7, 7, 13, 23, 0, 0]);
        let mut target = [7; 24];
        assert_eq!(plan.convert(source, from, &mut target, PointRange::columns(4, 2..4)), Ok(0));
        assert_eq!(target[..16], [7, 7, 7, 7, 7, 7, 7, 7, 12, 22, 0, 0, 13, 23, 0, 0]);
        assert_eq!(target[16..], [7, 7, 7, 7, 2, 0, 3, 0]);
    }
}

#[test]
fn columns_that_no_mapping_names_stay() {
    let plan = Plan::for_layouts_with_default(&layout(&[("A", Datatype::U8, 0)], 1), &reader()).unwrap();
    let mut target = [7; 12];
    assert_eq!(plan.convert(&[1, 2], PointRange::columns(2, 0..2), &mut target, PointRange::columns(2, 0..2)), Ok(0));
    assert_eq!(target, [7, 7, 7, 7, 7, 7, 7, 7, 1, 0, 2, 0]);
}

#[test]
fn more_points_than_a_block_of_the_conversion() {
    let plan = Plan::for_layouts(&scanner(), &reader()).unwrap();
    let count = 1000;
    let source: Vec<u8> = (0..count).map(|i| i as u8).chain((0..count).flat_map(|i| (i as u16).to_le_bytes())).collect();
    let mut target = vec![7; 6000];
    assert_eq!(plan.convert(&source, PointRange::columns(count, 0..999), &mut target, PointRange::columns(count, 1..1000)), Ok(0));
    let numbers = (0..999).flat_map(|i: u32| i.to_le_bytes()).collect::<Vec<u8>>();
    let bytes = (0..999).flat_map(|i: u16| (i & 255).to_le_bytes()).collect::<Vec<u8>>();
    assert_eq!(target, [&[7; 4][..], &numbers, &[7; 2], &bytes].concat());
}

#[test]
fn long_byte_arrays_are_copied() {
    // N of so many bytes and Z U16, without padding; Z U32 at 0 and N at 4, with padding at the end
    for n in [300, 60000] {
        let length = usize::from(n);
        let array = Datatype::byte_array(n);
        let (source, target) = (layout(&[("N", array, 0), ("Z", Datatype::U16, n)], 1), layout(&[("Z", Datatype::U32, 0), ("N", array, 4)], 8));
        let plan = Plan::for_layouts(&source, &target).unwrap();
        let notes: Vec<Vec<u8>> = (0..3).map(|p| (0..length).map(|k| (k % 251 + p) as u8).collect()).collect();
        let numbers = [[1, 2], [3, 4], [5, 6]];
        let points: Vec<u8> = (0..3).flat_map(|p| [&notes[p][..], &numbers[p]].concat()).collect();
        let columns = [notes.concat(), numbers.concat()].concat();
        let size = usize::from(target.size());
        let padding = vec![7; size - 4 - length];
        let made: Vec<u8> = (0..3).flat_map(|p| [&numbers[p][..], &[0, 0], &notes[p], &padding].concat()).collect();
        let made_columns = [numbers.map(|[a, b]| [a, b, 0, 0]).concat(), notes.concat()].concat();
        for (bytes, from) in [(&points, Storage::Interleaved), (&columns, Storage::Columns)] {
            for (due, to) in [(&made, Storage::Interleaved), (&made_columns, Storage::Columns)] {
                let mut into = vec![7; due.len()];
                assert_eq!(plan.convert(bytes, range(from, 3, 0, 3), &mut into, range(to, 3, 0, 3)), Ok(0));
                assert!(into == *due, "{n} bytes, {from:?} into {to:?}");
            }
        }
    }
}

#[test]
fn sheets_convert_columns_too() {
    // Document 01's example: P U16, C U8 placed by Default; P F32 given at 4, alignment 4; by name.
    let example = Sheets::new(b"\x08\x15\x01\x00\x05\x0c\x00\x00", b"\x06\x00\x08\x15\x04\x00\x02\x00", b"\x00");
    let both = PointRange::columns(2, 0..2);
    let mut target = [7; 8];
    assert_eq!(convert(example, &[1, 0, 0x2c, 1, 5, 6], both, &mut target, both), Ok(0));
    assert_eq!(target, [1f32.to_le_bytes(), 300f32.to_le_bytes()].concat()[..]);
    // the length of interleaved points is not that of columns
    assert_eq!(convert(example, &[0; 8], both, &mut target, both), Err(Refusal::ColumnLength));
    assert_eq!(convert(example, &[0; 6], both, &mut [0; 16], both), Err(Refusal::ColumnLength));
}

#[test]
fn points_into_columns_and_back() {
    let plan = Plan::for_layouts(&scanner(), &scanner()).unwrap();
    let (points, columns) = (PointRange::interleaved(3, 0..3), PointRange::columns(3, 0..3));
    let mut values = [7; 9];
    assert_eq!(plan.convert(&POINTS, points, &mut values, columns), Ok(0));
    assert_eq!(values, COLUMNS);
    // every byte of an attribute comes back; padding keeps what the buffer had
    let mut back = [7; 24];
    assert_eq!(plan.convert(&values, columns, &mut back, points), Ok(0));
    assert_eq!(back, POINTS.map(|byte| if byte == 9 { 7 } else { byte }));
}

#[test]
fn some_points_into_columns_and_back() {
    let plan = Plan::for_layouts(&scanner(), &scanner()).unwrap();
    let mut values = [7; 9];
    assert_eq!(plan.convert(&POINTS, PointRange::interleaved(3, 1..2), &mut values, PointRange::columns(3, 1..2)), Ok(0));
    assert_eq!(values, [7, 2, 7, 7, 7, 12, 22, 7, 7]);
    let mut back = [8; 24];
    assert_eq!(plan.convert(&values, PointRange::columns(3, 1..2), &mut back, PointRange::interleaved(3, 1..2)), Ok(0));
    assert_eq!(back[..8], [8; 8]);
    assert_eq!(back[8..16], [2, 8, 8, 8, 12, 22, 8, 8]);
    assert_eq!(back[16..], [8; 8]);
}

#[test]
fn a_buffer_of_another_length_is_refused() {
    let plan = Plan::for_layouts(&scanner(), &scanner()).unwrap();
    for (source, storage) in buffers() {
        let from = range(storage, 3, 0, 3);
        for wrong in [range(storage, 2, 0, 3), range(storage, 4, 0, 3), range(storage, u32::MAX, 0, 3)] {
            let mut target = [7; 24];
            let refused = if storage == Storage::Columns { Refusal::ColumnLength } else { Refusal::SourceLength };
            assert_eq!(plan.convert(source, wrong, &mut target, PointRange::interleaved(3, 0..3)), Err(refused));
            assert_eq!(target, [7; 24]);
        }
        for length in [0, 8, 10, 24] {
            let mut target = [7; 24];
            let refused = Err(Refusal::ColumnLength);
            assert_eq!(plan.convert(source, from, &mut target[..length], PointRange::columns(3, 0..3)), refused);
            assert_eq!(target, [7; 24]);
        }
        for length in [0, 9, 23] {
            let mut target = [7; 24];
            let refused = Err(Refusal::TargetLength);
            assert_eq!(plan.convert(source, from, &mut target[..length], PointRange::interleaved(3, 0..3)), refused);
            assert_eq!(target, [7; 24]);
        }
    }
}

// The source is judged first: 15 or 22, then 16 or 22; all of them after 1 and before 21, 17, 18 and 19.
#[test]
fn the_order_of_the_checks() {
    let plan = Plan::for_layouts(&scanner(), &scanner()).unwrap();
    let unsound = Plan::filled_in(&Layout::filled_in(&[], 0, 3).unwrap(), &scanner(), &[]).unwrap();
    let mut target = [7; 25];
    for from in STORAGES {
        for to in STORAGES {
            let of_source = if from == Storage::Columns { Refusal::ColumnLength } else { Refusal::SourceLength };
            let of_target = if to == Storage::Columns { Refusal::ColumnLength } else { Refusal::TargetLength };
            let source = if from == Storage::Columns { &COLUMNS[..] } else { &POINTS[..] };
            let length = if to == Storage::Columns { 9 } else { 24 };
            // 25 bytes are neither
            for (start, end) in [(0, 3), (5, 3), (0, 2), (0, 4)] {
                let (some, all) = (range(from, 3, start, end), range(to, 3, 0, 3));
                assert_eq!(unsound.convert(&[0; 25], some, &mut target, all), Err(Refusal::NotSound));
                assert_eq!(plan.convert(&[0; 25], some, &mut target, all), Err(of_source));
                assert_eq!(plan.convert(source, some, &mut target, all), Err(of_target));
            }
            let mut refused = |some, other| plan.convert(source, some, &mut target[..length], other);
            assert_eq!(refused(range(from, 3, 5, 3), range(to, 3, 0, 9)), Err(Refusal::BackwardRange));
            assert_eq!(refused(range(from, 3, 0, 3), range(to, 3, 9, 4)), Err(Refusal::BackwardRange));
            assert_eq!(refused(range(from, 3, 0, 9), range(to, 3, 0, 8)), Err(Refusal::RangesDiffer));
            assert_eq!(refused(range(from, 3, 1, 4), range(to, 3, 2, 5)), Err(Refusal::SourceRange));
            assert_eq!(refused(range(from, 3, 0, 3), range(to, 3, 1, 4)), Err(Refusal::TargetRange));
        }
    }
    assert_eq!(target, [7; 25]);
}

#[test]
fn no_point_and_no_attribute() {
    let empty = Plan::for_layouts(&Layout::EMPTY, &Layout::EMPTY).unwrap();
    let plan = Plan::for_layouts(&scanner(), &scanner()).unwrap();
    for from in STORAGES {
        for to in STORAGES {
            // points without an attribute have no byte, however many there are
            assert_eq!(empty.convert(&[], range(from, u32::MAX, 0, 5), &mut [], range(to, 6, 1, 6)), Ok(0));
            assert_eq!(plan.convert(&[], range(from, 0, 0, 0), &mut [], range(to, 0, 0, 0)), Ok(0));
        }
    }
}
