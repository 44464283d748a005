// Layouts by value: document 01's examples of placing, given members, long ByteArrays, lookups, what is refused, single points, and one attribute
// of many points.
use nakvisk::{convert_point, point_size, read_point, write_point, Attribute, Datatype, Layout, Member, Plan, Refusal, View};
use std::mem::{align_of, size_of};

// Document 01's example: P U16, C U8 placed by Default; P F32 given at 4, alignment 4.
const SOURCE: &[u8] = b"\x08\x15\x01\x00\x05\x0c\x00\x00";
const TARGET: &[u8] = b"\x06\x00\x08\x15\x04\x00\x02\x00";

const U8: Datatype = Datatype::U8;
const U16: Datatype = Datatype::U16;
const U32: Datatype = Datatype::U32;
const U64: Datatype = Datatype::U64;
const F32: Datatype = Datatype::F32;

fn attribute(name: &str, datatype: Datatype) -> Attribute {
    Attribute::new(name, datatype).unwrap()
}

fn letter(i: usize) -> String {
    String::from(char::from(b'A' + i as u8))
}

// Attributes A, B, .. of these datatypes, by Default.
fn placed(datatypes: &[Datatype]) -> Layout {
    datatypes.iter().enumerate().fold(Layout::EMPTY, |layout, (i, &d)| layout.add_attribute(&attribute(&letter(i), d)).unwrap())
}

// Attributes A, B, .. of these datatypes, at these offsets.
fn members(list: &[(Datatype, u16)]) -> Vec<Member> {
    list.iter().enumerate().map(|(i, &(d, offset))| attribute(&letter(i), d).at_offset(offset)).collect()
}

// The offsets of the attributes, the point size and the alignment.
fn placing(layout: &Layout) -> (Vec<u16>, u16, u16) {
    (layout.attributes().iter().map(|m| m.offset()).collect(), layout.size(), layout.alignment())
}

#[test]
fn structs_have_the_bytes_of_the_header() {
    assert_eq!((size_of::<Datatype>(), size_of::<Attribute>(), size_of::<Member>()), (24, 56, 64));
    assert_eq!((size_of::<Layout>(), size_of::<Plan>()), (2056, 4184));
    assert_eq!([align_of::<Datatype>(), align_of::<Attribute>(), align_of::<Member>(), align_of::<Layout>(), align_of::<Plan>()], [8; 5]);
}

#[test]
fn attributes_are_placed_by_default() {
    assert_eq!(placing(&placed(&[])), (vec![], 0, 1));
    assert_eq!(placing(&placed(&[U64, U8, U8])), (vec![0, 8, 9], 16, 8));
}

#[test]
fn datatypes_have_sizes_and_alignments() {
    let datatypes = (0..18).map(|code| Datatype::from_code(code, 9, 16, 5));
    let known: Vec<(u32, u32)> = datatypes.map(|d| (d.size().unwrap(), d.alignment().unwrap())).collect();
    let scalars = [(1, 1), (1, 1), (2, 2), (2, 2), (4, 4), (4, 4), (8, 8), (8, 8), (4, 4), (8, 8)];
    let others = [(3, 1), (6, 2), (12, 4), (12, 4), (24, 8), (4, 1), (9, 1), (9, 16)];
    assert_eq!(known, [&scalars[..], &others].concat());
    for code in [18, 31, 32, 49, 255] {
        assert_eq!(Datatype::from_code(code, 1, 1, 1).size(), Err(Refusal::Code));
    }
}

#[test]
fn attributes_are_packed() {
    let layout = Layout::EMPTY.add_attribute_packed(&attribute("A", U32), 4).unwrap();
    assert_eq!(placing(&layout.add_attribute_packed(&attribute("B", U8), 4).unwrap()), (vec![0, 4], 5, 1));
    let layout = Layout::EMPTY.add_attribute_packed(&attribute("A", U8), 3).unwrap();
    assert_eq!(placing(&layout.add_attribute_packed(&attribute("B", U32), 3).unwrap()), (vec![0, 3], 7, 1));
    assert_eq!(placed(&[U32]).add_attribute_packed(&attribute("B", U8), 3), Err(Refusal::Alignment));
    assert_eq!(Layout::EMPTY.add_attribute_packed(&attribute("A", U8), 0), Err(Refusal::Alignment));
}

#[test]
fn a_sheet_gives_the_layout_of_the_calls() {
    let by_calls = Layout::EMPTY.add_attribute(&attribute("P", U16)).and_then(|l| l.add_attribute(&attribute("C", U8)));
    assert_eq!(Layout::from_sheet(SOURCE), by_calls);
    let target = Layout::from_sheet(TARGET).unwrap();
    assert_eq!(placing(&target), (vec![4], 8, 4));
    assert_eq!(target.attributes(), [attribute("P", F32).at_offset(4)]);
    assert_eq!(point_size(TARGET), Ok(target.size().into()));
    assert_eq!(Layout::from_sheet(b"\x00"), Ok(Layout::EMPTY));
    assert_eq!(Layout::from_sheet(b""), Err(Refusal::SheetEnds));
}

#[test]
fn given_members_are_lent() {
    assert_eq!(Layout::from_members(&[], 1), Ok(Layout::EMPTY));
    assert_eq!(Layout::from_members(&members(&[(F32, 4)]), 4).map(|l| placing(&l)), Ok((vec![4], 8, 4)));
    assert_eq!(Layout::from_members(&members(&[(U32, 8), (U32, 0)]), 4).map(|l| placing(&l)), Ok((vec![8, 0], 12, 4)));
    assert_eq!(Layout::from_members(&members(&[(U8, 65534)]), 1).map(|l| l.size()), Ok(65535));
    let thirty_two: Vec<(Datatype, u16)> = (0..32).map(|i| (U8, i)).collect();
    assert_eq!(Layout::from_members(&members(&thirty_two), 1), Ok(placed(&[U8; 32])));
}

#[test]
fn given_members_are_refused() {
    let many: Vec<(Datatype, u16)> = (0..33).map(|i| (U8, i)).collect();
    assert_eq!(Layout::from_members(&members(&many), 1), Err(Refusal::TooMany));
    let twice = attribute("A", U8);
    assert_eq!(Layout::from_members(&[twice.at_offset(0), twice.at_offset(1)], 1), Err(Refusal::NameTwice));
    assert_eq!(Layout::from_members(&members(&[(U32, 0), (U8, 3)]), 1), Err(Refusal::SharedByte));
    assert_eq!(Layout::from_members(&members(&[(U8, 0)]), 0), Err(Refusal::Alignment));
    assert_eq!(Layout::from_members(&members(&[(U8, 65535)]), 1), Err(Refusal::TooLarge));
    assert_eq!(Layout::from_members(&members(&[(U8, 65534)]), 2), Err(Refusal::TooLarge));
}

#[test]
fn attributes_are_refused() {
    assert_eq!(Attribute::new("\x7f", U8), Err(Refusal::Name));
    assert_eq!(Attribute::new(&"n".repeat(32), U8), Err(Refusal::Name));
    assert_eq!(Attribute::new(&"n".repeat(256), U8), Err(Refusal::Name));
    assert_eq!(Attribute::new(&"n".repeat(31), U8).map(|a| a.name().len()), Ok(31));
    assert_eq!(Attribute::new("B", Datatype::from_code(18, 0, 0, 0)), Err(Refusal::Code));
    assert_eq!(Attribute::new("B", Datatype::byte_array(0)), Err(Refusal::DatatypeSize));
    let layout = placed(&[U8]);
    assert_eq!(placing(&layout.add_attribute(&attribute("B", Datatype::byte_array(255))).unwrap()), (vec![0, 1], 256, 1));
    assert_eq!(layout.add_attribute(&attribute("A", U8)), Err(Refusal::NameTwice));
    assert_eq!(placed(&[U8; 32]).add_attribute(&attribute("more", U8)), Err(Refusal::TooMany));
}

#[test]
fn byte_arrays_have_up_to_65535_bytes() {
    for n in [1, 255, 256, 257, 300, 512, 65535] {
        let array = Datatype::byte_array(n);
        assert_eq!((array.n(), array.size(), array.alignment()), (n, Ok(n.into()), Ok(1)));
        assert_eq!(placing(&placed(&[array])), (vec![0], n, 1));
        assert_eq!(Layout::from_members(&members(&[(array, 65535 - n)]), 1).map(|l| l.size()), Ok(65535));
        assert_eq!(Layout::from_members(&members(&[(array, 65535 - n), (U8, 65535)]), 1), Err(Refusal::TooLarge));
        assert_eq!(Layout::from_members(&members(&[(array, 65535)]), 1), Err(Refusal::TooLarge));
    }
    assert_eq!(format!("{:?}", Datatype::byte_array(65535)), "ByteArray(65535)");
    assert_eq!(placing(&placed(&[U8, Datatype::byte_array(300), U32])), (vec![0, 1, 304], 308, 4));
    // the last byte of a long one is its own
    assert_eq!(Layout::from_members(&members(&[(Datatype::byte_array(300), 0), (U8, 299)]), 1), Err(Refusal::SharedByte));
    assert_eq!(Layout::from_members(&members(&[(Datatype::byte_array(300), 0), (U8, 300)]), 1).map(|l| l.size()), Ok(301));
    assert_eq!(Layout::filled_in(&members(&[(Datatype::byte_array(300), 0)]), 44, 1).unwrap().index_of(&attribute("A", U8)), Err(Refusal::NotSound));
}

#[test]
fn byte_arrays_that_pass_65535_are_refused() {
    let longest = placed(&[Datatype::byte_array(65535)]);
    for datatype in [U8, U16, Datatype::byte_array(1), Datatype::byte_array(65535)] {
        assert_eq!(longest.add_attribute(&attribute("B", datatype)), Err(Refusal::TooLarge));
        assert_eq!(longest.add_attribute_packed(&attribute("B", datatype), 1), Err(Refusal::TooLarge));
    }
    // the end does not pass it, and the size, a multiple of 2, does
    let number = placed(&[U16]);
    assert_eq!(number.add_attribute(&attribute("B", Datatype::byte_array(65533))), Err(Refusal::TooLarge));
    assert_eq!(placing(&number.add_attribute(&attribute("B", Datatype::byte_array(65532))).unwrap()), (vec![0, 2], 65534, 2));
    let half = placed(&[Datatype::byte_array(40000)]);
    assert_eq!(half.add_attribute(&attribute("B", Datatype::byte_array(40000))), Err(Refusal::TooLarge));
    assert_eq!(half.add_attribute(&attribute("B", Datatype::byte_array(25535))).map(|l| l.size()), Ok(65535));
}

#[test]
fn sheets_have_long_byte_arrays() {
    let sheets: [(u16, &[u8]); 5] = [
        (255, b"\x04\x08\x7f\x80\x00"),
        (256, b"\x04\x08\x00\x00\x80\x00\x00"),
        (257, b"\x04\x08\x00\x00\x80\x80\x00"),
        (300, b"\x04\x08\x00\x00\x96\x00\x00"),
        (65535, b"\x04\x08\x00\x7f\xff\x80\x00"),
    ];
    for (n, sheet) in sheets {
        let by_call = Layout::EMPTY.add_attribute(&attribute("", Datatype::byte_array(n)));
        assert_eq!(Layout::from_sheet(sheet), by_call);
        assert_eq!(point_size(sheet), Ok(n.into()));
    }
    // 255 in 16 bits; n 0 and the sheet's end
    assert_eq!(Layout::from_sheet(b"\x04\x08\x00\x00\x7f\x80\x00"), Err(Refusal::DatatypeSize));
    assert_eq!(Layout::from_sheet(b"\x04\x08\x00\x00"), Err(Refusal::SheetEnds));
}

// Each pair has the same low 8 bits.
const LOW_BITS: [(u16, u16); 5] = [(256, 512), (257, 1), (300, 44), (65535, 255), (65280, 256)];

#[test]
fn byte_arrays_are_looked_up_by_all_bits_of_n() {
    for (n, other) in LOW_BITS {
        let (layout, low) = (placed(&[Datatype::byte_array(n)]), placed(&[Datatype::byte_array(other)]));
        assert_ne!(Datatype::byte_array(n), Datatype::byte_array(other));
        assert_ne!(layout, low);
        assert_eq!(layout.index_of(&attribute("A", Datatype::byte_array(n))), Ok(Some(0)));
        assert_eq!(layout.offset_of(&attribute("A", Datatype::byte_array(n))), Ok(Some(0)));
        assert_eq!(layout.index_of(&attribute("A", Datatype::byte_array(other))), Ok(None));
        assert_eq!(layout.offset_of(&attribute("A", Datatype::byte_array(other))), Ok(None));
        assert_eq!(low.index_of(&attribute("A", Datatype::byte_array(n))), Ok(None));
        assert_eq!(layout.compare_without_offsets(&layout), Ok(true));
        assert_eq!(layout.compare_without_offsets(&low), Ok(false));
        assert_eq!(convert_point(&layout, &low, &[], &mut []), Err(Refusal::NoCast));
        assert_eq!(convert_point(&layout, &layout, &[], &mut []), Ok(()));
    }
    // n of another datatype is not looked at
    assert_eq!(placed(&[U8]).index_of(&attribute("A", Datatype::from_code(0, 256, 0, 0))), Ok(Some(0)));
}

#[test]
fn shared_bytes_and_large_ends_are_refused() {
    // U32 at 8 and U32 at 0: the next U64 would lie at 8.
    let given = Layout::from_members(&members(&[(U32, 8), (U32, 0)]), 4).unwrap();
    assert_eq!(given.add_attribute(&attribute("C", U64)), Err(Refusal::SharedByte));
    let late = Layout::from_members(&members(&[(U8, 65534)]), 1).unwrap();
    assert_eq!(late.add_attribute(&attribute("B", U8)), Err(Refusal::TooLarge));
}

#[test]
fn attributes_are_looked_up() {
    let layout = Layout::from_members(&members(&[(U32, 8), (U16, 0)]), 4).unwrap();
    assert_eq!(layout.get_attribute_by_name("A"), Ok(Some(0)));
    assert_eq!(layout.get_attribute_by_name("B"), Ok(Some(1)));
    assert_eq!(layout.get_attribute_by_name("AB"), Ok(None));
    assert_eq!(layout.get_attribute_by_name(""), Ok(None));
    assert_eq!(layout.get_attribute_by_name(&"n".repeat(31)), Ok(None));
    assert_eq!(layout.get_attribute_by_name(&"n".repeat(32)), Err(Refusal::Name));
    assert_eq!(layout.get_attribute_by_name(&"n".repeat(300)), Err(Refusal::Name));
    assert_eq!(layout.index_of(&attribute("B", U16)), Ok(Some(1)));
    assert_eq!(layout.index_of(&attribute("B", U32)), Ok(None));
    assert_eq!(layout.offset_of(&attribute("A", U32)), Ok(Some(8)));
    assert_eq!(layout.offset_of(&attribute("A", U16)), Ok(None));
    let longest = Layout::EMPTY.add_attribute(&attribute(&"n".repeat(31), U8)).unwrap();
    assert_eq!(longest.get_attribute_by_name(&"n".repeat(31)), Ok(Some(0)));
}

#[test]
fn layouts_are_compared_without_offsets() {
    let one = Layout::from_members(&members(&[(U32, 8), (U16, 0)]), 4).unwrap();
    let other = Layout::EMPTY.add_attribute(&attribute("B", U16)).and_then(|l| l.add_attribute(&attribute("A", U32))).unwrap();
    assert_eq!(one.compare_without_offsets(&other), Ok(true));
    assert_eq!(one.compare_without_offsets(&placed(&[U32, U32])), Ok(false));
    assert_eq!(one.compare_without_offsets(&placed(&[U32])), Ok(false));
    assert_eq!(Layout::EMPTY.compare_without_offsets(&Layout::EMPTY), Ok(true));
}

#[test]
fn layouts_that_are_not_sound_are_refused() {
    let sound = placed(&[U32, U8]);
    let fill = |list: &[(Datatype, u16)], size, alignment| Layout::filled_in(&members(list), size, alignment).unwrap();
    let unsound = [
        fill(&[], 0, 3),
        fill(&[], 0, 0),
        fill(&[(U32, 0), (U8, 4)], 4, 4),
        fill(&[(U32, 0), (U8, 4)], 6, 4),
        fill(&[(U32, 0), (U8, 3)], 8, 4),
    ];
    assert_eq!(fill(&[(U32, 0), (U8, 4)], 8, 4), sound);
    assert_eq!(Layout::filled_in(&members(&[(U8, 0); 33]), 33, 1), Err(Refusal::TooMany));
    let c = attribute("C", U8);
    for layout in unsound {
        assert_eq!(layout.add_attribute(&c), Err(Refusal::NotSound));
        assert_eq!(layout.get_attribute_by_name(&"n".repeat(32)), Err(Refusal::NotSound));
        assert_eq!(layout.index_of(&c), Err(Refusal::NotSound));
        assert_eq!(layout.offset_of(&c), Err(Refusal::NotSound));
        assert_eq!(layout.compare_without_offsets(&sound), Err(Refusal::NotSound));
        assert_eq!(sound.compare_without_offsets(&layout), Err(Refusal::NotSound));
        let mut target = [7; 8];
        assert_eq!(convert_point(&layout, &sound, &[1; 8], &mut target), Err(Refusal::NotSound));
        assert_eq!(convert_point(&sound, &layout, &[1; 8], &mut target), Err(Refusal::NotSound));
        assert_eq!(read_point(&layout, 99, 1, &[], 0), Err(Refusal::NotSound));
        assert_eq!(write_point(&layout, 0, 1, &mut target, 0, &[1]), Err(Refusal::NotSound));
        assert_eq!(View::of(&layout, 0, 1, &target), Err(Refusal::NotSound));
        assert_eq!(target, [7; 8]);
    }
}

#[test]
fn points_are_cast_where_datatypes_differ() {
    let source = placed(&[U16, U8, U32]);
    let target = placed(&[F32, U8]);
    let mut point = [7; 8];
    assert_eq!(convert_point(&source, &target, &[0x2c, 1, 9, 9, 9, 9, 9, 9], &mut point), Ok(()));
    assert_eq!(point[..4], 300f32.to_le_bytes());
    assert_eq!(point[4..], [7; 4]);
}

#[test]
fn points_that_end_early_are_refused() {
    let source = placed(&[U16]);
    let target = placed(&[F32]);
    let mut point = [7; 4];
    assert_eq!(convert_point(&source, &target, &[1], &mut point), Err(Refusal::PointEnds));
    assert_eq!(convert_point(&source, &target, &[1, 0], &mut point[..3]), Err(Refusal::PointEnds));
    assert_eq!(convert_point(&source, &placed(&[Datatype::VEC3_U8]), &[], &mut point), Err(Refusal::NoCast));
    assert_eq!(point, [7; 4]);
    // A longer point is accepted, and with equal datatypes there is no pair.
    assert_eq!(convert_point(&source, &target, &[1, 0, 5], &mut point), Ok(()));
    assert_eq!(point, 1f32.to_le_bytes());
    assert_eq!(convert_point(&source, &source, &[], &mut []), Ok(()));
}

#[test]
fn attributes_of_points_are_read() {
    // P U16 at 0, C U8 at 2, a point of 4 bytes.
    let layout = Layout::from_sheet(SOURCE).unwrap();
    let points = [1, 2, 3, 4, 11, 12, 13, 14, 21, 22, 23, 24];
    assert_eq!(read_point(&layout, 0, 3, &points, 0), Ok(&[1, 2][..]));
    assert_eq!(read_point(&layout, 0, 3, &points, 2), Ok(&[21, 22][..]));
    assert_eq!(read_point(&layout, 1, 3, &points, 1), Ok(&[13][..]));
    assert!(std::ptr::eq(read_point(&layout, 1, 3, &points, 1).unwrap(), &points[6..7]));
    assert_eq!(read_point(&layout, 2, 9, &points, 9), Err(Refusal::NoPlace));
    assert_eq!(read_point(&layout, u32::MAX, 3, &points, 0), Err(Refusal::NoPlace));
    assert_eq!(read_point(&layout, 1, 2, &points, 9), Err(Refusal::SourceLength));
    assert_eq!(read_point(&layout, 1, 3, &points, 3), Err(Refusal::SourceRange));
    assert_eq!(read_point(&layout, 1, 3, &points, u64::MAX), Err(Refusal::SourceRange));
    assert_eq!(read_point(&layout, 1, 0, &[], 0), Err(Refusal::SourceRange));
}

#[test]
fn long_attributes_of_points_are_read_and_written() {
    let layout = placed(&[U8, Datatype::byte_array(300)]);
    let mut points: Vec<u8> = (0..3 * 301).map(|i: u32| (i % 251) as u8).collect();
    let before = points.clone();
    assert_eq!(read_point(&layout, 1, 3, &points, 1), Ok(&before[302..602]));
    let view = View::of(&layout, 1, 3, &points).unwrap();
    assert_eq!((view.offset(), view.stride(), view.size()), (1, 301, 300));
    assert_eq!(view.read(&points, 2), Ok(&before[603..]));
    assert_eq!(write_point(&layout, 1, 3, &mut points, 1, &[255; 400]), Ok(()));
    assert_eq!(points, [&before[..302], &[255; 300], &before[602..]].concat());
}

#[test]
fn attributes_of_points_are_written() {
    let layout = Layout::from_sheet(SOURCE).unwrap();
    let mut points = [1, 2, 3, 4, 11, 12, 13, 14];
    assert_eq!(write_point(&layout, 0, 2, &mut points, 1, &[7, 8]), Ok(()));
    assert_eq!(points, [1, 2, 3, 4, 7, 8, 13, 14]);
    // a longer value ends at the part's end, a shorter one leaves the part's rest
    assert_eq!(write_point(&layout, 1, 2, &mut points, 0, &[5, 6, 6]), Ok(()));
    assert_eq!(write_point(&layout, 0, 2, &mut points, 0, &[9]), Ok(()));
    assert_eq!(write_point(&layout, 0, 2, &mut points, 0, &[]), Ok(()));
    assert_eq!(points, [9, 2, 5, 4, 7, 8, 13, 14]);
    assert_eq!(write_point(&layout, 2, 2, &mut points, 0, &[1]), Err(Refusal::NoPlace));
    assert_eq!(write_point(&layout, 0, 3, &mut points, 0, &[1]), Err(Refusal::SourceLength));
    assert_eq!(write_point(&layout, 0, 2, &mut points, 2, &[1]), Err(Refusal::SourceRange));
    assert_eq!(points, [9, 2, 5, 4, 7, 8, 13, 14]);
}

#[test]
fn views_show_and_take_parts() {
    let layout = Layout::from_sheet(SOURCE).unwrap();
    let mut points = [1, 2, 3, 4, 11, 12, 13, 14];
    let view = View::of(&layout, 1, 2, &points).unwrap();
    assert_eq!((view.offset(), view.stride(), view.size()), (2, 4, 1));
    assert_eq!(view.read(&points, 0), Ok(&[3][..]));
    assert_eq!(view.read(&points, 1), Ok(&[13][..]));
    assert_eq!(view.read(&points, 2), Err(Refusal::SourceRange));
    assert_eq!(view.write(&mut points, 1, &[9, 9]), Ok(()));
    assert_eq!(view.write(&mut points, 2, &[9]), Err(Refusal::SourceRange));
    assert_eq!(points, [1, 2, 3, 4, 11, 12, 9, 14]);
    assert_eq!(View::of(&layout, 2, 2, &points), Err(Refusal::NoPlace));
    assert_eq!(View::of(&layout, 1, 1, &points), Err(Refusal::SourceLength));
    // fields that the caller filled in; nothing wraps
    assert_eq!(View::filled_in(0, 0, 8).read(&points, u64::MAX), Ok(&points[..]));
    assert_eq!(View::filled_in(1, u64::MAX, 1).read(&points, u64::MAX), Err(Refusal::SourceRange));
    assert_eq!(View::filled_in(u64::MAX, 1, u64::MAX).read(&points, 0), Err(Refusal::SourceRange));
    assert_eq!(View::filled_in(8, 4, 0).read(&points, 0), Ok(&[][..]));
}
