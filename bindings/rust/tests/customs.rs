// Customs: sizes, alignments and names; where they are placed; what is equal, in lookups, comparisons, plans and single points; copies; sheets.
use nakvisk::{convert_point, point_size, read_point, Attribute, Datatype, Layout, Mapping, Plan, PointRange, Refusal, Storage};

const NAME: u128 = 0x0e6f2c54_8b1d_4f3a_9c07_d25a61b8e493;
const SEAL: Datatype = Datatype::custom(16, 8, NAME);

const U8: Datatype = Datatype::U8;
const U32: Datatype = Datatype::U32;

// Customs that differ from SEAL in one of size, alignment and name: the size by 1 and by 256, the name in its first bit, its last and those
// beside its middle, its halves or all its bytes turned round, no bit and all bits.
fn others() -> Vec<Datatype> {
    let bits = [0, 63, 64, 127].map(|bit| NAME ^ (1 << bit));
    let names = [&bits[..], &[NAME.rotate_left(64), NAME.swap_bytes(), 0, u128::MAX]].concat();
    let sizes = [15, 17, 272].map(|size| Datatype::custom(size, 8, NAME));
    let alignments = [0, 1, 7, 9, 16, 136].map(|alignment| Datatype::custom(16, alignment, NAME));
    sizes.into_iter().chain(alignments).chain(names.into_iter().map(|name| Datatype::custom(16, 8, name))).collect()
}

// The codes below 17, with all that a Custom has.
fn other_codes() -> impl Iterator<Item = Datatype> {
    (0..17).map(|code| Datatype::from_code(code, 16, 8, NAME))
}

fn attribute(datatype: Datatype) -> Attribute {
    Attribute::new("S", datatype).unwrap()
}

// A layout of one attribute, S, at 0.
fn one(datatype: Datatype) -> Layout {
    Layout::from_members(&[attribute(datatype).at_offset(0)], 1).unwrap()
}

// S behind attributes A, B, .. of these datatypes, all by Default.
fn behind(datatypes: &[Datatype], custom: Datatype) -> Result<Layout, Refusal> {
    let before = ["A", "B", "C"].iter().zip(datatypes).fold(Layout::EMPTY, |layout, (name, &datatype)| {
        layout.add_attribute(&Attribute::new(name, datatype).unwrap()).unwrap()
    });
    before.add_attribute(&attribute(custom))
}

// The offset of the last attribute, the point size and the alignment.
fn placing(layout: Result<Layout, Refusal>) -> Result<(u16, u16, u16), Refusal> {
    layout.map(|layout| (layout.attributes().last().unwrap().offset(), layout.size(), layout.alignment()))
}

fn range(storage: Storage, count: u32) -> PointRange {
    PointRange { storage, count, start: 0, end: count }
}

#[test]
fn a_custom_has_a_size_an_alignment_and_a_name() {
    for (size, alignment, name) in [(1, 0, 0), (16, 8, NAME), (256, 3, 1), (65535, 255, u128::MAX), (7, 128, 1 << 64)] {
        let custom = Datatype::custom(size, alignment, name);
        assert_eq!((custom.code(), custom.n(), custom.min_alignment(), custom.name()), (17, size, alignment, name));
        assert_eq!((custom.size(), custom.alignment()), (Ok(size.into()), Ok(alignment.into())));
        assert_eq!(Datatype::from_code(17, size, alignment, name), custom);
    }
    assert_eq!(format!("{SEAL:?}"), "Custom(16, 8, 0x0e6f2c548b1d4f3a9c07d25a61b8e493)");
    assert_eq!(format!("{:?}", attribute(Datatype::custom(1, 0, 0))), "S: Custom(1, 0, 0x00000000000000000000000000000000)");
}

#[test]
fn size_0_is_refused() {
    for none in [Datatype::custom(0, 8, NAME), Datatype::custom(0, 0, 0), Datatype::custom(0, 3, 0)] {
        assert_eq!((none.size(), none.alignment()), (Err(Refusal::DatatypeSize), Err(Refusal::DatatypeSize)));
        assert_eq!(Attribute::new("S", none), Err(Refusal::DatatypeSize));
    }
}

#[test]
fn customs_are_placed_by_default() {
    let custom = |size, alignment| Datatype::custom(size, alignment, NAME);
    // 0 pads nothing and leaves the layout's alignment, as 1 does
    for alignment in [0, 1] {
        assert_eq!(placing(behind(&[], custom(5, alignment))), Ok((0, 5, 1)));
        assert_eq!(placing(behind(&[U8], custom(5, alignment))), Ok((1, 6, 1)));
        assert_eq!(placing(behind(&[U32], custom(5, alignment))), Ok((4, 12, 4)));
        assert_eq!(placing(behind(&[U32, U8], custom(2, alignment))), Ok((5, 8, 4)));
    }
    assert_eq!(placing(behind(&[U8], custom(16, 16))), Ok((16, 32, 16)));
    assert_eq!(placing(behind(&[U8], custom(5, 128))), Ok((128, 256, 128)));
    assert_eq!(placing(behind(&[custom(5, 128)], custom(1, 16))), Ok((16, 128, 128)));
    // 3: at a multiple of 3; refused where the layout's alignment becomes 3
    assert_eq!(placing(behind(&[U32], custom(5, 3))), Ok((6, 12, 4)));
    assert_eq!(placing(behind(&[U32, U8], custom(5, 3))), Ok((6, 12, 4)));
    assert_eq!(placing(behind(&[Datatype::F64], custom(1, 7))), Ok((14, 16, 8)));
    assert_eq!(behind(&[], custom(5, 3)), Err(Refusal::Alignment));
    assert_eq!(behind(&[U8], custom(5, 3)), Err(Refusal::Alignment));
    assert_eq!(behind(&[Datatype::U16], custom(5, 3)), Err(Refusal::Alignment));
    assert_eq!(behind(&[Datatype::F64], custom(5, 255)), Err(Refusal::Alignment));
    // the attribute after it, and ends
    let after = behind(&[U32], custom(5, 3)).and_then(|layout| layout.add_attribute(&Attribute::new("Z", U8)?));
    assert_eq!(placing(after), Ok((11, 12, 4)));
    assert_eq!(placing(behind(&[], custom(65535, 1))), Ok((0, 65535, 1)));
    assert_eq!(behind(&[], custom(65535, 2)), Err(Refusal::TooLarge));
    assert_eq!(behind(&[U8], custom(65408, 128)), Err(Refusal::TooLarge));
    assert_eq!(placing(behind(&[U8], custom(65280, 128))), Ok((128, 65408, 128)));
}

#[test]
fn customs_are_packed() {
    let packed = |before: Datatype, alignment, p| {
        let layout = Layout::EMPTY.add_attribute(&Attribute::new("A", before).unwrap()).unwrap();
        placing(layout.add_attribute_packed(&attribute(Datatype::custom(5, alignment, NAME)), p))
    };
    assert_eq!(packed(U8, 0, 4), Ok((1, 6, 1)));
    assert_eq!(packed(U32, 0, 255), Ok((4, 12, 4)));
    assert_eq!(packed(U32, 3, 4), Ok((6, 12, 4)));
    assert_eq!(packed(U32, 3, 2), Ok((4, 10, 2)));
    assert_eq!(packed(U8, 128, 4), Ok((4, 9, 1)));
    assert_eq!(packed(U32, 3, 3), Err(Refusal::Alignment));
    assert_eq!(packed(U8, 3, 3), Ok((3, 8, 1)));
}

#[test]
fn given_customs_lie_where_they_are_put() {
    let member = attribute(Datatype::custom(5, 128, NAME)).at_offset(7);
    assert_eq!(placing(Layout::from_members(&[member], 1)), Ok((7, 12, 1)));
    let three = attribute(Datatype::custom(5, 3, NAME)).at_offset(1);
    assert_eq!(placing(Layout::from_members(&[three], 2)), Ok((1, 6, 2)));
    let shared = [three, Attribute::new("A", U8).unwrap().at_offset(5)];
    assert_eq!(Layout::from_members(&shared, 1), Err(Refusal::SharedByte));
    // a layout that is filled in so is sound
    assert_eq!(Layout::filled_in(&[three], 6, 2).unwrap().index_of(&three.attribute()), Ok(Some(0)));
}

#[test]
fn customs_are_looked_up_by_size_alignment_and_name() {
    let layout = one(SEAL);
    assert_eq!(layout.index_of(&attribute(SEAL)), Ok(Some(0)));
    assert_eq!(layout.offset_of(&attribute(SEAL)), Ok(Some(0)));
    assert_eq!(layout.get_attribute_by_name("S"), Ok(Some(0)));
    assert_eq!(layout.compare_without_offsets(&one(SEAL)), Ok(true));
    for other in others().into_iter().chain(other_codes()) {
        assert_ne!(SEAL, other);
        assert_ne!(layout, one(other));
        for (layout, datatype) in [(layout, other), (one(other), SEAL)] {
            assert_eq!(layout.index_of(&attribute(datatype)), Ok(None), "{other:?}");
            assert_eq!(layout.offset_of(&attribute(datatype)), Ok(None), "{other:?}");
            assert_eq!(layout.compare_without_offsets(&one(datatype)), Ok(false), "{other:?}");
        }
    }
    // what a code does not have is not looked at
    for filled in other_codes() {
        let plain = Datatype::from_code(filled.code(), filled.n(), 0, 0);
        assert_eq!(filled, plain);
        assert_eq!(one(filled).index_of(&attribute(plain)), Ok(Some(0)));
        assert_eq!(one(filled).compare_without_offsets(&one(plain)), Ok(true));
    }
}

#[test]
fn customs_pair_with_their_equals_alone() {
    let plan = Plan::for_layouts(&one(SEAL), &one(SEAL)).unwrap();
    assert_eq!(plan.list().as_deref(), Ok("source 1 16 1\ntarget 1 16 1\n0 16 0 16 copy S\n"));
    for other in others().into_iter().chain(other_codes()) {
        for (source, target) in [(one(SEAL), one(other)), (one(other), one(SEAL))] {
            assert_eq!(Plan::for_layouts(&source, &target), Err(Refusal::NoCast), "{other:?}");
            assert_eq!(Plan::for_layouts_with_default(&source, &target), Err(Refusal::NoCast), "{other:?}");
            assert_eq!(Plan::from_mapping_sheet(&source, &target, b"\x00"), Err(Refusal::NoCast), "{other:?}");
            let none = Plan::filled_in(&source, &target, &[]).unwrap();
            assert_eq!(none.set_custom_mapping(0, 0), Err(Refusal::NoCast), "{other:?}");
            let filled = Plan::filled_in(&source, &target, &[Mapping::new(0, 0)]).unwrap();
            assert_eq!(filled.list(), Err(Refusal::NotSound), "{other:?}");
            let mut bytes = [7; 400];
            let lent = &mut bytes[..target.size().into()];
            let points = PointRange::interleaved(1, 0..1);
            assert_eq!(filled.convert(&vec![1; source.size().into()], points, lent, points), Err(Refusal::NotSound), "{other:?}");
            // same-named attributes of a single point: neither copied nor cast
            assert_eq!(convert_point(&source, &target, &[1; 400], &mut bytes), Err(Refusal::NoCast), "{other:?}");
            assert_eq!(bytes, [7; 400]);
        }
    }
}

#[test]
fn equal_customs_of_single_points_are_passed_over() {
    let source = behind(&[U8], SEAL).unwrap();
    let target = behind(&[U32], SEAL).unwrap();
    let mut point = [9; 24];
    assert_eq!(convert_point(&source, &target, &[5; 24], &mut point), Ok(()));
    assert_eq!(point[..4], [5, 0, 0, 0]);
    assert_eq!(point[4..], [9; 20]);
    assert_eq!(convert_point(&one(SEAL), &one(SEAL), &[], &mut []), Ok(()));
}

#[test]
fn equal_customs_are_copied() {
    // a U32 and S behind it, at its alignment; S at 1 and the U32 as an F64 at the next multiple of 8
    for (size, alignment) in [(16, 8), (16, 0), (5, 3), (16, 128), (300, 16), (60000, 1)] {
        let custom = Datatype::custom(size, alignment, NAME);
        let length = usize::from(size);
        let source = behind(&[U32], custom).unwrap();
        let at = usize::from(source.attributes()[1].offset());
        let end = (1 + length + 7) / 8 * 8;
        let members = [attribute(custom).at_offset(1), Attribute::new("A", Datatype::F64).unwrap().at_offset(end as u16)];
        let target = Layout::from_members(&members, 8).unwrap();
        let plan = Plan::for_layouts(&source, &target).unwrap();
        let seals: Vec<Vec<u8>> = (0..3).map(|p| (0..length).map(|k| (k % 251 + p) as u8).collect()).collect();
        let numbers = [1u32, 70_000, u32::MAX];
        let (mut points, mut made) = (vec![8; 3 * usize::from(source.size())], vec![7; 3 * usize::from(target.size())]);
        for p in 0..3 {
            let (from, to) = (p * usize::from(source.size()), p * usize::from(target.size()));
            points[from..from + 4].copy_from_slice(&numbers[p].to_le_bytes());
            points[from + at..from + at + length].copy_from_slice(&seals[p]);
            made[to + 1..to + 1 + length].copy_from_slice(&seals[p]);
            made[to + end..to + end + 8].copy_from_slice(&f64::from(numbers[p]).to_le_bytes());
        }
        assert_eq!(read_point(&source, 1, 3, &points, 2), Ok(&seals[2][..]));
        let columns = [numbers.map(u32::to_le_bytes).concat(), seals.concat()].concat();
        let made_columns = [seals.concat(), numbers.map(|n| f64::from(n).to_le_bytes()).concat()].concat();
        for (bytes, from) in [(&points, Storage::Interleaved), (&columns, Storage::Columns)] {
            for (due, to) in [(&made, Storage::Interleaved), (&made_columns, Storage::Columns)] {
                let mut into = vec![7; due.len()];
                assert_eq!(plan.convert(bytes, range(from, 3), &mut into, range(to, 3)), Ok(0));
                assert!(into == *due, "{custom:?}, {from:?} into {to:?}");
            }
        }
    }
}

// A placed sheet of one Custom with the empty name: its fields stand behind 17 bits, the number of attributes, the kind, the length and the code.
fn sheet(size: u16, alignment: u8, name: u128, packing: u8) -> Vec<u8> {
    let fields = [&size.to_be_bytes()[..], &[alignment], &name.to_be_bytes(), &[packing]].concat();
    let shifted = fields.iter().scan(1, |above, byte| Some((std::mem::replace(above, byte & 1) << 7) | (byte >> 1)));
    [4, 8].into_iter().chain(shifted).chain([packing << 7]).collect()
}

#[test]
fn sheets_have_customs() {
    assert_eq!(sheet(16, 8, NAME, 0), b"\x04\x08\x80\x08\x04\x07\x37\x96\x2a\x45\x8e\xa7\x9d\x4e\x03\xe9\x2d\x30\xdc\x72\x49\x80\x00");
    let names = [NAME, 0, 1, 1 << 63, 1 << 64, 1 << 127, u128::MAX];
    for ((size, alignment), name) in [(16, 8), (1, 0), (255, 1), (256, 2), (300, 4), (65408, 128), (9, 16)].into_iter().zip(names) {
        let bytes = sheet(size, alignment, name, 0);
        let attribute = Attribute::new("", Datatype::custom(size, alignment, name)).unwrap();
        let layout = Layout::from_sheet(&bytes).unwrap();
        assert_eq!(Ok(layout), Layout::EMPTY.add_attribute(&attribute));
        let read = layout.attributes()[0].attribute().datatype();
        assert_eq!((read.code(), read.n(), read.min_alignment(), read.name()), (17, size, alignment, name));
        assert_eq!(point_size(&bytes), Ok(layout.size().into()));
        assert_eq!(Layout::from_sheet(&sheet(size, alignment, name, 4)), Layout::EMPTY.add_attribute_packed(&attribute, 4));
        for length in 0..bytes.len() {
            assert_eq!(Layout::from_sheet(&bytes[..length]), Err(Refusal::SheetEnds));
        }
        assert_eq!(Layout::from_sheet(&[&bytes[..], &[0]].concat()), Err(Refusal::SheetGoesOn));
    }
}

#[test]
fn given_sheets_have_customs() {
    // alignment 2; the empty name, 5 bytes, alignment 3, name 1, at 7
    let bytes = b"\x06\x00\x04\x08\x80\x02\x81\x80\0\0\0\0\0\0\0\0\0\0\0\0\0\0\0\x80\x03\x80";
    let member = Attribute::new("", Datatype::custom(5, 3, 1)).unwrap().at_offset(7);
    assert_eq!(Layout::from_sheet(bytes), Layout::from_members(&[member], 2));
    assert_eq!(Layout::from_sheet(bytes).map(|layout| layout.size()), Ok(12));
}

#[test]
fn sheets_with_customs_are_refused() {
    // 6 at once, wherever the sheet ends after the size; 10 for an alignment that is no power of two, but not behind packing 1
    let none = sheet(0, 8, NAME, 0);
    for length in 5..=none.len() {
        assert_eq!(Layout::from_sheet(&none[..length]), Err(Refusal::DatatypeSize));
    }
    assert_eq!(Layout::from_sheet(&none[..4]), Err(Refusal::SheetEnds));
    assert_eq!(Layout::from_sheet(&sheet(1, 3, 0, 0)), Err(Refusal::Alignment));
    assert_eq!(Layout::from_sheet(&sheet(1, 3, 0, 1)).map(|layout| layout.size()), Ok(1));
    assert_eq!(Layout::from_sheet(&sheet(65535, 2, 0, 0)), Err(Refusal::TooLarge));
    assert_eq!(Layout::from_sheet(b"\x04\x09\x00"), Err(Refusal::Code));
}
