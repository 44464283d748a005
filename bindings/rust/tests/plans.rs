// Plans by value: made from sheets and from layouts, changed by custom mappings, filled in by hand, and what a plan converts.
use nakvisk::{convert, list, Attribute, Datatype, Layout, Mapping, Member, Plan, PointRange, Refusal, Sheets, LISTING_SIZE};
use std::ops::Range;

// Document 01's example: P U16, C U8 placed by Default; P F32 given at 4, alignment 4; by name.
const SOURCE: &[u8] = b"\x08\x15\x01\x00\x05\x0c\x00\x00";
const TARGET: &[u8] = b"\x06\x00\x08\x15\x04\x00\x02\x00";
const EXAMPLE: Sheets = Sheets::new(SOURCE, TARGET, b"\x00");

fn layout(attributes: &[(&str, Datatype)]) -> Layout {
    attributes.iter().fold(Layout::EMPTY, |layout, (name, datatype)| {
        layout.add_attribute(&Attribute::new(name, *datatype).unwrap()).unwrap()
    })
}

fn points(count: u32, range: Range<u32>) -> PointRange {
    PointRange::interleaved(count, range)
}

fn layouts() -> (Layout, Layout) {
    (Layout::from_sheet(SOURCE).unwrap(), Layout::from_sheet(TARGET).unwrap())
}

#[test]
fn a_plan_is_one_however_it_is_made() {
    let (source, target) = layouts();
    let plan = Plan::from_sheets(EXAMPLE).unwrap();
    let input = [&[0, 8][..], SOURCE, &[0, 8], TARGET, &[0, 1, 0]].concat();
    assert_eq!(Plan::from_input(&input), Ok(plan));
    assert_eq!(Plan::from_mapping_sheet(&source, &target, b"\x00"), Ok(plan));
    assert_eq!(Plan::for_layouts(&source, &target), Ok(plan));
    assert_eq!(Plan::for_layouts_with_default(&source, &target), Ok(plan));
    assert_eq!(Plan::filled_in(&source, &target, &[Mapping::new(0, 0)]), Ok(plan));
    assert_eq!((plan.source(), plan.target(), plan.mappings()), (source, target, &[Mapping::new(0, 0)][..]));
    assert_eq!(plan.list(), list(EXAMPLE));
    assert_eq!(plan.list().as_deref(), Ok("source 2 4 2\ntarget 1 8 4\n0 2 4 4 cast P\n"));
}

#[test]
fn a_plan_converts_as_its_sheets_do() {
    let plan = Plan::from_sheets(EXAMPLE).unwrap();
    let source = [1, 0, 9, 9, 0x2c, 1, 9, 9, 0xff, 0xff, 9, 9];
    let (mut target, mut by_sheets) = ([7; 32], [7; 32]);
    assert_eq!(plan.convert(&source, points(3, 1..3), &mut target, points(4, 2..4)), Ok(0));
    assert_eq!(convert(EXAMPLE, &source, points(3, 1..3), &mut by_sheets, points(4, 2..4)), Ok(0));
    assert_eq!(target, by_sheets);
    assert_eq!(target[20..24], 300f32.to_le_bytes());
    assert_eq!(target[..20], [7; 20]);
}

#[test]
fn names_are_found_or_passed_over() {
    let source = layout(&[("A", Datatype::U8)]);
    let target = layout(&[("B", Datatype::U8), ("A", Datatype::U16)]);
    assert_eq!(Plan::for_layouts(&source, &target), Err(Refusal::NoSource));
    let plan = Plan::for_layouts_with_default(&source, &target).unwrap();
    assert_eq!(plan.mappings(), [Mapping::new(0, 1)]);
    let other = layout(&[("A", Datatype::VEC3_U8)]);
    assert_eq!(Plan::for_layouts(&source, &other), Err(Refusal::NoCast));
    assert_eq!(Plan::for_layouts_with_default(&source, &other), Err(Refusal::NoCast));
    assert_eq!(Plan::from_mapping_sheet(&source, &target, b"\x02"), Ok(plan));
    assert_eq!(Plan::from_mapping_sheet(&source, &target, b"\x00"), Err(Refusal::NoSource));
    assert_eq!(Plan::from_mapping_sheet(&source, &target, b""), Err(Refusal::SheetEnds));
    assert_eq!(Plan::from_mapping_sheet(&source, &target, b"\x84"), Err(Refusal::TooMany));
    assert_eq!(Plan::from_mapping_sheet(&source, &target, b"\x01"), Err(Refusal::SheetGoesOn));
}

#[test]
fn custom_mappings_replace_or_join() {
    let source = layout(&[("A", Datatype::U8), ("B", Datatype::U16), ("C", Datatype::VEC3_U8)]);
    let target = layout(&[("A", Datatype::U32), ("Height", Datatype::F32)]);
    let plan = Plan::for_layouts_with_default(&source, &target).unwrap();
    let plan = plan.set_custom_mapping(1, 1).unwrap();
    assert_eq!(plan.mappings(), [Mapping::new(0, 0), Mapping::new(1, 1)]);
    let plan = plan.set_custom_mapping(1, 0).unwrap();
    assert_eq!(plan.mappings(), [Mapping::new(1, 0), Mapping::new(1, 1)]);
    for (from, to) in [(3, 0), (0, 2), (256, 0), (0, 256), (u32::MAX, u32::MAX), (255, 255)] {
        assert_eq!(plan.set_custom_mapping(from, to), Err(Refusal::NoPlace));
    }
    assert_eq!(plan.set_custom_mapping(2, 0), Err(Refusal::NoCast));
    let mut bytes = [9; 16];
    // A at 0, B at 2, C at 4; alignment 2
    assert_eq!(source.size(), 8);
    assert_eq!(plan.convert(&[1, 0, 2, 1, 0, 0, 0, 0], points(1, 0..1), &mut bytes, points(2, 1..2)), Ok(0));
    assert_eq!(bytes[..8], [9; 8]);
    assert_eq!(bytes[8..12], 258u32.to_le_bytes());
    assert_eq!(bytes[12..], 258f32.to_le_bytes());
}

#[test]
fn byte_arrays_are_copied_where_n_is_equal() {
    // pairs with the same low 8 bits
    for (n, other) in [(256, 512), (257, 1), (300, 44), (65535, 255), (255, 65535)] {
        let (source, target) = (layout(&[("N", Datatype::byte_array(n))]), layout(&[("N", Datatype::byte_array(other))]));
        assert_eq!(Plan::for_layouts(&source, &target), Err(Refusal::NoCast));
        assert_eq!(Plan::for_layouts_with_default(&source, &target), Err(Refusal::NoCast));
        let filled = Plan::filled_in(&source, &target, &[Mapping::new(0, 0)]).unwrap();
        assert_eq!(filled.list(), Err(Refusal::NotSound));
        let plan = Plan::for_layouts(&source, &source).unwrap();
        assert_eq!(plan.list(), Ok(format!("source 1 {n} 1\ntarget 1 {n} 1\n0 {n} 0 {n} copy N\n")));
        let from: Vec<u8> = (0..2 * u32::from(n)).map(|i| (i % 251) as u8).collect();
        let mut to = vec![7; 3 * usize::from(n)];
        assert_eq!(plan.convert(&from, points(2, 0..2), &mut to, points(3, 1..3)), Ok(0));
        assert!(to[..usize::from(n)].iter().all(|&byte| byte == 7));
        assert_eq!(to[usize::from(n)..], from);
    }
}

#[test]
fn long_listings_fit() {
    // 32 ByteArrays of 2,047 with names of 31 bytes; the target has them in the other order
    let list: Vec<Member> = (0..32)
        .map(|i: u16| Attribute::new(&format!("{i:031}"), Datatype::byte_array(2047)).unwrap().at_offset(2047 * i))
        .collect();
    let turned: Vec<Member> = list.iter().rev().copied().collect();
    let (source, target) = (Layout::from_members(&list, 1).unwrap(), Layout::from_members(&turned, 1).unwrap());
    let plan = Plan::for_layouts(&source, &target).unwrap();
    let text = plan.list().unwrap();
    assert_eq!(text.lines().count(), 34);
    assert!(text.ends_with("\n0 2047 0 2047 copy 0000000000000000000000000000000\n"));
    assert!(text.len() <= LISTING_SIZE);
}

#[test]
fn plans_that_are_not_sound_are_refused() {
    let (source, target) = layouts();
    let fill = |mappings: &[Mapping]| Plan::filled_in(&source, &target, mappings).unwrap();
    let crooked = Layout::filled_in(source.attributes(), 4, 3).unwrap();
    let unsound = [
        fill(&[Mapping::new(2, 0)]),
        fill(&[Mapping::new(0, 1)]),
        fill(&[Mapping::new(0, 0), Mapping::new(1, 0)]),
        Plan::filled_in(&crooked, &target, &[]).unwrap(),
        Plan::filled_in(&target, &crooked, &[]).unwrap(),
        Plan::filled_in(&layout(&[("A", Datatype::VEC3_U8)]), &target, &[Mapping::new(0, 0)]).unwrap(),
    ];
    for plan in unsound {
        let mut bytes = [7; 8];
        assert_eq!(plan.convert(&[1; 3], points(1, 0..9), &mut bytes, points(1, 0..1)), Err(Refusal::NotSound));
        assert_eq!(bytes, [7; 8]);
        assert_eq!(plan.set_custom_mapping(99, 99), Err(Refusal::NotSound));
        assert_eq!(plan.list(), Err(Refusal::NotSound));
    }
    assert_eq!(Plan::filled_in(&source, &target, &[Mapping::new(0, 0); 33]), Err(Refusal::TooMany));
    assert_eq!(Plan::for_layouts(&crooked, &target), Err(Refusal::NotSound));
    assert_eq!(Plan::for_layouts(&target, &crooked), Err(Refusal::NotSound));
    assert_eq!(Plan::for_layouts_with_default(&crooked, &target), Err(Refusal::NotSound));
    assert_eq!(Plan::from_mapping_sheet(&target, &crooked, b""), Err(Refusal::NotSound));
}

#[test]
fn buffers_are_refused() {
    let plan = Plan::from_sheets(Sheets::new(b"\x04\0\0\0", b"\x04\0\0\0", b"\0")).unwrap();
    let mut target = [7; 3];
    assert_eq!(plan.convert(&[1, 2, 3], points(4, 0..1), &mut target, points(4, 0..2)), Err(Refusal::SourceLength));
    assert_eq!(plan.convert(&[1, 2, 3], points(3, 0..1), &mut target, points(4, 0..2)), Err(Refusal::TargetLength));
    assert_eq!(plan.convert(&[1, 2, 3], points(3, 0..4), &mut target, points(3, 0..2)), Err(Refusal::RangesDiffer));
    assert_eq!(plan.convert(&[1, 2, 3], points(3, 0..4), &mut target, points(3, 0..4)), Err(Refusal::SourceRange));
    assert_eq!(plan.convert(&[1, 2, 3], points(3, 0..3), &mut target, points(3, 1..4)), Err(Refusal::TargetRange));
    assert_eq!(target, [7; 3]);
    assert_eq!(plan.convert(&[1, 2, 3], points(3, 0..3), &mut target, points(3, 0..3)), Ok(0));
    assert_eq!(target, [1, 2, 3]);
}

#[test]
fn inputs_are_refused() {
    assert_eq!(Plan::from_input(b""), Err(Refusal::SheetEnds));
    assert_eq!(Plan::from_input(&[0; 4097]), Err(Refusal::SheetGoesOn));
    assert_eq!(Plan::from_input(b"\0\x01\0\0\x01\0\0\x01\0\0"), Err(Refusal::SheetGoesOn));
    assert_eq!(Plan::from_sheets(Sheets::new(SOURCE, b"\x01", b"")), Err(Refusal::SheetGoesOn));
}

#[test]
fn plans_are_shown_to_a_person() {
    let (source, target) = layouts();
    let plan = Plan::for_layouts(&source, &target).unwrap();
    assert_eq!(format!("{plan:?}"), "Plan { mappings: [P: U16 at 0 -> P: F32 at 4], source size: 4, target size: 8 }");
    let lost = Plan::filled_in(&source, &target, &[Mapping::new(7, 0)]).unwrap();
    assert_eq!(format!("{lost:?}"), "Plan { mappings: [7 -> 0], source size: 4, target size: 8 }");
}
