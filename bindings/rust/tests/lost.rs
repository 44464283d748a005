// How many components a conversion loses: by value and not by casting back, over the range alone, for each mapping and summed; refusals and the
// conversion that counts nothing.
use nakvisk::{convert, Attribute, Datatype, Layout, Mapping, Plan, PointRange, Refusal, Sheets, Storage};

const STORAGES: [Storage; 2] = [Storage::Interleaved, Storage::Columns];

fn layout(attributes: &[(&str, Datatype)]) -> Layout {
    attributes.iter().fold(Layout::EMPTY, |layout, (name, datatype)| {
        layout.add_attribute(&Attribute::new(name, *datatype).unwrap()).unwrap()
    })
}

fn plan(from: Datatype, to: Datatype) -> Plan {
    Plan::for_layouts(&layout(&[("A", from)]), &layout(&[("A", to)])).unwrap()
}

fn bytes<const N: usize, T: Copy>(numbers: &[T], of: impl Fn(T) -> [u8; N]) -> Vec<u8> {
    numbers.iter().flat_map(|&number| of(number)).collect()
}

// The number that the three calls agree on, over these points; each gives the same bytes.
fn lost_in(plan: &Plan, source: &[u8], from: PointRange, length: usize, to: PointRange) -> u64 {
    let (mut counted, mut by_mapping, mut uncounted) = (vec![7; length], vec![7; length], vec![7; length]);
    let lost = plan.convert(source, from, &mut counted, to).unwrap();
    let each = plan.convert_by_mapping(source, from, &mut by_mapping, to).unwrap();
    assert_eq!(each.len(), plan.mappings().len());
    assert_eq!(each.iter().sum::<u64>(), lost);
    assert_eq!(plan.convert_uncounted(source, from, &mut uncounted, to), Ok(()));
    assert_eq!(by_mapping, counted);
    assert_eq!(uncounted, counted);
    lost
}

// All points of a source of one attribute, interleaved.
fn lost(from: Datatype, source: &[u8], to: Datatype) -> u64 {
    let plan = plan(from, to);
    let count = source.len() / usize::from(plan.source().size());
    let all = PointRange::interleaved(count as u32, 0..count as u32);
    lost_in(&plan, source, all, count * usize::from(plan.target().size()), all)
}

#[test]
fn a_component_of_a_vec3_is_lost() {
    let vector = bytes(&[0.5, 0.1, -2.0], f64::to_le_bytes);
    assert_eq!(lost(Datatype::VEC3_F64, &vector, Datatype::VEC3_F32), 1);
    assert_eq!(lost(Datatype::VEC3_F64, &vector, Datatype::VEC3_I32), 2);
    assert_eq!(lost(Datatype::VEC3_F64, &vector, Datatype::VEC3_U8), 3);
    assert_eq!(lost(Datatype::VEC3_F64, &vector, Datatype::VEC3_F64), 0);
}

#[test]
fn numbers_that_are_no_integers() {
    let (nan, infinity) = (f64::NAN, f64::INFINITY);
    let one = |number: f64, to| lost(Datatype::F64, &number.to_le_bytes(), to);
    let single = |number: f32, to| lost(Datatype::F32, &number.to_le_bytes(), to);
    for to in [Datatype::U8, Datatype::I8, Datatype::U16, Datatype::I16, Datatype::U32, Datatype::I32, Datatype::U64, Datatype::I64] {
        // NaN and infinities, and what is cut off or held at a bound; minus zero is 0
        for number in [nan, infinity, -infinity, -0.25, 0.5, 1e300] {
            assert_eq!(one(number, to), 1, "{number} to {to:?}");
            assert_eq!(single(number as f32, to), 1, "{number} to {to:?}");
        }
        for number in [0.0, -0.0, 1.0, 127.0] {
            assert_eq!(one(number, to), 0, "{number} to {to:?}");
            assert_eq!(single(number as f32, to), 0, "{number} to {to:?}");
        }
    }
    for number in [nan, -nan, infinity, -infinity, -0.0, 0.5, 16777216.0] {
        assert_eq!(one(number, Datatype::F32), 0, "{number}");
        assert_eq!(single(number as f32, Datatype::F64), 0, "{number}");
    }
    // finite to infinity, to zero, and to another number
    for number in [1e300, -1e300, 1e-300, f64::MIN_POSITIVE, 16777217.0, 0.1] {
        assert_eq!(one(number, Datatype::F32), 1, "{number}");
    }
    // every F32 is an F64
    for number in [f32::MAX, f32::MIN_POSITIVE, f32::from_bits(1), 0.1] {
        assert_eq!(single(number, Datatype::F64), 0, "{number}");
    }
}

// Cast back, each of these is its source again.
#[test]
fn numbers_that_would_come_back() {
    assert_eq!(lost(Datatype::U8, &[255], Datatype::I8), 1);
    assert_eq!(lost(Datatype::I8, &[255], Datatype::U8), 1);
    assert_eq!(lost(Datatype::I8, &[255], Datatype::U64), 1);
    assert_eq!(lost(Datatype::U64, &u64::MAX.to_le_bytes(), Datatype::F64), 1);
    assert_eq!(lost(Datatype::U64, &u64::MAX.to_le_bytes(), Datatype::I64), 1);
    assert_eq!(lost(Datatype::I64, &i64::MAX.to_le_bytes(), Datatype::F64), 1);
    assert_eq!(lost(Datatype::I32, &i32::MAX.to_le_bytes(), Datatype::F32), 1);
    assert_eq!(lost(Datatype::F32, &4294967296f32.to_le_bytes(), Datatype::U32), 1);
    assert_eq!(lost(Datatype::F64, &9223372036854775808f64.to_le_bytes(), Datatype::I64), 1);
    // the numbers beside them that are kept
    assert_eq!(lost(Datatype::U8, &[127], Datatype::I8), 0);
    assert_eq!(lost(Datatype::U64, &(1u64 << 63).to_le_bytes(), Datatype::F64), 0);
    assert_eq!(lost(Datatype::I64, &i64::MIN.to_le_bytes(), Datatype::F64), 0);
    assert_eq!(lost(Datatype::I64, &(1i64 << 53).to_le_bytes(), Datatype::F64), 0);
    assert_eq!(lost(Datatype::I64, &((1i64 << 53) + 1).to_le_bytes(), Datatype::F64), 1);
    assert_eq!(lost(Datatype::F32, &4294967040f32.to_le_bytes(), Datatype::U32), 0);
    assert_eq!(lost(Datatype::F64, &(-9223372036854775808f64).to_le_bytes(), Datatype::I64), 0);
}

// Of all numbers of a small datatype those are kept that the other has too.
#[test]
fn all_numbers_of_eight_and_sixteen_bits() {
    let all_8: Vec<u8> = (0..=255).collect();
    let all_16: Vec<u8> = (0..=u16::MAX).flat_map(u16::to_le_bytes).collect();
    let cases = [
        (Datatype::U8, Datatype::I8, 128), (Datatype::I8, Datatype::U8, 128), (Datatype::I8, Datatype::U64, 128),
        (Datatype::U8, Datatype::U16, 0), (Datatype::I8, Datatype::I64, 0), (Datatype::I8, Datatype::F32, 0),
        (Datatype::U16, Datatype::U8, 65280), (Datatype::U16, Datatype::I8, 65408), (Datatype::U16, Datatype::I16, 32768),
        (Datatype::I16, Datatype::U8, 65280), (Datatype::I16, Datatype::I8, 65280), (Datatype::I16, Datatype::U32, 32768),
        (Datatype::U16, Datatype::F32, 0), (Datatype::I16, Datatype::F64, 0),
    ];
    for (from, to, due) in cases {
        let source = if from == Datatype::U8 || from == Datatype::I8 { &all_8 } else { &all_16 };
        assert_eq!(lost(from, source, to), due, "{from:?} to {to:?}");
    }
}

#[test]
fn copies_lose_nothing() {
    let signalling = bytes(&[0x7ff0_0000_0000_0001, 0xfff8_0000_0000_0007], u64::to_le_bytes);
    assert_eq!(lost(Datatype::F64, &signalling, Datatype::F64), 0);
    assert_eq!(lost(Datatype::U64, &[255; 16], Datatype::U64), 0);
    assert_eq!(lost(Datatype::VEC4_U8, &[255; 8], Datatype::VEC4_U8), 0);
    assert_eq!(lost(Datatype::byte_array(300), &[255; 600], Datatype::byte_array(300)), 0);
    let seal = Datatype::custom(5, 1, 9);
    assert_eq!(lost(seal, &[255; 10], seal), 0);
}

// B U16 and A F64 become A F32, B U8, and C F32 from A too: a source in two mappings counts in each.
#[test]
fn each_mapping_has_its_number() {
    let source = layout(&[("B", Datatype::U16), ("A", Datatype::F64)]);
    let target = layout(&[("A", Datatype::F32), ("B", Datatype::U8), ("C", Datatype::F32)]);
    let plan = Plan::for_layouts_with_default(&source, &target).unwrap().set_custom_mapping(1, 2).unwrap();
    assert_eq!(plan.mappings(), [Mapping::new(1, 0), Mapping::new(0, 1), Mapping::new(1, 2)]);
    // as columns: five B, then five A
    let columns = [bytes(&[1, 256, 255, 300, 2u16], u16::to_le_bytes), bytes(&[0.1, 0.5, 0.1, 1.0, 0.1], f64::to_le_bytes)].concat();
    let (mut target, mut other) = ([7; 45], [7; 45]);
    let lost = |start, end, target: &mut [u8]| {
        let some = PointRange { storage: Storage::Columns, count: 5, start, end };
        plan.convert_by_mapping(&columns, some, target, some)
    };
    assert_eq!(lost(0, 5, &mut target), Ok(vec![3, 2, 3]));
    // points outside of the range do not count
    assert_eq!(lost(1, 3, &mut other), Ok(vec![1, 1, 1]));
    assert_eq!(lost(3, 4, &mut other), Ok(vec![0, 1, 0]));
    assert_eq!(lost(5, 5, &mut other), Ok(vec![0, 0, 0]));
    let all = PointRange::columns(5, 0..5);
    assert_eq!(plan.convert(&columns, all, &mut other, all), Ok(8));
    assert_eq!(other, target);
}

#[test]
fn more_points_than_a_block_of_the_conversion() {
    let source = layout(&[("A", Datatype::U16), ("B", Datatype::VEC3_F64)]);
    let target = layout(&[("B", Datatype::VEC3_F32), ("A", Datatype::U8)]);
    let plan = Plan::for_layouts(&source, &target).unwrap();
    let there = Plan::for_layouts(&source, &source).unwrap();
    // 1,000 points: A is their number; of B's components one in seven is a tenth
    let count = 1000;
    let a = bytes(&(0..count as u16).collect::<Vec<_>>(), u16::to_le_bytes);
    let b: Vec<f64> = (0..3 * count).map(|k| if k % 7 == 0 { 0.1 } else { 0.25 }).collect();
    let columns = [a, bytes(&b, f64::to_le_bytes)].concat();
    let mut points = vec![0; count as usize * usize::from(source.size())];
    let range = |storage| PointRange { storage, count: count as u32, start: 0, end: count as u32 };
    assert_eq!(there.convert(&columns, range(Storage::Columns), &mut points, range(Storage::Interleaved)), Ok(0));
    for (bytes, from) in [(&points, Storage::Interleaved), (&columns, Storage::Columns)] {
        for to in STORAGES {
            let width = if to == Storage::Columns { 13 } else { usize::from(target.size()) };
            let length = width * count as usize;
            // 429 of 0, 7 .. 2,996; of A all above 255
            assert_eq!(lost_in(&plan, bytes, range(from), length, range(to)), 429 + 744);
            let mut into = vec![0; length];
            assert_eq!(plan.convert_by_mapping(bytes, range(from), &mut into, range(to)), Ok(vec![429, 744]));
        }
    }
}

#[test]
fn sheets_count_too() {
    // a U16 to a U8, of the empty name
    let sheets = Sheets::new(b"\x04\x01\x00\x00", b"\x04\x00\x00\x00", b"\x00");
    let (from, to) = (PointRange::interleaved(3, 0..3), PointRange::interleaved(4, 1..4));
    let mut target = [7; 4];
    assert_eq!(convert(sheets, &[255, 0, 0, 1, 255, 255], from, &mut target, to), Ok(2));
    assert_eq!(target, [7, 255, 0, 255]);
}

#[test]
fn each_call_is_refused_alike() {
    let plan = plan(Datatype::U16, Datatype::U8);
    let unsound = Plan::filled_in(&plan.source(), &plan.target(), &[Mapping::new(0, 0), Mapping::new(0, 0)]).unwrap();
    let three = PointRange::interleaved(3, 0..3);
    let cases = [
        (&unsound, three, three, Refusal::NotSound),
        (&plan, PointRange { count: 2, ..three }, three, Refusal::SourceLength),
        (&plan, three, PointRange { count: 2, ..three }, Refusal::TargetLength),
        (&plan, PointRange { storage: Storage::Columns, count: 4, ..three }, three, Refusal::ColumnLength),
        (&plan, PointRange { start: 3, end: 0, ..three }, three, Refusal::BackwardRange),
        (&plan, PointRange { end: 2, ..three }, three, Refusal::RangesDiffer),
        (&plan, PointRange { end: 4, ..three }, PointRange { end: 4, ..three }, Refusal::SourceRange),
        (&plan, three, PointRange { start: 1, end: 4, ..three }, Refusal::TargetRange),
    ];
    for (plan, from, to, refusal) in cases {
        let mut target = [7; 3];
        assert_eq!(plan.convert(&[255; 6], from, &mut target, to), Err(refusal));
        assert_eq!(plan.convert_by_mapping(&[255; 6], from, &mut target, to), Err(refusal));
        assert_eq!(plan.convert_uncounted(&[255; 6], from, &mut target, to), Err(refusal));
        assert_eq!(target, [7; 3]);
    }
}
