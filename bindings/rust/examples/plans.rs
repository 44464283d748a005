//! A reader of scans. It makes a plan once, from two layouts of its own, and converts two buffers by it, the second into columns too; it looks
//! attributes up, writes one attribute of a point, and shows refusals 1, 13 and 22. It prints what examples/plans.c prints, and bindings/test compares them.
use nakvisk::{write_point, Attribute, Datatype, Layout, Mapping, Plan, PointRange, Refusal, View};

/// The scanner's records: Z in millimetres at 4, the intensity at 0; 8 bytes.
fn scanner() -> Result<Layout, Refusal> {
    let z = Attribute::new("Z", Datatype::I32)?.at_offset(4);
    let intensity = Attribute::new("Intensity", Datatype::U16)?.at_offset(0);
    Layout::from_members(&[z, intensity], 4)
}

/// The reader's own: the intensity as a float, then the height as a double.
fn reader() -> Result<Layout, Refusal> {
    let intensity = Attribute::new("Intensity", Datatype::F32)?;
    Layout::EMPTY.add_attribute(&intensity)?.add_attribute(&Attribute::new("Height", Datatype::F64)?)
}

/// By name, and Height from Z.
fn plan_between(source: &Layout, target: &Layout) -> Result<Plan, Refusal> {
    let z = source.get_attribute_by_name("Z")?.expect("the scanner has Z") as u32;
    let height = target.index_of(&Attribute::new("Height", Datatype::F64)?)?.expect("the reader has Height") as u32;
    println!("Z is attribute {z} of the scanner, Height {height} of the reader");
    Plan::for_layouts_with_default(source, target)?.set_custom_mapping(z, height)
}

fn show(plan: &Plan, points: &[u8]) -> Result<(), Refusal> {
    let count = points.len() / usize::from(plan.target().size());
    let heights = View::of(&plan.target(), 1, count as u32, points)?;
    for i in 0..count {
        let height = heights.read(points, i as u64)?.try_into().map_or(f64::NAN, f64::from_le_bytes);
        println!("  height {height}");
    }
    Ok(())
}

/// The number of the refusal, or 0.
fn refused<T>(result: Result<T, Refusal>) -> u32 {
    result.err().map_or(0, Refusal::number)
}

/// The points of two records as columns: both intensities, then both heights.
fn show_columns(plan: &Plan, records: &[u8]) -> Result<(), Refusal> {
    let (from, to) = (PointRange::interleaved(2, 0..2), PointRange::columns(2, 0..2));
    let mut columns = [0; 2 * 4 + 2 * 8];
    plan.convert(records, from, &mut columns, to)?;
    let intensity = |i: usize| columns[4 * i..4 * i + 4].try_into().map_or(f32::NAN, f32::from_le_bytes);
    let height = |i: usize| columns[8 + 8 * i..16 + 8 * i].try_into().map_or(f64::NAN, f64::from_le_bytes);
    println!("columns: intensities {} {}, heights {} {}", intensity(0), intensity(1), height(0), height(1));
    println!("columns that are a byte short: refused {}", refused(plan.convert(records, from, &mut columns[..23], to)));
    Ok(())
}

fn main() -> Result<(), Refusal> {
    let (source, target) = (scanner()?, reader()?);
    let plan = plan_between(&source, &target)?;
    let mut records = [10, 0, 0, 0, 0xe8, 0x03, 0, 0, 20, 0, 0, 0, 0xff, 0xff, 0xff, 0xff];
    let mut points = [0; 32];
    let both = PointRange::interleaved(2, 0..2);

    print!("{}", plan.list()?);
    for buffer in 0..2 {
        plan.convert(&records, both, &mut points, both)?;
        println!("buffer {buffer}");
        show(&plan, &points)?;
        // Z of the second record becomes 2.
        write_point(&source, 0, 2, &mut records, 1, &2i32.to_le_bytes())?;
    }
    show_columns(&plan, &records)?;

    println!("the layouts have the same attributes: {}", u32::from(source.compare_without_offsets(&target)?));
    let float = Attribute::new("Height", Datatype::F32)?;
    println!("Height as a float: found {}", u32::from(target.offset_of(&float)?.is_some()));
    println!("a mapping onto attribute 2: refused {}", refused(plan.set_custom_mapping(0, 2)));
    let twice = Plan::filled_in(&source, &target, &[Mapping::new(1, 0), Mapping::new(1, 0)])?;
    println!("a plan with one target twice: refused {}", refused(twice.convert(&records, both, &mut points, both)));
    Ok(())
}
