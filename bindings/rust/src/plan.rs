//! Plans by value: made from sheets, from layouts, or filled in by the caller, and the calls by a plan.
use crate::{answer, sys, Layout, PointRange, Refusal, Sheets, LISTING_SIZE};
use std::fmt;

/// The target attribute at its place is made from the source attribute at its place; places count from 0.
///
/// ```
/// use nakvisk::Mapping;
///
/// assert_eq!((Mapping::new(2, 0).source(), Mapping::new(2, 0).target()), (2, 0));
/// assert_eq!(format!("{:?}", Mapping::new(2, 0)), "2 -> 0");
/// ```
#[derive(Clone, Copy)]
#[repr(transparent)]
pub struct Mapping(sys::Mapping);

/// How points of one layout become points of another: two layouts and mappings. It is made once and converts many buffers. Two plans are equal
/// where their layouts are and they have the same mappings in one order.
///
/// ```
/// use nakvisk::{Attribute, Datatype, Layout, Plan, PointRange};
///
/// let source = Layout::EMPTY.add_attribute(&Attribute::new("Z", Datatype::I16)?)?;
/// let target = Layout::EMPTY.add_attribute(&Attribute::new("Z", Datatype::F32)?)?;
/// let plan = Plan::for_layouts(&source, &target)?;
/// assert_eq!(format!("{plan:?}"), "Plan { mappings: [Z: I16 at 0 -> Z: F32 at 0], source size: 2, target size: 4 }");
/// let mut target = [0; 8];
/// let both = PointRange::interleaved(2, 0..2);
/// plan.convert(&[1, 0, 2, 0], both, &mut target, both)?;
/// assert_eq!(target[4..], 2f32.to_le_bytes());
/// # Ok::<(), nakvisk::Refusal>(())
/// ```
#[derive(Clone, Copy)]
pub struct Plan(sys::Plan);

impl Mapping {
    /// The mapping of two places.
    ///
    /// ```
    /// assert_eq!(nakvisk::Mapping::new(1, 3).target(), 3);
    /// ```
    pub const fn new(source: u8, target: u8) -> Mapping {
        Mapping(sys::Mapping { source, target })
    }

    /// The place of the source attribute.
    ///
    /// ```
    /// assert_eq!(nakvisk::Mapping::new(1, 3).source(), 1);
    /// ```
    pub const fn source(self) -> u8 {
        self.0.source
    }

    /// The place of the target attribute.
    ///
    /// ```
    /// assert_eq!(nakvisk::Mapping::new(1, 3).target(), 3);
    /// ```
    pub const fn target(self) -> u8 {
        self.0.target
    }
}

impl PartialEq for Mapping {
    fn eq(&self, other: &Mapping) -> bool {
        self.source() == other.source() && self.target() == other.target()
    }
}

impl Eq for Mapping {}

impl fmt::Debug for Mapping {
    fn fmt(&self, f: &mut fmt::Formatter<'_>) -> fmt::Result {
        write!(f, "{} -> {}", self.source(), self.target())
    }
}

fn made(given: sys::PlanAnswer) -> Result<Plan, Refusal> {
    answer(given.refusal)?;
    Ok(Plan(given.plan))
}

impl Plan {
    /// The plan of two empty layouts and no mapping.
    ///
    /// ```
    /// assert_eq!(nakvisk::Plan::EMPTY.list()?, "source 0 0 1\ntarget 0 0 1\n");
    /// # Ok::<(), nakvisk::Refusal>(())
    /// ```
    pub const EMPTY: Plan = Plan(sys::Plan {
        source: Layout::EMPTY.0,
        target: Layout::EMPTY.0,
        mappings: [sys::Mapping { source: 0, target: 0 }; 32],
        count: 0,
    });

    /// The plan of two layout sheets and a mapping sheet. Refused with 2 to 14.
    ///
    /// ```
    /// use nakvisk::{Plan, Refusal, Sheets};
    ///
    /// let sheet = b"\x04\x00\x00\x00";
    /// assert_eq!(Plan::from_sheets(Sheets::new(sheet, sheet, b"\x00"))?.mappings().len(), 1);
    /// assert_eq!(Plan::from_sheets(Sheets::new(sheet, sheet, b"")), Err(Refusal::SheetEnds));
    /// # Ok::<(), Refusal>(())
    /// ```
    pub fn from_sheets(sheets: Sheets<'_>) -> Result<Plan, Refusal> {
        let (source, target, mapping) = (sheets.source(), sheets.target(), sheets.mapping());
        // SAFETY: each pointer is that of a slice of the length beside it, lent for the call.
        made(unsafe {
            sys::nakvisk_plan_of_sheets(
                source.as_ptr(),
                source.len(),
                target.as_ptr(),
                target.len(),
                mapping.as_ptr(),
                mapping.len(),
            )
        })
    }

    /// The plan of three sheets in one input, each after its 16-bit length, most significant byte first, as the program scanplan reads them.
    /// Refused with 2 to 14.
    ///
    /// ```
    /// use nakvisk::{Plan, Refusal};
    ///
    /// assert_eq!(Plan::from_input(b"\x00\x01\x00\x00\x01\x00\x00\x01\x00"), Ok(Plan::EMPTY));
    /// assert_eq!(Plan::from_input(b"\x00\x01\x00"), Err(Refusal::SheetEnds));
    /// ```
    pub fn from_input(input: &[u8]) -> Result<Plan, Refusal> {
        // SAFETY: the pointer is that of a slice of the length beside it, lent for the call.
        made(unsafe { sys::nakvisk_plan_of_input(input.as_ptr(), input.len()) })
    }

    /// The plan that a mapping sheet says between two layouts. Refused with 1 to 3, 7, 12 to 14.
    ///
    /// ```
    /// use nakvisk::{Layout, Plan, Refusal};
    ///
    /// let layout = Layout::from_sheet(b"\x04\x00\x00\x00")?;
    /// assert_eq!(Plan::from_mapping_sheet(&layout, &layout, b"\x00"), Plan::for_layouts(&layout, &layout));
    /// assert_eq!(Plan::from_mapping_sheet(&layout, &layout, b"\x01"), Err(Refusal::SheetGoesOn));
    /// # Ok::<(), Refusal>(())
    /// ```
    pub fn from_mapping_sheet(source: &Layout, target: &Layout, mapping_sheet: &[u8]) -> Result<Plan, Refusal> {
        // SAFETY: the pointer is that of a slice of the length beside it, lent for the call; the layouts are passed by value.
        made(unsafe { sys::nakvisk_plan_of_mapping_sheet(source.0, target.0, mapping_sheet.as_ptr(), mapping_sheet.len()) })
    }

    /// The plan that maps every target attribute from the source attribute of its name. Refused with 1, 12, 14.
    ///
    /// ```
    /// use nakvisk::{Attribute, Datatype, Layout, Plan, Refusal};
    ///
    /// let layout = Layout::EMPTY.add_attribute(&Attribute::new("Z", Datatype::F64)?)?;
    /// assert_eq!(Plan::for_layouts(&layout, &layout)?.mappings().len(), 1);
    /// assert_eq!(Plan::for_layouts(&Layout::EMPTY, &layout), Err(Refusal::NoSource));
    /// # Ok::<(), Refusal>(())
    /// ```
    pub fn for_layouts(source: &Layout, target: &Layout) -> Result<Plan, Refusal> {
        // SAFETY: both arguments are passed by value.
        made(unsafe { sys::nakvisk_for_layouts(source.0, target.0) })
    }

    /// The same, but target attributes whose name no source attribute has are passed over. Refused with 1, 14.
    ///
    /// ```
    /// use nakvisk::{Attribute, Datatype, Layout, Plan};
    ///
    /// let layout = Layout::EMPTY.add_attribute(&Attribute::new("Z", Datatype::F64)?)?;
    /// assert_eq!(Plan::for_layouts_with_default(&Layout::EMPTY, &layout)?.mappings().len(), 0);
    /// # Ok::<(), nakvisk::Refusal>(())
    /// ```
    pub fn for_layouts_with_default(source: &Layout, target: &Layout) -> Result<Plan, Refusal> {
        // SAFETY: both arguments are passed by value.
        made(unsafe { sys::nakvisk_for_layouts_with_default(source.0, target.0) })
    }

    /// A plan as the caller fills it in, judged by no line but 3. The calls refuse it with 1 where it is not sound.
    ///
    /// ```
    /// use nakvisk::{Attribute, Datatype, Layout, Mapping, Plan, Refusal};
    ///
    /// let layout = Layout::EMPTY.add_attribute(&Attribute::new("Z", Datatype::F64)?)?;
    /// assert_eq!(Plan::filled_in(&layout, &layout, &[Mapping::new(0, 0)]), Plan::for_layouts(&layout, &layout));
    /// let twice = Plan::filled_in(&layout, &layout, &[Mapping::new(0, 0), Mapping::new(0, 0)])?;
    /// assert_eq!(twice.list(), Err(Refusal::NotSound));
    /// # Ok::<(), Refusal>(())
    /// ```
    pub fn filled_in(source: &Layout, target: &Layout, mappings: &[Mapping]) -> Result<Plan, Refusal> {
        let mut plan = Plan::EMPTY;
        for (slot, mapping) in plan.0.mappings.iter_mut().zip(mappings) {
            *slot = mapping.0;
        }
        plan.0.count = u8::try_from(mappings.len()).ok().filter(|&n| n <= 32).ok_or(Refusal::TooMany)?;
        plan.0.source = source.0;
        plan.0.target = target.0;
        Ok(plan)
    }

    /// The plan in which the target attribute at its place is made from the source attribute at its place: the mapping of that target is
    /// replaced, or joins the end. Refused with 1, 13, 14.
    ///
    /// ```
    /// use nakvisk::{Attribute, Datatype, Layout, Mapping, Plan, Refusal};
    ///
    /// let source = Layout::EMPTY.add_attribute(&Attribute::new("Z", Datatype::F64)?)?;
    /// let target = Layout::EMPTY.add_attribute(&Attribute::new("Height", Datatype::F32)?)?;
    /// let plan = Plan::for_layouts_with_default(&source, &target)?.set_custom_mapping(0, 0)?;
    /// assert_eq!(plan.mappings(), [Mapping::new(0, 0)]);
    /// assert_eq!(plan.set_custom_mapping(256, 0), Err(Refusal::NoPlace));
    /// # Ok::<(), Refusal>(())
    /// ```
    pub fn set_custom_mapping(&self, source_place: u32, target_place: u32) -> Result<Plan, Refusal> {
        // SAFETY: all arguments are passed by value.
        made(unsafe { sys::nakvisk_set_custom_mapping(self.0, source_place, target_place) })
    }

    /// The source layout.
    ///
    /// ```
    /// assert_eq!(nakvisk::Plan::EMPTY.source(), nakvisk::Layout::EMPTY);
    /// ```
    pub fn source(&self) -> Layout {
        Layout(self.0.source)
    }

    /// The target layout.
    ///
    /// ```
    /// assert_eq!(nakvisk::Plan::EMPTY.target(), nakvisk::Layout::EMPTY);
    /// ```
    pub fn target(&self) -> Layout {
        Layout(self.0.target)
    }

    /// Its mappings, in their order.
    ///
    /// ```
    /// assert!(nakvisk::Plan::EMPTY.mappings().is_empty());
    /// ```
    pub fn mappings(&self) -> &[Mapping] {
        let listed = &self.0.mappings[..usize::from(self.0.count).min(32)];
        // SAFETY: a Mapping is a sys::Mapping, and nothing else.
        unsafe { &*(listed as *const [sys::Mapping] as *const [Mapping]) }
    }

    /// Converts the points of the source range into those of the target range, from either [`Storage`](crate::Storage) into either, and tells
    /// how many components were lost, summed over the mappings.
    ///
    /// In each point of the target range each mapped attribute then holds the cast of its source in the matching point, or its copy where
    /// datatypes are equal; every other byte is as before. Refused with 1, 15 or 22, 16 or 22, 21, 17, 18, 19: with 22 where that side is
    /// columns.
    ///
    /// ```
    /// use nakvisk::{Attribute, Datatype, Layout, Plan, PointRange, Refusal};
    ///
    /// let source = Layout::EMPTY.add_attribute(&Attribute::new("I", Datatype::U16)?)?;
    /// let target = Layout::EMPTY.add_attribute(&Attribute::new("I", Datatype::U8)?)?;
    /// let plan = Plan::for_layouts(&source, &target)?;
    /// let mut points = [9; 3];
    /// let (from, into) = (PointRange::interleaved(2, 0..2), PointRange::interleaved(3, 1..3));
    /// assert_eq!(plan.convert(&[1, 0, 2, 0], from, &mut points, into), Ok(0));
    /// assert_eq!(points, [9, 1, 2]);
    /// assert_eq!(plan.convert(&[1, 0], from, &mut points, into), Err(Refusal::SourceLength));
    /// let swapped = PointRange { start: 2, end: 0, ..from };
    /// assert_eq!(plan.convert(&[1, 0, 2, 0], swapped, &mut points, into), Err(Refusal::BackwardRange));
    /// # Ok::<(), Refusal>(())
    /// ```
    ///
    /// A component, a number or one of the three of a Vec3, is lost where its cast is not the same number: it is rounded, wrapped or held at a
    /// bound, or is a NaN that becomes an integer. A NaN that is cast to a float is kept, and so are minus zero that becomes 0 and an infinity
    /// that stays one. Numbers are compared, not what casting back would give. Copies lose nothing; a source attribute that is in two
    /// mappings counts in each. Here 255 becomes -1:
    ///
    /// ```
    /// use nakvisk::{Attribute, Datatype, Layout, Plan, PointRange};
    ///
    /// let source = Layout::EMPTY.add_attribute(&Attribute::new("I", Datatype::U8)?)?;
    /// let target = Layout::EMPTY.add_attribute(&Attribute::new("I", Datatype::I8)?)?;
    /// let all = PointRange::interleaved(3, 0..3);
    /// let mut points = [0; 3];
    /// assert_eq!(Plan::for_layouts(&source, &target)?.convert(&[0, 127, 255], all, &mut points, all), Ok(1));
    /// # Ok::<(), nakvisk::Refusal>(())
    /// ```
    ///
    /// A NaN that is cast to a float keeps its sign and the 22 payload bits below the quiet bit, which is set; a copy keeps every bit. So
    /// the reason of a lost return, here 5, comes over:
    ///
    /// ```
    /// use nakvisk::{Attribute, Datatype, Layout, Plan, PointRange, Refusal};
    ///
    /// let scanner = Layout::EMPTY.add_attribute(&Attribute::new("Z", Datatype::F32)?)?;
    /// let reader = Layout::EMPTY.add_attribute(&Attribute::new("Z", Datatype::F64)?)?;
    /// let one = PointRange::interleaved(1, 0..1);
    /// let (mut there, mut back) = ([0; 8], [0; 4]);
    /// Plan::for_layouts(&scanner, &reader)?.convert(&0xffc0_0005u32.to_le_bytes(), one, &mut there, one)?;
    /// assert_eq!(u64::from_le_bytes(there), 0xfff8_0000_a000_0000);
    /// Plan::for_layouts(&reader, &scanner)?.convert(&there, one, &mut back, one)?;
    /// assert_eq!(u32::from_le_bytes(back), 0xffc0_0005);
    /// # Ok::<(), Refusal>(())
    /// ```
    ///
    /// Points into columns, and back into points whose padding, a byte each, is 9:
    ///
    /// ```
    /// use nakvisk::{Attribute, Datatype, Layout, Plan, PointRange, Refusal};
    ///
    /// let layout = Layout::EMPTY.add_attribute(&Attribute::new("A", Datatype::U8)?)?;
    /// let layout = layout.add_attribute(&Attribute::new("B", Datatype::U16)?)?;
    /// let plan = Plan::for_layouts(&layout, &layout)?;
    /// let (points, columns) = (PointRange::interleaved(2, 0..2), PointRange::columns(2, 0..2));
    /// let mut values = [0; 6];
    /// plan.convert(&[1, 0, 2, 3, 4, 0, 5, 6], points, &mut values, columns)?;
    /// assert_eq!(values, [1, 4, 2, 3, 5, 6]);
    /// let mut back = [9; 8];
    /// plan.convert(&values, columns, &mut back, points)?;
    /// assert_eq!(back, [1, 9, 2, 3, 4, 9, 5, 6]);
    /// assert_eq!(plan.convert(&back, columns, &mut values, columns), Err(Refusal::ColumnLength));
    /// # Ok::<(), Refusal>(())
    /// ```
    pub fn convert(&self, source: &[u8], source_range: PointRange, target: &mut [u8], target_range: PointRange) -> Result<u64, Refusal> {
        let mut lost = 0;
        // SAFETY: each pointer is that of a slice of the length beside it, lent for the call, and only the target is changed; lost is a number
        // of this function.
        answer(unsafe {
            sys::nakvisk_convert_by_plan(
                self.0,
                source.as_ptr(),
                source.len(),
                source_range.lent(),
                target.as_mut_ptr(),
                target.len(),
                target_range.lent(),
                &mut lost,
            )
        })?;
        Ok(lost)
    }

    /// Converts as [`convert`](Plan::convert) does, and tells how many components were lost for each mapping, in the order of
    /// [`mappings`](Plan::mappings). Refused as it is.
    ///
    /// ```
    /// use nakvisk::{Attribute, Datatype, Layout, Plan, PointRange};
    ///
    /// let source = Layout::EMPTY.add_attribute(&Attribute::new("Z", Datatype::F64)?)?;
    /// let target = Layout::EMPTY.add_attribute(&Attribute::new("Z", Datatype::F32)?)?.add_attribute(&Attribute::new("Height", Datatype::I32)?)?;
    /// let plan = Plan::for_layouts_with_default(&source, &target)?.set_custom_mapping(0, 1)?;
    /// let one = PointRange::interleaved(1, 0..1);
    /// let mut point = [0; 8];
    /// // a half is a number of F32, and none of I32
    /// assert_eq!(plan.convert_by_mapping(&0.5f64.to_le_bytes(), one, &mut point, one)?, [0, 1]);
    /// # Ok::<(), nakvisk::Refusal>(())
    /// ```
    pub fn convert_by_mapping(
        &self,
        source: &[u8],
        source_range: PointRange,
        target: &mut [u8],
        target_range: PointRange,
    ) -> Result<Vec<u64>, Refusal> {
        // SAFETY: each pointer is that of a slice of the length beside it, lent for the call, and only the target is changed.
        let given = unsafe {
            sys::nakvisk_convert_by_mapping(
                self.0,
                source.as_ptr(),
                source.len(),
                source_range.lent(),
                target.as_mut_ptr(),
                target.len(),
                target_range.lent(),
            )
        };
        answer(given.refusal)?;
        Ok(given.lost[..self.mappings().len()].to_vec())
    }

    /// Converts as [`convert`](Plan::convert) does, and counts nothing, which is quickest. Refused as it is.
    ///
    /// ```
    /// use nakvisk::{Attribute, Datatype, Layout, Plan, PointRange};
    ///
    /// let source = Layout::EMPTY.add_attribute(&Attribute::new("I", Datatype::U16)?)?;
    /// let target = Layout::EMPTY.add_attribute(&Attribute::new("I", Datatype::U8)?)?;
    /// let both = PointRange::interleaved(2, 0..2);
    /// let mut points = [9; 2];
    /// Plan::for_layouts(&source, &target)?.convert_uncounted(&[1, 0, 2, 1], both, &mut points, both)?;
    /// assert_eq!(points, [1, 2]);
    /// # Ok::<(), nakvisk::Refusal>(())
    /// ```
    pub fn convert_uncounted(
        &self,
        source: &[u8],
        source_range: PointRange,
        target: &mut [u8],
        target_range: PointRange,
    ) -> Result<(), Refusal> {
        // SAFETY: each pointer is that of a slice of the length beside it, lent for the call, and only the target is changed.
        answer(unsafe {
            sys::nakvisk_convert_uncounted(
                self.0,
                source.as_ptr(),
                source.len(),
                source_range.lent(),
                target.as_mut_ptr(),
                target.len(),
                target_range.lent(),
            )
        })
    }

    /// The listing that the program scanplan prints for the plan. Refused with 1.
    ///
    /// ```
    /// use nakvisk::{Attribute, Datatype, Layout, Plan};
    ///
    /// let layout = Layout::EMPTY.add_attribute(&Attribute::new("Z", Datatype::F64)?)?;
    /// assert_eq!(Plan::for_layouts(&layout, &layout)?.list()?, "source 1 8 8\ntarget 1 8 8\n0 8 0 8 copy Z\n");
    /// # Ok::<(), nakvisk::Refusal>(())
    /// ```
    pub fn list(&self) -> Result<String, Refusal> {
        let mut text = [0; LISTING_SIZE];
        let n = self.list_into(&mut text)?;
        // The listing is ASCII, and no listing is longer than the text.
        Ok(text.iter().take(n).map(|&byte| char::from(byte)).collect())
    }

    /// Puts the listing at the start of the text and gives its length. A listing longer than the text leaves the text as it was. Refused with
    /// 1.
    ///
    /// ```
    /// use nakvisk::Plan;
    ///
    /// let mut text = [b'.'; 30];
    /// let n = Plan::EMPTY.list_into(&mut text)?;
    /// assert_eq!(&text[..n], b"source 0 0 1\ntarget 0 0 1\n");
    /// # Ok::<(), nakvisk::Refusal>(())
    /// ```
    pub fn list_into(&self, text: &mut [u8]) -> Result<usize, Refusal> {
        let mut written = 0;
        // SAFETY: the pointer is that of a slice of the length beside it, lent for the call; written is a number of this function.
        answer(unsafe { sys::nakvisk_list_plan(self.0, text.as_mut_ptr(), text.len(), &mut written) })?;
        Ok(written as usize)
    }
}

impl Default for Plan {
    fn default() -> Plan {
        Plan::EMPTY
    }
}

impl PartialEq for Plan {
    fn eq(&self, other: &Plan) -> bool {
        self.mappings() == other.mappings() && self.source() == other.source() && self.target() == other.target()
    }
}

impl Eq for Plan {}

/// A mapping by what stands at its places, or by the places where nothing does.
struct Shown<'a>(&'a Plan, Mapping);

impl fmt::Debug for Shown<'_> {
    fn fmt(&self, f: &mut fmt::Formatter<'_>) -> fmt::Result {
        let (source, target) = (self.0.source(), self.0.target());
        let from = source.attributes().get(usize::from(self.1.source()));
        let to = target.attributes().get(usize::from(self.1.target()));
        match (from, to) {
            (Some(from), Some(to)) => write!(f, "{from:?} -> {to:?}"),
            _ => self.1.fmt(f),
        }
    }
}

impl fmt::Debug for Plan {
    fn fmt(&self, f: &mut fmt::Formatter<'_>) -> fmt::Result {
        let mappings: Vec<Shown<'_>> = self.mappings().iter().map(|&mapping| Shown(self, mapping)).collect();
        f.debug_struct("Plan")
            .field("mappings", &mappings)
            .field("source size", &self.source().size())
            .field("target size", &self.target().size())
            .finish()
    }
}
