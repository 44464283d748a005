//! Attributes, and layouts by value: made from a sheet, attribute by attribute or from given members, and asked for their attributes.
use crate::{answer, sys, Datatype, Refusal};
use std::fmt;

/// An attribute of points: a name and a datatype.
///
/// ```
/// use nakvisk::{Attribute, Datatype};
///
/// let height = Attribute::new("Z", Datatype::F64)?;
/// assert_eq!((height.name(), height.datatype()), ("Z", Datatype::F64));
/// assert_eq!(format!("{height:?}"), "Z: F64");
/// # Ok::<(), nakvisk::Refusal>(())
/// ```
#[derive(Clone, Copy)]
pub struct Attribute(sys::Attribute);

/// An attribute at its offset in a layout.
///
/// ```
/// use nakvisk::{Attribute, Datatype};
///
/// let member = Attribute::new("Z", Datatype::F64)?.at_offset(8);
/// assert_eq!((member.attribute().name(), member.offset()), ("Z", 8));
/// assert_eq!(format!("{member:?}"), "Z: F64 at 8");
/// # Ok::<(), nakvisk::Refusal>(())
/// ```
#[derive(Clone, Copy)]
#[repr(transparent)]
pub struct Member(sys::Member);

/// How a point lies in its bytes: attributes with their offsets, the point's size and its alignment. Two layouts are equal where they have
/// equal attributes at equal offsets in one order, and one size and alignment.
///
/// ```
/// use nakvisk::{Attribute, Datatype, Layout};
///
/// let layout = Layout::EMPTY
///     .add_attribute(&Attribute::new("P", Datatype::U16)?)?
///     .add_attribute(&Attribute::new("C", Datatype::U8)?)?;
/// assert_eq!(format!("{layout:?}"), "Layout { attributes: [P: U16 at 0, C: U8 at 2], size: 4, alignment: 2 }");
/// # Ok::<(), nakvisk::Refusal>(())
/// ```
#[derive(Clone, Copy)]
pub struct Layout(pub(crate) sys::Layout);

const NO_MEMBER: sys::Member = sys::Member { definition: sys::Attribute { name: [0; 31], name_len: 0, datatype: Datatype::U8.0 }, offset: 0 };

impl Attribute {
    /// An attribute of a name and a datatype. Refused with 4, 5 and 6, by the library's own check.
    ///
    /// ```
    /// use nakvisk::{Attribute, Datatype, Refusal};
    ///
    /// assert!(Attribute::new("Intensity", Datatype::U16).is_ok());
    /// assert_eq!(Attribute::new(&"n".repeat(32), Datatype::U16), Err(Refusal::Name));
    /// ```
    pub fn new(name: &str, datatype: Datatype) -> Result<Attribute, Refusal> {
        let mut bytes = [0; 31];
        for (to, from) in bytes.iter_mut().zip(name.bytes()) {
            *to = from;
        }
        let name_len = u8::try_from(name.len()).unwrap_or(u8::MAX);
        let made = sys::Attribute { name: bytes, name_len, datatype: datatype.0 };
        // SAFETY: both arguments are passed by value.
        answer(unsafe { sys::nakvisk_index_of(Layout::EMPTY.0, made) }.refusal)?;
        Ok(Attribute(made))
    }

    /// Its name.
    ///
    /// ```
    /// use nakvisk::{Attribute, Datatype};
    ///
    /// assert_eq!(Attribute::new("Z", Datatype::F64)?.name(), "Z");
    /// # Ok::<(), nakvisk::Refusal>(())
    /// ```
    pub fn name(&self) -> &str {
        // A name has bytes of hex 20 to 7E alone, and at most 31.
        self.0.name.get(..usize::from(self.0.name_len)).and_then(|name| std::str::from_utf8(name).ok()).unwrap_or_default()
    }

    /// Its datatype.
    ///
    /// ```
    /// use nakvisk::{Attribute, Datatype};
    ///
    /// assert_eq!(Attribute::new("Z", Datatype::F64)?.datatype(), Datatype::F64);
    /// # Ok::<(), nakvisk::Refusal>(())
    /// ```
    pub fn datatype(&self) -> Datatype {
        Datatype(self.0.datatype)
    }

    /// The attribute at an offset, for [`Layout::from_members`] and [`Layout::filled_in`].
    ///
    /// ```
    /// use nakvisk::{Attribute, Datatype};
    ///
    /// assert_eq!(Attribute::new("Z", Datatype::F64)?.at_offset(16).offset(), 16);
    /// # Ok::<(), nakvisk::Refusal>(())
    /// ```
    pub fn at_offset(&self, offset: u16) -> Member {
        Member(sys::Member { definition: self.0, offset })
    }
}

impl PartialEq for Attribute {
    fn eq(&self, other: &Attribute) -> bool {
        self.name() == other.name() && self.datatype() == other.datatype()
    }
}

impl Eq for Attribute {}

impl fmt::Debug for Attribute {
    fn fmt(&self, f: &mut fmt::Formatter<'_>) -> fmt::Result {
        write!(f, "{}: {:?}", self.name(), self.datatype())
    }
}

impl Member {
    /// The attribute.
    ///
    /// ```
    /// use nakvisk::{Attribute, Datatype};
    ///
    /// let height = Attribute::new("Z", Datatype::F64)?;
    /// assert_eq!(height.at_offset(8).attribute(), height);
    /// # Ok::<(), nakvisk::Refusal>(())
    /// ```
    pub fn attribute(&self) -> Attribute {
        Attribute(self.0.definition)
    }

    /// The bytes from the start of a point to the attribute.
    ///
    /// ```
    /// use nakvisk::{Attribute, Datatype};
    ///
    /// assert_eq!(Attribute::new("Z", Datatype::F64)?.at_offset(8).offset(), 8);
    /// # Ok::<(), nakvisk::Refusal>(())
    /// ```
    pub fn offset(&self) -> u16 {
        self.0.offset
    }
}

impl PartialEq for Member {
    fn eq(&self, other: &Member) -> bool {
        self.attribute() == other.attribute() && self.offset() == other.offset()
    }
}

impl Eq for Member {}

impl fmt::Debug for Member {
    fn fmt(&self, f: &mut fmt::Formatter<'_>) -> fmt::Result {
        write!(f, "{:?} at {}", self.attribute(), self.offset())
    }
}

fn made(given: sys::LayoutAnswer) -> Result<Layout, Refusal> {
    answer(given.refusal)?;
    Ok(Layout(given.layout))
}

impl Layout {
    /// The empty layout, from which attributes are added.
    ///
    /// ```
    /// use nakvisk::Layout;
    ///
    /// assert_eq!((Layout::EMPTY.attributes().len(), Layout::EMPTY.size(), Layout::EMPTY.alignment()), (0, 0, 1));
    /// ```
    pub const EMPTY: Layout = Layout(sys::Layout { attributes: [NO_MEMBER; 32], count: 0, size: 0, alignment: 1 });

    /// The layout that a sheet gives. Refused with 2 to 11.
    ///
    /// ```
    /// use nakvisk::{Layout, Refusal};
    ///
    /// let layout = Layout::from_sheet(b"\x08\x15\x01\x00\x05\x0c\x00\x00")?;
    /// assert_eq!(format!("{:?}", layout.attributes()), "[P: U16 at 0, C: U8 at 2]");
    /// assert_eq!(Layout::from_sheet(b"\x01"), Err(Refusal::SheetGoesOn));
    /// # Ok::<(), Refusal>(())
    /// ```
    pub fn from_sheet(layout_sheet: &[u8]) -> Result<Layout, Refusal> {
        // SAFETY: the pointer is that of a slice of the length beside it, lent for the call.
        made(unsafe { sys::nakvisk_layout_of_sheet(layout_sheet.as_ptr(), layout_sheet.len()) })
    }

    /// The layout of given members, each at its offset, in any order: `from_members_and_alignment`. A datatype's own alignment is not looked
    /// at. The point size is the greatest end, aligned. Refused with 3, 8 to 11.
    ///
    /// ```
    /// use nakvisk::{Attribute, Datatype, Layout, Refusal};
    ///
    /// let (a, b) = (Attribute::new("A", Datatype::U32)?, Attribute::new("B", Datatype::U32)?);
    /// assert_eq!(Layout::from_members(&[a.at_offset(8), b.at_offset(0)], 4)?.size(), 12);
    /// assert_eq!(Layout::from_members(&[a.at_offset(0), b.at_offset(3)], 1), Err(Refusal::SharedByte));
    /// # Ok::<(), Refusal>(())
    /// ```
    pub fn from_members(members: &[Member], alignment: u16) -> Result<Layout, Refusal> {
        // SAFETY: a Member is a sys::Member; the pointer is that of a slice of the length beside it, lent for the call.
        made(unsafe { sys::nakvisk_layout_of_members(members.as_ptr().cast(), members.len(), alignment) })
    }

    /// A layout as the caller fills it in, judged by no line but 3. The calls that it is handed to refuse it with 1 where it is not sound.
    ///
    /// ```
    /// use nakvisk::{Attribute, Datatype, Layout, Refusal};
    ///
    /// let z = Attribute::new("Z", Datatype::F64)?;
    /// let layout = Layout::filled_in(&[z.at_offset(0)], 8, 8)?;
    /// assert_eq!(Layout::EMPTY.add_attribute(&z), Ok(layout));
    /// let short = Layout::filled_in(&[z.at_offset(0)], 4, 4)?;
    /// assert_eq!(short.index_of(&z), Err(Refusal::NotSound));
    /// # Ok::<(), Refusal>(())
    /// ```
    pub fn filled_in(attributes: &[Member], size: u16, alignment: u16) -> Result<Layout, Refusal> {
        let mut layout = Layout::EMPTY;
        for (slot, member) in layout.0.attributes.iter_mut().zip(attributes) {
            *slot = member.0;
        }
        layout.0.count = u8::try_from(attributes.len()).ok().filter(|&n| n <= 32).ok_or(Refusal::TooMany)?;
        layout.0.size = size;
        layout.0.alignment = alignment;
        Ok(layout)
    }

    /// The layout with one attribute more, placed by Default: at the end of the last one, aligned to its own alignment. The layout's alignment
    /// becomes the larger of the old one and that. Refused with 1, 3, 8 to 11.
    ///
    /// ```
    /// use nakvisk::{Attribute, Datatype, Layout, Refusal};
    ///
    /// let layout = Layout::EMPTY.add_attribute(&Attribute::new("A", Datatype::U8)?)?;
    /// let layout = layout.add_attribute(&Attribute::new("B", Datatype::U32)?)?;
    /// assert_eq!((layout.size(), layout.alignment()), (8, 4));
    /// assert_eq!(layout.add_attribute(&Attribute::new("A", Datatype::U8)?), Err(Refusal::NameTwice));
    /// # Ok::<(), Refusal>(())
    /// ```
    pub fn add_attribute(&self, attribute: &Attribute) -> Result<Layout, Refusal> {
        // SAFETY: both arguments are passed by value.
        made(unsafe { sys::nakvisk_add_attribute(self.0, attribute.0) })
    }

    /// The layout with one attribute more, Packed of p: aligned to the smaller of its own alignment and p. The layout's alignment becomes
    /// the smaller of the old one and p. Refused as [`Layout::add_attribute`] is.
    ///
    /// ```
    /// use nakvisk::{Attribute, Datatype, Layout};
    ///
    /// let layout = Layout::EMPTY.add_attribute_packed(&Attribute::new("A", Datatype::U8)?, 1)?;
    /// let layout = layout.add_attribute_packed(&Attribute::new("B", Datatype::U32)?, 1)?;
    /// assert_eq!((layout.size(), layout.alignment()), (5, 1));
    /// # Ok::<(), nakvisk::Refusal>(())
    /// ```
    pub fn add_attribute_packed(&self, attribute: &Attribute, p: u8) -> Result<Layout, Refusal> {
        // SAFETY: all arguments are passed by value.
        made(unsafe { sys::nakvisk_add_attribute_packed(self.0, attribute.0, p) })
    }

    /// Its attributes, in their order.
    ///
    /// ```
    /// use nakvisk::{Attribute, Datatype, Layout};
    ///
    /// let layout = Layout::EMPTY.add_attribute(&Attribute::new("A", Datatype::U8)?)?;
    /// assert_eq!(layout.attributes(), [Attribute::new("A", Datatype::U8)?.at_offset(0)]);
    /// # Ok::<(), nakvisk::Refusal>(())
    /// ```
    pub fn attributes(&self) -> &[Member] {
        let listed = &self.0.attributes[..usize::from(self.0.count).min(32)];
        // SAFETY: a Member is a sys::Member, and nothing else.
        unsafe { &*(listed as *const [sys::Member] as *const [Member]) }
    }

    /// The bytes of a point.
    ///
    /// ```
    /// assert_eq!(nakvisk::Layout::from_sheet(b"\x06\x00\x08\x15\x04\x00\x02\x00")?.size(), 8);
    /// # Ok::<(), nakvisk::Refusal>(())
    /// ```
    pub fn size(&self) -> u16 {
        self.0.size
    }

    /// Its alignment.
    ///
    /// ```
    /// assert_eq!(nakvisk::Layout::from_sheet(b"\x06\x00\x08\x15\x04\x00\x02\x00")?.alignment(), 4);
    /// # Ok::<(), nakvisk::Refusal>(())
    /// ```
    pub fn alignment(&self) -> u16 {
        self.0.alignment
    }

    /// The place of the attribute of that name, if there is one. Refused with 1, 4.
    ///
    /// ```
    /// use nakvisk::{Attribute, Datatype, Layout, Refusal};
    ///
    /// let layout = Layout::EMPTY.add_attribute(&Attribute::new("A", Datatype::U8)?)?;
    /// assert_eq!(layout.get_attribute_by_name("A"), Ok(Some(0)));
    /// assert_eq!(layout.get_attribute_by_name("B"), Ok(None));
    /// assert_eq!(layout.get_attribute_by_name("\n"), Err(Refusal::Name));
    /// # Ok::<(), Refusal>(())
    /// ```
    pub fn get_attribute_by_name(&self, name: &str) -> Result<Option<usize>, Refusal> {
        // SAFETY: the pointer is that of a slice of the length beside it, lent for the call.
        place(unsafe { sys::nakvisk_get_attribute_by_name(self.0, name.as_ptr(), name.len()) })
    }

    /// The place of the attribute of that name and datatype, if there is one. Refused with 1.
    ///
    /// ```
    /// use nakvisk::{Attribute, Datatype, Layout};
    ///
    /// let layout = Layout::EMPTY.add_attribute(&Attribute::new("A", Datatype::U8)?)?;
    /// assert_eq!(layout.index_of(&Attribute::new("A", Datatype::U8)?), Ok(Some(0)));
    /// assert_eq!(layout.index_of(&Attribute::new("A", Datatype::I8)?), Ok(None));
    /// # Ok::<(), nakvisk::Refusal>(())
    /// ```
    pub fn index_of(&self, attribute: &Attribute) -> Result<Option<usize>, Refusal> {
        // SAFETY: both arguments are passed by value.
        place(unsafe { sys::nakvisk_index_of(self.0, attribute.0) })
    }

    /// The offset of the attribute of that name and datatype, if there is one. Refused with 1.
    ///
    /// ```
    /// use nakvisk::{Attribute, Datatype, Layout};
    ///
    /// let layout = Layout::from_sheet(b"\x06\x00\x08\x15\x04\x00\x02\x00")?;
    /// assert_eq!(layout.offset_of(&Attribute::new("P", Datatype::F32)?), Ok(Some(4)));
    /// # Ok::<(), nakvisk::Refusal>(())
    /// ```
    pub fn offset_of(&self, attribute: &Attribute) -> Result<Option<u16>, Refusal> {
        // SAFETY: both arguments are passed by value.
        let found = unsafe { sys::nakvisk_offset_of(self.0, attribute.0) };
        answer(found.refusal)?;
        // An offset has 16 bits.
        Ok(Some(found.at as u16).filter(|_| found.found != 0))
    }

    /// Whether the two have the same attributes by name and datatype, in any order and at any offset. Refused with 1.
    ///
    /// ```
    /// use nakvisk::{Attribute, Datatype, Layout};
    ///
    /// let (a, b) = (Attribute::new("A", Datatype::U8)?, Attribute::new("B", Datatype::U32)?);
    /// let padded = Layout::EMPTY.add_attribute(&a)?.add_attribute(&b)?;
    /// let packed = Layout::EMPTY.add_attribute_packed(&b, 1)?.add_attribute_packed(&a, 1)?;
    /// assert_eq!(padded.compare_without_offsets(&packed), Ok(true));
    /// assert_eq!(padded.compare_without_offsets(&Layout::EMPTY), Ok(false));
    /// # Ok::<(), nakvisk::Refusal>(())
    /// ```
    pub fn compare_without_offsets(&self, other: &Layout) -> Result<bool, Refusal> {
        // SAFETY: both arguments are passed by value.
        let compared = unsafe { sys::nakvisk_compare_without_offsets(self.0, other.0) };
        answer(compared.refusal)?;
        Ok(compared.same != 0)
    }
}

fn place(found: sys::Found) -> Result<Option<usize>, Refusal> {
    answer(found.refusal)?;
    // A place is below 32.
    Ok(Some(found.at as usize).filter(|_| found.found != 0))
}

impl Default for Layout {
    fn default() -> Layout {
        Layout::EMPTY
    }
}

impl PartialEq for Layout {
    fn eq(&self, other: &Layout) -> bool {
        self.attributes() == other.attributes() && self.size() == other.size() && self.alignment() == other.alignment()
    }
}

impl Eq for Layout {}

impl fmt::Debug for Layout {
    fn fmt(&self, f: &mut fmt::Formatter<'_>) -> fmt::Result {
        f.debug_struct("Layout")
            .field("attributes", &self.attributes())
            .field("size", &self.size())
            .field("alignment", &self.alignment())
            .finish()
    }
}
