//! Single points, and one attribute of many points: converted, read and written in lent bytes.
use crate::{answer, sys, Layout, Refusal};
use std::fmt;

/// Casts the attributes of a source point into those of the same name in a target point, where the datatypes are not equal, as
/// [`Plan::convert`](crate::Plan::convert) casts; every other byte of the target point is as before. A lent point may be longer than its
/// layout says. Refused with 1, 14, 20.
///
/// ```
/// use nakvisk::{convert_point, Attribute, Datatype, Layout};
///
/// let source = Layout::EMPTY.add_attribute(&Attribute::new("Z", Datatype::U8)?)?;
/// let target = Layout::EMPTY.add_attribute(&Attribute::new("Z", Datatype::U16)?)?;
/// let mut point = [9, 9];
/// convert_point(&source, &target, &[7], &mut point)?;
/// assert_eq!(point, [7, 0]);
/// # Ok::<(), nakvisk::Refusal>(())
/// ```
pub fn convert_point(source_layout: &Layout, target_layout: &Layout, source: &[u8], target: &mut [u8]) -> Result<(), Refusal> {
    // SAFETY: each pointer is that of a slice of the length beside it, lent for the call, and only the target is changed.
    answer(unsafe {
        sys::nakvisk_convert_point(
            source_layout.0,
            target_layout.0,
            source.as_ptr(),
            source.len(),
            target.as_mut_ptr(),
            target.len(),
        )
    })
}

/// The part of the lent bytes, which lies within them.
fn part_of(point_data: &[u8], part: sys::Part) -> Result<&[u8], Refusal> {
    answer(part.refusal)?;
    let start = part.start as usize;
    Ok(&point_data[start..start + part.size as usize])
}

/// The bytes of one attribute of point `i`, counted from 0. `point_data` has those of `count` interleaved points; `place` counts
/// the layout's attributes from 0. Refused with 1, 13, 15; with 18 where there is no point `i`.
///
/// ```
/// use nakvisk::{read_point, Layout};
///
/// let layout = Layout::from_sheet(b"\x08\x15\x01\x00\x05\x0c\x00\x00")?;
/// assert_eq!(read_point(&layout, 1, 2, &[1, 0, 5, 0, 2, 0, 6, 0], 1)?, [6]);
/// # Ok::<(), nakvisk::Refusal>(())
/// ```
pub fn read_point<'a>(layout: &Layout, place: u32, count: u32, point_data: &'a [u8], i: u64) -> Result<&'a [u8], Refusal> {
    // SAFETY: the pointer is that of a slice of the length beside it, lent for the call.
    let part = unsafe { sys::nakvisk_read_point(layout.0, place, count, point_data.as_ptr(), point_data.len(), i) };
    part_of(point_data, part)
}

/// Puts a value into that part, from its start on, at most as many bytes as it has; every other byte is as before. Refused as [`read_point`]
/// is.
///
/// ```
/// use nakvisk::{write_point, Layout};
///
/// let layout = Layout::from_sheet(b"\x08\x15\x01\x00\x05\x0c\x00\x00")?;
/// let mut points = [1, 0, 5, 0, 2, 0, 6, 0];
/// write_point(&layout, 0, 2, &mut points, 1, &[8, 9])?;
/// assert_eq!(points, [1, 0, 5, 0, 8, 9, 6, 0]);
/// # Ok::<(), nakvisk::Refusal>(())
/// ```
pub fn write_point(layout: &Layout, place: u32, count: u32, point_data: &mut [u8], i: u64, value: &[u8]) -> Result<(), Refusal> {
    // SAFETY: each pointer is that of a slice of the length beside it, lent for the call, and only point_data is changed.
    answer(unsafe {
        sys::nakvisk_write_point(
            layout.0,
            place,
            count,
            point_data.as_mut_ptr(),
            point_data.len(),
            i,
            value.as_ptr(),
            value.len(),
        )
    })
}

/// A view of one attribute of many points: point `i`'s part has `size` bytes, from `i * stride + offset` on. The bytes stay the caller's, and
/// are lent to each call.
///
/// ```
/// use nakvisk::{Layout, View};
///
/// let points = [1, 0, 5, 0, 2, 0, 6, 0];
/// let view = View::of(&Layout::from_sheet(b"\x08\x15\x01\x00\x05\x0c\x00\x00")?, 1, 2, &points)?;
/// assert_eq!(format!("{view:?}"), "View { offset: 2, stride: 4, size: 1 }");
/// assert_eq!(view.read(&points, 1)?, [6]);
/// # Ok::<(), nakvisk::Refusal>(())
/// ```
#[derive(Clone, Copy)]
pub struct View(sys::View);

impl View {
    /// The view of the attribute at a place over the bytes of so many interleaved points. Refused with 1, 13, 15.
    ///
    /// ```
    /// use nakvisk::{Layout, Refusal, View};
    ///
    /// let layout = Layout::from_sheet(b"\x08\x15\x01\x00\x05\x0c\x00\x00")?;
    /// assert_eq!(View::of(&layout, 0, 1, &[0; 4])?.size(), 2);
    /// assert_eq!(View::of(&layout, 2, 1, &[0; 4]), Err(Refusal::NoPlace));
    /// # Ok::<(), Refusal>(())
    /// ```
    pub fn of(layout: &Layout, place: u32, count: u32, point_data: &[u8]) -> Result<View, Refusal> {
        // SAFETY: the pointer is that of a slice of the length beside it, lent for the call.
        let made = unsafe { sys::nakvisk_view_of(layout.0, place, count, point_data.as_ptr(), point_data.len()) };
        answer(made.refusal)?;
        Ok(View(made.view))
    }

    /// A view as the caller fills it in. A part that passes the lent bytes is refused with 18.
    ///
    /// ```
    /// use nakvisk::{Refusal, View};
    ///
    /// assert_eq!(View::filled_in(0, u64::MAX, 1).read(&[5], 0)?, [5]);
    /// assert_eq!(View::filled_in(0, u64::MAX, 1).read(&[5], u64::MAX), Err(Refusal::SourceRange));
    /// # Ok::<(), Refusal>(())
    /// ```
    pub const fn filled_in(offset: u64, stride: u64, size: u64) -> View {
        View(sys::View { offset, stride, size })
    }

    /// The bytes from the start of point 0 to its part.
    ///
    /// ```
    /// assert_eq!(nakvisk::View::filled_in(2, 4, 1).offset(), 2);
    /// ```
    pub const fn offset(&self) -> u64 {
        self.0.offset
    }

    /// The bytes from one point's part to the next one's.
    ///
    /// ```
    /// assert_eq!(nakvisk::View::filled_in(2, 4, 1).stride(), 4);
    /// ```
    pub const fn stride(&self) -> u64 {
        self.0.stride
    }

    /// The bytes of a part.
    ///
    /// ```
    /// assert_eq!(nakvisk::View::filled_in(2, 4, 1).size(), 1);
    /// ```
    pub const fn size(&self) -> u64 {
        self.0.size
    }

    /// Point `i`'s part of the lent bytes. Refused with 18.
    ///
    /// ```
    /// assert_eq!(nakvisk::View::filled_in(1, 2, 1).read(&[1, 2, 3, 4], 1)?, [4]);
    /// # Ok::<(), nakvisk::Refusal>(())
    /// ```
    pub fn read<'a>(&self, point_data: &'a [u8], i: u64) -> Result<&'a [u8], Refusal> {
        // SAFETY: the pointer is that of a slice of the length beside it, lent for the call.
        part_of(point_data, unsafe { sys::nakvisk_read_part(self.0, point_data.as_ptr(), point_data.len(), i) })
    }

    /// Puts a value into point `i`'s part, as [`write_point`] does. Refused with 18.
    ///
    /// ```
    /// let mut points = [1, 2, 3, 4];
    /// nakvisk::View::filled_in(1, 2, 1).write(&mut points, 1, &[9])?;
    /// assert_eq!(points, [1, 2, 3, 9]);
    /// # Ok::<(), nakvisk::Refusal>(())
    /// ```
    pub fn write(&self, point_data: &mut [u8], i: u64, value: &[u8]) -> Result<(), Refusal> {
        // SAFETY: each pointer is that of a slice of the length beside it, lent for the call, and only point_data is changed.
        answer(unsafe {
            sys::nakvisk_write_part(self.0, point_data.as_mut_ptr(), point_data.len(), i, value.as_ptr(), value.len())
        })
    }
}

impl PartialEq for View {
    fn eq(&self, other: &View) -> bool {
        (self.offset(), self.stride(), self.size()) == (other.offset(), other.stride(), other.size())
    }
}

impl Eq for View {}

impl fmt::Debug for View {
    fn fmt(&self, f: &mut fmt::Formatter<'_>) -> fmt::Result {
        f.debug_struct("View")
            .field("offset", &self.offset())
            .field("stride", &self.stride())
            .field("size", &self.size())
            .finish()
    }
}
