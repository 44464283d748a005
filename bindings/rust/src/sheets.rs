//! Calls over sheets, which read them anew each time.
use crate::{answer, sys, PointRange, Refusal, LISTING_SIZE};
use std::fmt;

/// The layout sheets of source and target, and the mapping sheet between them.
///
/// ```
/// let sheets = nakvisk::Sheets::new(b"\x00", b"\x00", b"\x00");
/// assert_eq!(format!("{sheets:?}"), "Sheets { source: 00, target: 00, mapping: 00 }");
/// ```
#[derive(Clone, Copy, PartialEq, Eq)]
pub struct Sheets<'a> {
    source: &'a [u8],
    target: &'a [u8],
    mapping: &'a [u8],
}

impl<'a> Sheets<'a> {
    /// Three sheets.
    ///
    /// ```
    /// assert!(nakvisk::list(nakvisk::Sheets::new(b"\x00", b"\x00", b"\x00")).is_ok());
    /// ```
    pub const fn new(source: &'a [u8], target: &'a [u8], mapping: &'a [u8]) -> Sheets<'a> {
        Sheets { source, target, mapping }
    }

    /// The source's layout sheet.
    ///
    /// ```
    /// assert_eq!(nakvisk::Sheets::new(b"\x01", b"\x02", b"\x03").source(), b"\x01");
    /// ```
    pub const fn source(&self) -> &'a [u8] {
        self.source
    }

    /// The target's layout sheet.
    ///
    /// ```
    /// assert_eq!(nakvisk::Sheets::new(b"\x01", b"\x02", b"\x03").target(), b"\x02");
    /// ```
    pub const fn target(&self) -> &'a [u8] {
        self.target
    }

    /// The mapping sheet.
    ///
    /// ```
    /// assert_eq!(nakvisk::Sheets::new(b"\x01", b"\x02", b"\x03").mapping(), b"\x03");
    /// ```
    pub const fn mapping(&self) -> &'a [u8] {
        self.mapping
    }
}

/// Bytes in hex.
struct Hex<'a>(&'a [u8]);

impl fmt::Debug for Hex<'_> {
    fn fmt(&self, f: &mut fmt::Formatter<'_>) -> fmt::Result {
        self.0.iter().try_for_each(|byte| write!(f, "{byte:02x}"))
    }
}

impl fmt::Debug for Sheets<'_> {
    fn fmt(&self, f: &mut fmt::Formatter<'_>) -> fmt::Result {
        f.debug_struct("Sheets")
            .field("source", &Hex(self.source))
            .field("target", &Hex(self.target))
            .field("mapping", &Hex(self.mapping))
            .finish()
    }
}

/// Converts points by the plan of three sheets, read anew in each call, as [`Plan::convert`](crate::Plan::convert) does, and tells as it does
/// how many components were lost. Refused with 2 to 14, then with 15 or 22, 16 or 22, 21, 17, 18, 19.
///
/// ```
/// use nakvisk::{convert, PointRange, Sheets};
///
/// let sheet = b"\x04\x00\x00\x00";
/// let mut target = [0; 2];
/// convert(Sheets::new(sheet, sheet, b"\x00"), &[7], PointRange::interleaved(1, 0..1), &mut target, PointRange::interleaved(2, 1..2))?;
/// assert_eq!(target, [0, 7]);
/// # Ok::<(), nakvisk::Refusal>(())
/// ```
pub fn convert(
    sheets: Sheets<'_>,
    source: &[u8],
    source_range: PointRange,
    target: &mut [u8],
    target_range: PointRange,
) -> Result<u64, Refusal> {
    let mut lost = 0;
    // SAFETY: each pointer is that of a slice of the length beside it, lent for the call, and only the target is changed; lost is a number of
    // this function.
    answer(unsafe {
        sys::nakvisk_convert(
            sheets.source.as_ptr(),
            sheets.source.len(),
            sheets.target.as_ptr(),
            sheets.target.len(),
            sheets.mapping.as_ptr(),
            sheets.mapping.len(),
            source.as_ptr(),
            source.len(),
            source_range.lent(),
            target.as_mut_ptr(),
            target.len(),
            target_range.lent(),
            &mut lost,
        )
    })?;
    Ok(lost)
}

/// The point size of the layout that a sheet gives. Refused with 2 to 11.
///
/// ```
/// assert_eq!(nakvisk::point_size(b"\x06\x00\x08\x15\x04\x00\x02\x00"), Ok(8));
/// ```
pub fn point_size(layout_sheet: &[u8]) -> Result<u32, Refusal> {
    let mut size = 0;
    // SAFETY: the pointer is that of a slice of the length beside it, lent for the call; size is a number of this function.
    answer(unsafe { sys::nakvisk_point_size(layout_sheet.as_ptr(), layout_sheet.len(), &mut size) })?;
    Ok(size)
}

/// The listing that the program scanplan prints for the plan of three sheets. Refused with 2 to 14.
///
/// ```
/// use nakvisk::{list, Sheets};
///
/// assert_eq!(list(Sheets::new(b"\x00", b"\x00", b"\x00"))?, "source 0 0 1\ntarget 0 0 1\n");
/// # Ok::<(), nakvisk::Refusal>(())
/// ```
pub fn list(sheets: Sheets<'_>) -> Result<String, Refusal> {
    let mut text = [0; LISTING_SIZE];
    let n = list_into(sheets, &mut text)?;
    // The listing is ASCII, and no listing is longer than the text.
    Ok(text.iter().take(n).map(|&byte| char::from(byte)).collect())
}

/// Puts the listing at the start of the text and gives its length. A listing longer than the text leaves the text as it was. Refused with 2 to
/// 14.
///
/// ```
/// use nakvisk::{list_into, Sheets};
///
/// let mut text = [b'.'; 4];
/// assert_eq!(list_into(Sheets::new(b"\x00", b"\x00", b"\x00"), &mut text), Ok(26));
/// assert_eq!(text, [b'.'; 4]);
/// ```
pub fn list_into(sheets: Sheets<'_>, text: &mut [u8]) -> Result<usize, Refusal> {
    let mut written = 0;
    // SAFETY: each pointer is that of a slice of the length beside it, lent for the call; written is a number of this function.
    answer(unsafe {
        sys::nakvisk_list(
            sheets.source.as_ptr(),
            sheets.source.len(),
            sheets.target.as_ptr(),
            sheets.target.len(),
            sheets.mapping.as_ptr(),
            sheets.mapping.len(),
            text.as_mut_ptr(),
            text.len(),
            &mut written,
        )
    })?;
    Ok(written as usize)
}
