//! How the points of a buffer lie in its bytes, and which of them a conversion is about.
use crate::sys;
use std::ops::Range;

/// How the values of a buffer's points lie.
///
/// Of points with a U8 at 0 and a U16 at 2, interleaved ones have the bytes `A . B B  A . B B`, and columns `A A B B B B`.
///
/// ```
/// use nakvisk::{PointRange, Storage};
///
/// assert_eq!(PointRange::columns(5, 0..5).storage, Storage::Columns);
/// ```
#[derive(Clone, Copy, Debug, PartialEq, Eq, Hash)]
pub enum Storage {
    /// Point after point: the buffer has count times point size bytes.
    Interleaved,
    /// For each attribute in list order the values of all points one after another, without padding: the buffer has count times the sum of
    /// the attribute sizes bytes.
    Columns,
}

/// Points of a buffer: those from `start` to before `end`, counted from 0. A range that ends where it starts has no point. Any numbers may
/// stand here: what a buffer cannot have is refused.
///
/// ```
/// use nakvisk::{PointRange, Storage};
///
/// let last = PointRange::interleaved(3, 2..3);
/// assert_eq!(last, PointRange { storage: Storage::Interleaved, count: 3, start: 2, end: 3 });
/// assert_eq!(PointRange { storage: Storage::Columns, ..last }, PointRange::columns(3, 2..3));
/// ```
#[derive(Clone, Copy, Debug, PartialEq, Eq, Hash)]
pub struct PointRange {
    /// How the buffer's points lie.
    pub storage: Storage,
    /// The points of the whole buffer.
    pub count: u32,
    /// The first point of the range.
    pub start: u32,
    /// The point after its last.
    pub end: u32,
}

impl PointRange {
    /// Some of `count` interleaved points.
    ///
    /// ```
    /// use nakvisk::{PointRange, Storage};
    ///
    /// assert_eq!(PointRange::interleaved(3, 0..2), PointRange { storage: Storage::Interleaved, count: 3, start: 0, end: 2 });
    /// ```
    pub const fn interleaved(count: u32, range: Range<u32>) -> PointRange {
        PointRange { storage: Storage::Interleaved, count, start: range.start, end: range.end }
    }

    /// Some of `count` points whose values lie in columns.
    ///
    /// ```
    /// use nakvisk::{PointRange, Storage};
    ///
    /// assert_eq!(PointRange::columns(3, 0..2), PointRange { storage: Storage::Columns, count: 3, start: 0, end: 2 });
    /// ```
    pub const fn columns(count: u32, range: Range<u32>) -> PointRange {
        PointRange { storage: Storage::Columns, count, start: range.start, end: range.end }
    }

    /// The same as the archive has it.
    pub(crate) const fn lent(self) -> sys::PointRange {
        let storage = match self.storage {
            Storage::Interleaved => 0,
            Storage::Columns => 1,
        };
        sys::PointRange { storage, count: self.count, start: self.start, end: self.end }
    }
}
