//! Points brought from one layout to another.
//!
//! A [`Layout`] says how a point lies in its bytes. A [`Plan`] says which attribute of a target layout is made from which of a source
//! layout; it is made once and converts many buffers. Both are made by calls, or read from sheets of a few bytes (docs/SHEETS.md, at the
//! repository's root, says how they are written). A [`PointRange`] says which points of a buffer are meant, and whether the buffer holds
//! them interleaved or as columns.
//!
//! Each call gives its answer, or the first [`Refusal`] that applies; then everything that was lent is as it was. The library behind it is
//! written in Rattle, and every function is proved to meet its contract (crates/nakvisk). The archive is linked by build.rs: where it is
//! missing, the error says which command builds it.
//!
//! ```
//! use nakvisk::{Attribute, Datatype, Layout, Plan, PointRange};
//!
//! let scanner = Layout::EMPTY.add_attribute(&Attribute::new("Z", Datatype::I32)?)?;
//! let reader = Layout::EMPTY.add_attribute(&Attribute::new("Z", Datatype::F64)?)?;
//! let plan = Plan::for_layouts(&scanner, &reader)?;
//! let mut points = [0; 16];
//! let both = PointRange::interleaved(2, 0..2);
//! let lost = plan.convert(&[1, 0, 0, 0, 255, 255, 255, 255], both, &mut points, both)?;
//! assert_eq!(points[..8], 1f64.to_le_bytes());
//! assert_eq!(points[8..], (-1f64).to_le_bytes());
//! assert_eq!(lost, 0); // every number came over whole
//! # Ok::<(), nakvisk::Refusal>(())
//! ```
#![deny(missing_docs)]
#![warn(missing_debug_implementations)]

mod datatype;
mod layout;
mod plan;
mod points;
mod range;
mod refusal;
mod sheets;
mod sys;

pub use datatype::Datatype;
pub use layout::{Attribute, Layout, Member};
pub use plan::{Mapping, Plan};
pub use points::{convert_point, read_point, write_point, View};
pub use range::{PointRange, Storage};
pub use refusal::Refusal;
pub use sheets::{convert, list, list_into, point_size, Sheets};

/// Bytes that are enough for every listing.
///
/// ```
/// let mut text = [0; nakvisk::LISTING_SIZE];
/// assert!(nakvisk::Plan::EMPTY.list_into(&mut text)? <= text.len());
/// # Ok::<(), nakvisk::Refusal>(())
/// ```
pub const LISTING_SIZE: usize = 1996;

/// The version that this crate was written for, 0.8.0: 16 bits of the major number, 8 of the minor one, 8 of the patch.
///
/// ```
/// assert_eq!(nakvisk::VERSION, 0x000800);
/// ```
pub const VERSION: u32 = 0x000800;

/// The version of the archive that is linked. Where it is not [`VERSION`], crate and archive are not of one build.
///
/// ```
/// assert_eq!(nakvisk::version(), nakvisk::VERSION);
/// ```
pub fn version() -> u32 {
    // SAFETY: the function takes nothing and reads nothing.
    unsafe { sys::nakvisk_version() }
}

/// 0 is no refusal, and the archive's contracts allow no number that is not listed.
fn answer(number: u32) -> Result<(), Refusal> {
    match number {
        0 => Ok(()),
        _ => Err(Refusal::from_number(number).unwrap_or_else(|| panic!("refusal {number} of an archive of another version"))),
    }
}
