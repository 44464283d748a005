//! The datatypes of attributes, by their codes.
use crate::{answer, sys, Refusal};
use std::fmt;

/// The datatype of an attribute: a code and, for a ByteArray, its bytes, for a Custom, its bytes, its minimum alignment and its name. Any numbers
/// may stand here: what is no datatype is refused by the call that is handed it.
///
/// ```
/// use nakvisk::{Attribute, Datatype, Refusal};
///
/// assert_eq!(format!("{:?} {:?}", Datatype::VEC3_F64, Datatype::byte_array(7)), "Vec3f64 ByteArray(7)");
/// assert_eq!(format!("{:?}", Datatype::custom(16, 8, 0xbeef)), "Custom(16, 8, 0x0000000000000000000000000000beef)");
/// assert_eq!(Attribute::new("A", Datatype::byte_array(0)), Err(Refusal::DatatypeSize));
/// ```
#[derive(Clone, Copy)]
pub struct Datatype(pub(crate) sys::Datatype);

macro_rules! datatypes {
    ($($constant:ident = $code:literal, $name:literal;)*) => {
        impl Datatype {
            $(#[doc = concat!($name, ", code ", $code, ".")]
            pub const $constant: Datatype = Datatype::from_code($code, 0, 0, 0);)*
        }

        const NAMES: &[&str] = &[$($name,)*];
    };
}

datatypes! {
    U8 = 0, "U8";
    I8 = 1, "I8";
    U16 = 2, "U16";
    I16 = 3, "I16";
    U32 = 4, "U32";
    I32 = 5, "I32";
    U64 = 6, "U64";
    I64 = 7, "I64";
    F32 = 8, "F32";
    F64 = 9, "F64";
    VEC3_U8 = 10, "Vec3u8";
    VEC3_U16 = 11, "Vec3u16";
    VEC3_F32 = 12, "Vec3f32";
    VEC3_I32 = 13, "Vec3i32";
    VEC3_F64 = 14, "Vec3f64";
    VEC4_U8 = 15, "Vec4u8";
}

/// The codes that do not say all of a datatype.
const BYTE_ARRAY: u8 = 16;
const CUSTOM: u8 = 17;

impl Datatype {
    /// So many bytes, 1 to 65,535; code 16.
    ///
    /// ```
    /// use nakvisk::Datatype;
    ///
    /// assert_eq!((Datatype::byte_array(300).code(), Datatype::byte_array(300).n()), (16, 300));
    /// ```
    pub const fn byte_array(n: u16) -> Datatype {
        Datatype::from_code(BYTE_ARRAY, n, 0, 0)
    }

    /// A private datatype of so many bytes, 1 to 65,535, and any minimum alignment and name; code 17. Alignment 0 pads nothing, nor does 1, but
    /// the two are not equal. Two are equal exactly where size, alignment and name are. The name of a UUID is its `as_u128`. One is copied onto
    /// its equal, and has no cast:
    ///
    /// ```
    /// use nakvisk::{Attribute, Datatype, Layout, Plan, Refusal};
    ///
    /// let seal = Datatype::custom(16, 8, 0x0e6f2c54_8b1d_4f3a_9c07_d25a61b8e493);
    /// let unit = Datatype::custom(16, 8, 0x4d0a91e7_36c2_4b58_a1f9_07be5c2d8836);
    /// let seals = Layout::EMPTY.add_attribute(&Attribute::new("Number", seal)?)?;
    /// let units = Layout::EMPTY.add_attribute(&Attribute::new("Number", unit)?)?;
    /// assert!(Plan::for_layouts(&seals, &seals).is_ok());
    /// assert_eq!(Plan::for_layouts(&seals, &units), Err(Refusal::NoCast));
    /// # Ok::<(), Refusal>(())
    /// ```
    pub const fn custom(size: u16, min_alignment: u8, name: u128) -> Datatype {
        Datatype::from_code(CUSTOM, size, min_alignment, name)
    }

    /// The datatype of a code as a sheet or a file has it. `n` counts for a ByteArray and a Custom, `min_alignment` and `name` for a Custom
    /// alone; of another datatype they are not looked at.
    ///
    /// ```
    /// use nakvisk::{Attribute, Datatype, Refusal};
    ///
    /// assert_eq!(Datatype::from_code(8, 0, 0, 0), Datatype::F32);
    /// assert_eq!(Datatype::from_code(17, 4, 1, 7), Datatype::custom(4, 1, 7));
    /// assert_eq!(Attribute::new("A", Datatype::from_code(18, 0, 0, 0)), Err(Refusal::Code));
    /// ```
    pub const fn from_code(code: u8, n: u16, min_alignment: u8, name: u128) -> Datatype {
        Datatype(sys::Datatype { code, n, alignment: min_alignment, name_high: (name >> 64) as u64, name_low: name as u64 })
    }

    /// Its code.
    ///
    /// ```
    /// assert_eq!(nakvisk::Datatype::F64.code(), 9);
    /// ```
    pub const fn code(self) -> u8 {
        self.0.code
    }

    /// The bytes of a value. Refused with 5, 6.
    ///
    /// ```
    /// use nakvisk::{Datatype, Refusal};
    ///
    /// assert_eq!((Datatype::VEC3_F32.size(), Datatype::byte_array(300).size()), (Ok(12), Ok(300)));
    /// assert_eq!(Datatype::from_code(18, 0, 0, 0).size(), Err(Refusal::Code));
    /// ```
    pub fn size(self) -> Result<u32, Refusal> {
        self.known().map(|known| known.size)
    }

    /// Its alignment. Refused with 5, 6.
    ///
    /// ```
    /// use nakvisk::{Datatype, Refusal};
    ///
    /// assert_eq!((Datatype::VEC3_F32.alignment(), Datatype::byte_array(7).alignment()), (Ok(4), Ok(1)));
    /// assert_eq!(Datatype::custom(7, 0, 0).alignment(), Ok(0));
    /// assert_eq!(Datatype::byte_array(0).alignment(), Err(Refusal::DatatypeSize));
    /// ```
    pub fn alignment(self) -> Result<u32, Refusal> {
        self.known().map(|known| known.alignment)
    }

    fn known(self) -> Result<sys::DatatypeAnswer, Refusal> {
        // SAFETY: the argument is passed by value.
        let known = unsafe { sys::nakvisk_datatype_of(self.0) };
        answer(known.refusal)?;
        Ok(known)
    }

    /// The bytes of a ByteArray or of a Custom; of another datatype it is not looked at.
    ///
    /// ```
    /// assert_eq!(nakvisk::Datatype::byte_array(5).n(), 5);
    /// assert_eq!(nakvisk::Datatype::custom(6, 2, 0).n(), 6);
    /// ```
    pub const fn n(self) -> u16 {
        self.0.n
    }

    /// The minimum alignment of a Custom; of another datatype it is not looked at.
    ///
    /// ```
    /// assert_eq!(nakvisk::Datatype::custom(6, 2, 0).min_alignment(), 2);
    /// ```
    pub const fn min_alignment(self) -> u8 {
        self.0.alignment
    }

    /// The name of a Custom; of another datatype it is not looked at. A sheet has its most significant bit first.
    ///
    /// ```
    /// assert_eq!(nakvisk::Datatype::custom(6, 2, u128::MAX - 1).name(), u128::MAX - 1);
    /// ```
    pub const fn name(self) -> u128 {
        ((self.0.name_high as u128) << 64) | self.0.name_low as u128
    }
}

/// Equal codes and, for ByteArray, equal n, for Custom, equal size, alignment and name.
impl PartialEq for Datatype {
    fn eq(&self, other: &Datatype) -> bool {
        let of_code = match self.code() {
            BYTE_ARRAY => self.n() == other.n(),
            CUSTOM => (self.n(), self.min_alignment(), self.name()) == (other.n(), other.min_alignment(), other.name()),
            _ => true,
        };
        self.code() == other.code() && of_code
    }
}

impl Eq for Datatype {}

impl fmt::Debug for Datatype {
    fn fmt(&self, f: &mut fmt::Formatter<'_>) -> fmt::Result {
        match NAMES.get(usize::from(self.code())) {
            Some(name) => f.write_str(name),
            None if self.code() == BYTE_ARRAY => write!(f, "ByteArray({})", self.n()),
            None if self.code() == CUSTOM => write!(f, "Custom({}, {}, {:#034x})", self.n(), self.min_alignment(), self.name()),
            None => write!(f, "code {}", self.code()),
        }
    }
}
