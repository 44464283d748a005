//! The refusals, each with its number and its sentence.
use std::error::Error;
use std::fmt;

macro_rules! refusals {
    ($($name:ident = $number:literal, $sentence:literal;)*) => {
        /// Why a call was turned down: the first that applies. A later version may have more.
        ///
        /// ```
        /// use nakvisk::{Layout, Refusal};
        ///
        /// assert_eq!(Layout::from_sheet(&[]), Err(Refusal::SheetEnds));
        /// assert_eq!(Refusal::SheetEnds.to_string(), "refused 2: A sheet ends inside a field.");
        /// ```
        #[derive(Clone, Copy, Debug, PartialEq, Eq, PartialOrd, Ord, Hash)]
        #[non_exhaustive]
        #[repr(u8)]
        pub enum Refusal {
            $(#[doc = $sentence] $name = $number,)*
        }

        const ALL: &[Refusal] = &[$(Refusal::$name,)*];

        impl Refusal {
            /// What is wrong, in one sentence.
            ///
            /// ```
            /// assert_eq!(nakvisk::Refusal::SharedByte.sentence(), "Two attributes share a byte.");
            /// ```
            pub fn sentence(self) -> &'static str {
                match self {
                    $(Refusal::$name => $sentence,)*
                }
            }
        }
    };
}

refusals! {
    NotSound = 1, "A layout or plan handed in is not sound.";
    SheetEnds = 2, "A sheet ends inside a field.";
    TooMany = 3, "There are more than 32 attributes or lines.";
    Name = 4, "A name has over 31 bytes or a byte outside hex 20 to 7E.";
    Code = 5, "A datatype code is above 17.";
    DatatypeSize = 6, "A ByteArray or a Custom has size 0, or a sheet gives a length below 256 in 16 bits.";
    SheetGoesOn = 7, "Fill bits are not zero, or a byte follows.";
    NameTwice = 8, "A name already stands in the list.";
    SharedByte = 9, "Two attributes share a byte.";
    Alignment = 10, "The layout's alignment is 0 or no power of two.";
    TooLarge = 11, "An end or the size passes 65,535.";
    NoSource = 12, "`for_layouts` finds no source of that name.";
    NoPlace = 13, "A place is not in its list.";
    NoCast = 14, "The pair has neither copy nor cast.";
    SourceLength = 15, "The source buffer is not count times point size long.";
    TargetLength = 16, "The target buffer is not count times point size long.";
    RangesDiffer = 17, "The ranges' lengths differ.";
    SourceRange = 18, "The source range's end passes the count, or the part of a view's point passes the view's lent bytes.";
    TargetRange = 19, "The target range's end passes the count.";
    PointEnds = 20, "A lent single point, source or target, ends before the end of a paired attribute.";
    BackwardRange = 21, "A range starts after its end.";
    ColumnLength = 22, "A column buffer is not count times the sum of attribute sizes long.";
}

impl Refusal {
    /// All of them, in the order of their numbers.
    ///
    /// ```
    /// use nakvisk::Refusal;
    ///
    /// assert_eq!(Refusal::all().next(), Some(Refusal::NotSound));
    /// assert!(Refusal::all().zip(1..).all(|(refusal, number)| refusal.number() == number));
    /// ```
    pub fn all() -> impl Iterator<Item = Refusal> {
        ALL.iter().copied()
    }

    /// Its number, from 1 on.
    ///
    /// ```
    /// assert_eq!(nakvisk::Refusal::NotSound.number(), 1);
    /// ```
    pub fn number(self) -> u32 {
        self as u32
    }

    /// The refusal of a number, if it has one.
    ///
    /// ```
    /// use nakvisk::Refusal;
    ///
    /// assert_eq!(Refusal::from_number(9), Some(Refusal::SharedByte));
    /// assert_eq!(Refusal::from_number(0), None);
    /// ```
    pub fn from_number(number: u32) -> Option<Refusal> {
        Refusal::all().find(|refusal| refusal.number() == number)
    }
}

impl fmt::Display for Refusal {
    fn fmt(&self, f: &mut fmt::Formatter<'_>) -> fmt::Result {
        write!(f, "refused {}: {}", self.number(), self.sentence())
    }
}

impl Error for Refusal {}
