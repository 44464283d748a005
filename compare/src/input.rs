//! What is compared: attributes, layouts, sheets, buffers and the cases made of them, as plain values.
use std::fmt;

/// An attribute's definition. `n` is looked at where the code is 16 or 17, a Custom's minimum alignment and name where it is 17.
#[derive(Clone, PartialEq, Eq, Default)]
pub struct Attribute {
    pub name: Vec<u8>,
    pub code: u8,
    pub n: u16,
    pub min_alignment: u8,
    pub uuid: u128,
}

/// A layout as either side gives it.
#[derive(Clone, PartialEq, Eq, Debug)]
pub struct Layout {
    pub attributes: Vec<(Attribute, u64)>,
    pub size: u64,
    pub alignment: u64,
}

pub const EMPTY: Layout = Layout { attributes: Vec::new(), size: 0, alignment: 1 };

/// What a layout sheet says: attributes with their packing (0 Default, else P), or an alignment and attributes with their offsets.
#[derive(Clone, PartialEq, Debug)]
pub enum Base {
    Placed(Vec<(Attribute, u8)>),
    Given(u16, Vec<(Attribute, u16)>),
}

/// What a mapping sheet says.
#[derive(Clone, PartialEq, Debug, Default)]
pub struct Mapping {
    pub with_default: bool,
    pub lines: Vec<(u8, u8)>,
}

/// A sheet that says something, or bytes as they came.
#[derive(Clone, Debug)]
pub enum Sheet<T> {
    Says(T),
    Bytes(Vec<u8>),
}

/// A call of `add_attribute`: Default, or Packed of P.
#[derive(Clone, Debug)]
pub struct Call {
    pub attribute: Attribute,
    pub packing: Option<u8>,
}

/// A layout handed in: a base, calls on it, then single fields changed.
#[derive(Clone, Debug)]
pub struct Handed {
    pub base: Base,
    pub calls: Vec<Call>,
    pub changes: Vec<Change>,
}

#[derive(Clone, Debug)]
pub enum Change {
    Offset(usize, u16),
    Name(usize, Vec<u8>),
    Code(usize, u8),
    N(usize, u16),
    /// A Custom's minimum alignment and name.
    Custom(usize, u8, u128),
    Size(u16),
    Alignment(u16),
    Count(u8),
}

/// Bytes as many as are due and `extra` more (or fewer), made from the seed.
#[derive(Clone, Debug)]
pub struct Fill {
    pub extra: i64,
    pub seed: u64,
}

/// How the values of a buffer's points lie: point after point, or attribute after attribute in list order.
#[derive(Clone, Copy, PartialEq, Debug)]
pub enum Storage {
    Interleaved,
    Columns,
}

#[derive(Clone, Debug)]
pub struct Buffer {
    pub fill: Fill,
    pub storage: Storage,
    pub count: u32,
    pub start: u32,
    pub end: u32,
}

#[derive(Clone, Debug)]
pub struct Sheets {
    pub source: Sheet<Base>,
    pub target: Sheet<Base>,
    pub mapping: Sheet<Mapping>,
}

#[derive(Clone, Debug)]
pub enum Case {
    Layout(Sheet<Base>),
    Calls(Handed, Vec<Call>),
    Plan(Sheets),
    Convert(Sheets, Buffer, Buffer),
    Point(Handed, Handed, Fill, Fill),
    View { layout: Handed, place: u32, count: u32, fill: Fill, i: u64 },
    /// The given list as it is lent: an alignment, and members in an order.
    Given(u16, Vec<(Attribute, u16)>),
    Lookup(Handed, Attribute),
    Compare(Handed, Handed),
    /// A value written to the part of a view's point.
    Write { layout: Handed, place: u32, count: u32, fill: Fill, i: u64, value: Vec<u8> },
}

/// Size and alignment of each code but 16 and 17, from document 01.
const SIZES: [(u64, u64); 16] =
    [(1, 1), (1, 1), (2, 2), (2, 2), (4, 4), (4, 4), (8, 8), (8, 8), (4, 4), (8, 8), (3, 1), (6, 2), (12, 4), (12, 4), (24, 8), (4, 1)];

impl fmt::Debug for Attribute {
    fn fmt(&self, f: &mut fmt::Formatter) -> fmt::Result {
        write!(f, "{}:{}*{}", hex(&self.name), self.code, self.n)?;
        if self.is_custom() { write!(f, " aligned {} named {:032x}", self.min_alignment, self.uuid) } else { Ok(()) }
    }
}

/// In what two Customs can differ, the name by its halves.
pub const PARTS: [&str; 4] = ["size", "alignment", "first 64 bits", "last 64 bits"];

impl Attribute {
    /// A definition of a code that has no numbers beside it.
    pub fn plain(name: impl Into<Vec<u8>>, code: u8) -> Attribute {
        Attribute { name: name.into(), code, ..Attribute::default() }
    }
    /// The same, in which what the code does not have is 0.
    pub fn without_spare(self) -> Attribute {
        match self.code {
            16 => Attribute { n: self.n, ..Attribute::plain(self.name, 16) },
            17 => self,
            code => Attribute::plain(self.name, code),
        }
    }
    pub fn size(&self) -> u64 {
        SIZES.get(self.code as usize).map_or(self.n as u64, |s| s.0)
    }
    pub fn alignment(&self) -> u64 {
        let other = if self.is_custom() { self.min_alignment as u64 } else { 1 };
        SIZES.get(self.code as usize).map_or(other, |s| s.1)
    }
    pub fn same_datatype(&self, other: &Attribute) -> bool {
        let same = match self.code {
            16 => self.n == other.n,
            17 => self.unequal(other) == [false; 4],
            _ => true,
        };
        self.code == other.code && same
    }
    /// In which of the things two Customs differ.
    pub fn unequal(&self, other: &Attribute) -> [bool; 4] {
        let names = self.uuid ^ other.uuid;
        [self.n != other.n, self.min_alignment != other.min_alignment, names >> 64 != 0, names as u64 != 0]
    }
    pub fn is_custom(&self) -> bool {
        self.code == 17
    }
    /// A ByteArray or a Custom: its size is n.
    pub fn has_n(&self) -> bool {
        matches!(self.code, 16 | 17)
    }
    /// A ByteArray of a length that a sheet gives in 16 bits.
    pub fn is_long(&self) -> bool {
        self.code == 16 && self.n > 255
    }
}

impl Base {
    pub fn attributes_mut(&mut self) -> Vec<&mut Attribute> {
        match self {
            Base::Placed(list) => list.iter_mut().map(|x| &mut x.0).collect(),
            Base::Given(_, list) => list.iter_mut().map(|x| &mut x.0).collect(),
        }
    }
}

impl Sheet<Base> {
    pub fn attributes_mut(&mut self) -> Vec<&mut Attribute> {
        match self {
            Sheet::Says(base) => base.attributes_mut(),
            Sheet::Bytes(_) => vec![],
        }
    }
}

impl Handed {
    fn attributes_mut(&mut self) -> Vec<&mut Attribute> {
        let mut list = self.base.attributes_mut();
        list.extend(self.calls.iter_mut().map(|c| &mut c.attribute));
        list
    }
}

impl Case {
    /// Every definition that the case names; none of a sheet that is bytes as they came.
    pub fn attributes_mut(&mut self) -> Vec<&mut Attribute> {
        let mut list = vec![];
        match self {
            Case::Layout(s) => list = s.attributes_mut(),
            Case::Calls(h, calls) => {
                list = h.attributes_mut();
                list.extend(calls.iter_mut().map(|c| &mut c.attribute));
            }
            Case::Plan(s) | Case::Convert(s, ..) => {
                list = s.source.attributes_mut();
                list.extend(s.target.attributes_mut());
            }
            Case::Point(a, b, ..) | Case::Compare(a, b) => {
                list = a.attributes_mut();
                list.extend(b.attributes_mut());
            }
            Case::View { layout, .. } | Case::Write { layout, .. } => list = layout.attributes_mut(),
            Case::Given(_, members) => list.extend(members.iter_mut().map(|m| &mut m.0)),
            Case::Lookup(h, a) => {
                list = h.attributes_mut();
                list.push(a);
            }
        }
        list
    }
}

impl Layout {
    /// The bytes that a buffer has for each point.
    pub fn width(&self, storage: Storage) -> u64 {
        match storage {
            Storage::Interleaved => self.size,
            Storage::Columns => self.attributes.iter().map(|(a, _)| a.size()).sum(),
        }
    }
    /// Where the attribute at a place begins in point i of so many.
    pub fn start(&self, storage: Storage, count: u32, place: usize, i: u32) -> usize {
        let sizes = || self.attributes[..place].iter().map(|(a, _)| a.size()).sum::<u64>();
        let start = match storage {
            Storage::Interleaved => i as u64 * self.size + self.attributes[place].1,
            Storage::Columns => count as u64 * sizes() + i as u64 * self.attributes[place].0.size(),
        };
        start as usize
    }
}

impl Buffer {
    /// All points of a buffer whose bytes the caller has.
    pub fn whole(storage: Storage, count: u32) -> Buffer {
        Buffer { fill: Fill { extra: 0, seed: 0 }, storage, count, start: 0, end: count }
    }
}

pub fn hex(bytes: &[u8]) -> String {
    if bytes.is_empty() {
        return "-".into();
    }
    bytes.iter().map(|b| format!("{:02x}", b)).collect()
}
