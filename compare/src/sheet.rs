//! Sheets as documents 01 and 02 have them, written and read; the reader is apart from the library's.
use crate::input::*;

struct Bits(Vec<bool>);

impl Bits {
    fn put(&mut self, value: u64, width: u32) {
        for k in (0..width).rev() {
            self.0.push(value >> k & 1 == 1);
        }
    }
    fn bytes(&self) -> Vec<u8> {
        let byte = |b: &[bool]| (0..8).fold(0, |x, k| x << 1 | u8::from(b.get(k) == Some(&true)));
        self.0.chunks(8).map(byte).collect()
    }
}

/// A ByteArray's n of 1 to 255 by 8 bits, unless all are to be long; every other by 8 zero bits and 16 bits. From which bit to which those 16
/// lie is kept, and from which to which a Custom's size, alignment and name do.
fn put_attribute(bits: &mut Bits, a: &Attribute, all_long: bool, places: &mut Vec<(usize, usize)>) {
    bits.put(a.name.len() as u64, 5);
    for &b in &a.name {
        bits.put(b as u64, 8);
    }
    bits.put(a.code as u64, 5);
    if a.code == 16 && (1..=255).contains(&a.n) && !all_long {
        bits.put(a.n as u64, 8);
    } else if a.code == 16 {
        bits.put(0, 8);
        places.push((bits.0.len(), bits.0.len() + 16));
        bits.put(a.n as u64, 16);
    } else if a.is_custom() {
        places.push((bits.0.len(), bits.0.len() + 152));
        bits.put(a.n as u64, 16);
        bits.put(a.min_alignment as u64, 8);
        bits.put((a.uuid >> 64) as u64, 64);
        bits.put(a.uuid as u64, 64);
    }
}

fn spelled(base: &Base, all_long: bool) -> (Vec<u8>, Vec<(usize, usize)>) {
    let (mut bits, mut places) = (Bits(vec![]), vec![]);
    match base {
        Base::Placed(list) => {
            bits.put(list.len() as u64, 6);
            bits.put(0, 1);
            for (a, packing) in list {
                put_attribute(&mut bits, a, all_long, &mut places);
                bits.put(*packing as u64, 8);
            }
        }
        Base::Given(alignment, list) => {
            bits.put(list.len() as u64, 6);
            bits.put(1, 1);
            bits.put(*alignment as u64, 16);
            for (a, offset) in list {
                put_attribute(&mut bits, a, all_long, &mut places);
                bits.put(*offset as u64, 16);
            }
        }
    }
    (bits.bytes(), places)
}

pub fn layout_bytes(base: &Base) -> Vec<u8> {
    spelled(base, false).0
}

/// The same with every length of a ByteArray in 16 bits, which is refused where one is below 256, and from which bit to which the 16 bits of
/// each and what a Custom says lie.
pub fn long_bytes(base: &Base) -> (Vec<u8>, Vec<(usize, usize)>) {
    spelled(base, true)
}

pub fn mapping_bytes(m: &Mapping) -> Vec<u8> {
    let mut bits = Bits(vec![]);
    bits.put(m.lines.len() as u64, 6);
    bits.put(u64::from(m.with_default), 1);
    for &(source, target) in &m.lines {
        bits.put(source as u64, 5);
        bits.put(target as u64, 5);
    }
    bits.bytes()
}

impl Sheet<Base> {
    pub fn bytes(&self) -> Vec<u8> {
        match self {
            Sheet::Says(base) => layout_bytes(base),
            Sheet::Bytes(b) => b.clone(),
        }
    }
}

impl Sheet<Mapping> {
    pub fn bytes(&self) -> Vec<u8> {
        match self {
            Sheet::Says(mapping) => mapping_bytes(mapping),
            Sheet::Bytes(b) => b.clone(),
        }
    }
}

/// Reads front to back; the first defect met is the refusal. `code` is the last one read.
struct Reader<'a> {
    bytes: &'a [u8],
    at: usize,
    code: u8,
}

impl Reader<'_> {
    fn take(&mut self, width: usize) -> Result<u64, u32> {
        if self.at + width > self.bytes.len() * 8 {
            return Err(2);
        }
        let bit = |k: usize| u64::from(self.bytes[k / 8] >> (7 - k % 8) & 1);
        let value = (self.at..self.at + width).fold(0, |x, k| x << 1 | bit(k));
        self.at += width;
        Ok(value)
    }
    fn number(&mut self) -> Result<usize, u32> {
        let n = self.take(6)? as usize;
        if n > 32 { Err(3) } else { Ok(n) }
    }
    fn attribute(&mut self) -> Result<Attribute, u32> {
        let mut a = Attribute::default();
        for _ in 0..self.take(5)? {
            let b = self.take(8)? as u8;
            if !(0x20..=0x7e).contains(&b) {
                return Err(4);
            }
            a.name.push(b);
        }
        a.code = self.take(5)? as u8;
        self.code = a.code;
        if a.code > 17 {
            return Err(5);
        }
        if a.code == 16 {
            a.n = self.take(8)? as u16;
            if a.n == 0 {
                a.n = self.take(16)? as u16;
                if a.n < 256 {
                    return Err(6);
                }
            }
        }
        if a.code == 17 {
            a.n = self.take(16)? as u16;
            if a.n == 0 {
                return Err(6);
            }
            a.min_alignment = self.take(8)? as u8;
            a.uuid = (self.take(64)? as u128) << 64;
            a.uuid |= self.take(64)? as u128;
        }
        Ok(a)
    }
    fn end(&mut self) -> Result<(), u32> {
        let rest = self.bytes.len() * 8 - self.at;
        if rest >= 8 || self.take(rest)? != 0 { Err(7) } else { Ok(()) }
    }
    fn layout(&mut self) -> Result<Base, u32> {
        let n = self.number()?;
        let base = if self.take(1)? == 0 {
            Base::Placed((0..n).map(|_| Ok((self.attribute()?, self.take(8)? as u8))).collect::<Result<_, u32>>()?)
        } else {
            let alignment = self.take(16)? as u16;
            Base::Given(alignment, (0..n).map(|_| Ok((self.attribute()?, self.take(16)? as u16))).collect::<Result<_, u32>>()?)
        };
        self.end()?;
        Ok(base)
    }
}

pub fn read_layout(bytes: &[u8]) -> Result<Base, u32> {
    Reader { bytes, at: 0, code: 0 }.layout()
}

/// The number of a layout sheet that is refused by itself, and the last code read.
pub fn refused(bytes: &[u8]) -> Option<(u32, u8)> {
    let mut r = Reader { bytes, at: 0, code: 0 };
    r.layout().err().map(|n| (n, r.code))
}

pub fn read_mapping(bytes: &[u8]) -> Result<Mapping, u32> {
    let mut r = Reader { bytes, at: 0, code: 0 };
    let n = r.number()?;
    let with_default = r.take(1)? == 1;
    let lines = (0..n).map(|_| Ok((r.take(5)? as u8, r.take(5)? as u8))).collect::<Result<_, u32>>()?;
    r.end()?;
    Ok(Mapping { with_default, lines })
}
