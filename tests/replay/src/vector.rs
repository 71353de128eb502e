//! A vector, read: oracle/README.md has its form.
use std::io::Read;

/// How many fields the vector of a call has, by the call's number.
const FIELDS: [u8; 33] = [0, 2, 1, 1, 3, 1, 1, 1, 3, 1, 1, 1, 1, 1, 1, 1, 3, 1, 4, 1, 1, 1, 1, 16, 16, 1, 2, 2, 2, 7, 4, 3, 2];

/// The most bytes of a vector, and the most elements of a field.
const BYTES: usize = 262_144;
const PLACES: usize = 1100;

pub struct Vector {
    pub call: u8,
    bytes: Vec<u8>,
}

/// A malformed vector.
pub struct Bad;

/// Reads as many bytes as there are, at most so many.
fn read_up_to(input: &mut impl Read, size: usize) -> Vec<u8> {
    let mut bytes = Vec::with_capacity(size);
    input.take(size as u64).read_to_end(&mut bytes).expect("the vectors can be read");
    bytes
}

fn little_endian(bytes: &[u8]) -> usize {
    bytes.iter().rev().fold(0, |n, &b| n << 8 | usize::from(b))
}

impl Vector {
    /// The next vector; `None` behind the last.
    pub fn read(input: &mut impl Read) -> Result<Option<Vector>, Bad> {
        let head = read_up_to(input, 6);
        let [call, fields, ref size @ ..] = head[..] else {
            return if head.is_empty() { Ok(None) } else { Err(Bad) };
        };
        let size = little_endian(size);
        if head.len() < 6 || size > BYTES {
            return Err(Bad);
        }
        let vector = Vector { call, bytes: read_up_to(input, size) };
        let known = fields != 0 && FIELDS.get(usize::from(call)) == Some(&fields);
        let whole = vector.bytes.len() == size && (0..usize::from(fields)).all(|k| vector.field(k).is_some());
        if known && whole { Ok(Some(vector)) } else { Err(Bad) }
    }

    /// A field's elements as bytes, and how many bytes each has.
    fn field(&self, number: usize) -> Option<(&[u8], usize)> {
        let entry = self.bytes.get(8 * number..8 * number + 8)?;
        let (offset, count, width) = (little_endian(&entry[..4]), little_endian(&entry[4..6]), little_endian(&entry[6..]));
        if count > PLACES || ![1, 2, 4, 8, 24].contains(&width) {
            return None;
        }
        Some((self.bytes.get(offset..offset + count * width)?, width))
    }

    /// The elements of a field whose elements have so many bytes; none of another width.
    fn elements(&self, number: usize, width: usize) -> impl Iterator<Item = &[u8]> {
        let field = self.field(number).filter(|&(_, w)| w == width).map_or(&[][..], |(bytes, _)| bytes);
        field.chunks_exact(width)
    }

    pub fn u8s(&self, number: usize) -> Vec<u8> {
        self.elements(number, 1).map(|e| e[0]).collect()
    }

    pub fn u16s(&self, number: usize) -> Vec<u16> {
        self.elements(number, 2).map(|e| little_endian(e) as u16).collect()
    }

    pub fn u32s(&self, number: usize) -> Vec<u32> {
        self.elements(number, 4).map(|e| little_endian(e) as u32).collect()
    }

    /// Rows of three numbers.
    pub fn rows(&self, number: usize) -> Vec<[usize; 3]> {
        let row = |e: &[u8]| [&e[..8], &e[8..16], &e[16..]].map(little_endian);
        self.elements(number, 24).map(row).collect()
    }

    /// The first element of a field.
    pub fn one_u8(&self, number: usize) -> u8 {
        self.u8s(number)[0]
    }

    pub fn one_u16(&self, number: usize) -> u16 {
        self.u16s(number)[0]
    }

    pub fn one_u32(&self, number: usize) -> u32 {
        self.u32s(number)[0]
    }

    pub fn one_usize(&self, number: usize) -> usize {
        self.elements(number, 8).next().map_or(0, little_endian)
    }
}
