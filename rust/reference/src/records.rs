//! Records: body length and kind, two little-endian bytes each, then the body.
//! The reader goes from record to record and knows the offset of the next one.

pub(crate) const BOUNDS: u16 = 1;
pub(crate) const ACTION: u16 = 2;
pub(crate) const PRESET: u16 = 3;
pub(crate) const CASE: u16 = 4;
pub(crate) const CLOSING: u16 = 5;
pub(crate) const WRITE: u16 = 16;
pub(crate) const REPEAT: u16 = 17;

pub(crate) const HEAD_BYTES: usize = 4;
/// A closing record is a head alone.
pub(crate) const CLOSING_BYTES: usize = HEAD_BYTES;

/// The first bytes of a record whose body has this length.
pub(crate) fn head(length: u16, kind: u16) -> [u8; HEAD_BYTES] {
    let [length_low, length_high] = length.to_le_bytes();
    let [kind_low, kind_high] = kind.to_le_bytes();
    [length_low, length_high, kind_low, kind_high]
}

pub(crate) struct Record<'a> {
    pub kind: u16,
    pub body: &'a [u8],
}

pub(crate) struct Records<'a> {
    rest: &'a [u8],
    offset: usize,
}

impl<'a> Records<'a> {
    pub fn new(file: &'a [u8]) -> Self {
        Records {
            rest: file,
            offset: 0,
        }
    }

    /// Offset of the first byte not yet read.
    pub fn offset(&self) -> usize {
        self.offset
    }

    pub fn at_end(&self) -> bool {
        self.rest.is_empty()
    }

    /// The next record, or `None` and nothing read if its bytes are not all there.
    pub fn next_record(&mut self) -> Option<Record<'a>> {
        let (&[length_low, length_high, kind_low, kind_high], rest) =
            self.rest.split_first_chunk()?;
        let length = usize::from(u16::from_le_bytes([length_low, length_high]));
        let (body, rest) = rest.split_at_checked(length)?;
        self.rest = rest;
        self.offset += HEAD_BYTES + length;
        Some(Record {
            kind: u16::from_le_bytes([kind_low, kind_high]),
            body,
        })
    }
}
