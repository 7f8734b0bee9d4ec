//! The records that task and plan files are rows of: body length, kind, body.

/// The kinds of records.
pub(crate) mod kind {
    pub const BOUNDS: u16 = 1;
    pub const ACTION: u16 = 2;
    pub const PRESET: u16 = 3;
    pub const CASE: u16 = 4;
    pub const CLOSING: u16 = 5;
    pub const WRITE: u16 = 16;
    pub const REPEAT: u16 = 17;
}

/// A record's kind and body.
pub(crate) type Record<'a> = (u16, &'a [u8]);

/// Appends a record. Its body is that of a task's or a plan's record, 272 bytes at most.
pub(crate) fn push_record(file: &mut Vec<u8>, kind: u16, body: &[u8]) {
    file.extend((body.len() as u16).to_le_bytes());
    file.extend(kind.to_le_bytes());
    file.extend(body);
}

/// The first record of a file, if it is all there, and what follows it.
pub(crate) fn split_record(file: &[u8]) -> Option<(Record<'_>, &[u8])> {
    let (&[low, high, kind_low, kind_high], behind) = file.split_first_chunk()?;
    let length = u16::from_le_bytes([low, high]);
    let (body, rest) = behind.split_at_checked(length.into())?;
    Some(((u16::from_le_bytes([kind_low, kind_high]), body), rest))
}

/// The records of a file, up to its end or to one that is not all there.
pub(crate) fn records(mut file: &[u8]) -> impl Iterator<Item = Record<'_>> {
    std::iter::from_fn(move || {
        let (record, rest) = split_record(file)?;
        file = rest;
        Some(record)
    })
}
