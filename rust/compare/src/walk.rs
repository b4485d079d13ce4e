//! Record bytes taken apart, as far as their lengths fit.

/// A record's key and data, and where the next one begins.
#[derive(Clone, Copy)]
pub struct Found<'a> {
    /// The key.
    pub key: &'a [u8],
    /// The data, fixed fields included.
    pub data: &'a [u8],
    /// The place behind both.
    pub end: usize,
}

/// All records up to the first whose lengths don't fit.
pub fn records(bytes: &[u8]) -> Vec<Found<'_>> {
    let mut all = Vec::new();
    let mut rest = bytes;
    while let Some(found) = first(rest) {
        let size = found.end;
        let end = bytes.len() - rest.len() + size;
        all.push(Found { end, ..found });
        rest = &rest[size..];
    }
    all
}

fn first(bytes: &[u8]) -> Option<Found<'_>> {
    let (head, rest) = bytes.split_at_checked(8)?;
    let length = |bytes: &[u8]| u32::from_le_bytes(bytes.try_into().unwrap()) as usize;
    let (key, rest) = rest.split_at_checked(length(&head[..4]))?;
    let data = rest.get(..length(&head[4..]))?;
    let end = 8 + key.len() + data.len();
    Some(Found { key, data, end })
}

impl Found<'_> {
    /// The two bytes of the record's location, of one that can be asked for.
    pub fn lo(&self) -> Option<[u8; 2]> {
        match *self.data {
            _ if self.key.starts_with(b"\0%") => None,
            [_, _, b'>' | b'+', first, second, ..] => Some([first, second]),
            _ => None,
        }
    }
}
