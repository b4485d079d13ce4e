//! Record bytes, whoever made them, read one record after another.

use crate::name::is_wire_name;
use crate::values::Lo;

/// Most bytes of a wildcard's key: its name with the star has two more.
const LONGEST_WILDCARD_KEY: usize = 253;
/// The largest time to live.
const LONGEST_TTL: u32 = 2_147_483_647;

/// A record found in the bytes.
#[derive(Clone, Copy, Debug)]
pub enum Entry<'a> {
    /// A location.
    Location {
        /// The address prefix.
        prefix: &'a [u8],
        /// Where clients with it are.
        lo: Lo,
    },
    /// A record that can be asked for.
    Resource(Stored<'a>),
}

/// The fields of a stored record; its data only by their place.
#[derive(Clone, Copy, Debug)]
pub struct Stored<'a> {
    /// The owner, or the name behind the star.
    pub key: &'a [u8],
    /// Whether a star was dropped.
    pub wildcard: bool,
    /// The record type.
    pub record_type: u16,
    /// The only location that sees it.
    pub lo: Option<Lo>,
    /// Time to live.
    pub ttl: u32,
    /// Start or end; 0 is none.
    pub time: u64,
    /// Where the record data begin.
    pub place: usize,
    /// How many bytes they have.
    pub length: usize,
}

/// Bytes that aren't whole records.
#[derive(Clone, Copy, Debug, PartialEq, Eq)]
pub struct Malformed;

/// The records in the bytes, in order; ends after the first malformed one.
pub struct Stream<'a> {
    bytes: &'a [u8],
    at: usize,
}

impl<'a> Stream<'a> {
    /// Begins at the first record.
    pub fn new(bytes: &'a [u8]) -> Stream<'a> {
        Stream { bytes, at: 0 }
    }

    /// Where the next record begins.
    pub fn place(&self) -> usize {
        self.at
    }

    fn read(&mut self) -> Option<Entry<'a>> {
        let (head, rest) = self.bytes[self.at..].split_first_chunk::<8>()?;
        let [k0, k1, k2, k3, d0, d1, d2, d3] = *head;
        let key_length = u32::from_le_bytes([k0, k1, k2, k3]) as usize;
        let data_length = u32::from_le_bytes([d0, d1, d2, d3]) as usize;
        let (key, rest) = rest.split_at_checked(key_length)?;
        let data = rest.get(..data_length)?;
        self.at += 8 + key_length + data_length;
        match key {
            [0, second, prefix @ ..] => location(*second, prefix, data),
            _ => resource(key, data, self.at).map(Entry::Resource),
        }
    }
}

impl<'a> Iterator for Stream<'a> {
    type Item = Result<Entry<'a>, Malformed>;

    fn next(&mut self) -> Option<Self::Item> {
        if self.at == self.bytes.len() {
            return None;
        }
        let entry = self.read();
        if entry.is_none() {
            self.at = self.bytes.len();
        }
        Some(entry.ok_or(Malformed))
    }
}

fn location<'a>(second: u8, prefix: &'a [u8], data: &[u8]) -> Option<Entry<'a>> {
    if second != b'%' || prefix.len() > 4 {
        return None;
    }
    let lo = Lo::from_bytes(data.try_into().ok()?)?;
    Some(Entry::Location { prefix, lo })
}

fn resource<'a>(key: &'a [u8], data: &[u8], end: usize) -> Option<Stored<'a>> {
    let &[type_high, type_low, flag, ref rest @ ..] = data else {
        return None;
    };
    let (wildcard, with_lo) = match flag {
        b'=' => (false, false),
        b'>' => (false, true),
        b'*' => (true, false),
        b'+' => (true, true),
        _ => return None,
    };
    let (lo, rest) = if with_lo {
        let (bytes, rest) = rest.split_first_chunk::<2>()?;
        (Some(Lo::from_bytes(*bytes)?), rest)
    } else {
        (None, rest)
    };
    let (ttl, rest) = rest.split_first_chunk::<4>()?;
    let (time, data) = rest.split_first_chunk::<8>()?;
    let stored = Stored {
        key,
        wildcard,
        record_type: u16::from_be_bytes([type_high, type_low]),
        lo,
        ttl: u32::from_be_bytes(*ttl),
        time: u64::from_be_bytes(*time),
        place: end - data.len(),
        length: data.len(),
    };
    let good = is_key(key, wildcard) && stored.ttl <= LONGEST_TTL && stored.time < 1 << 63;
    good.then_some(stored)
}

fn is_key(key: &[u8], wildcard: bool) -> bool {
    let fits_flag = if wildcard {
        key.len() <= LONGEST_WILDCARD_KEY
    } else {
        !key.starts_with(b"\x01*")
    };
    fits_flag && is_wire_name(key) && !key.iter().any(u8::is_ascii_uppercase)
}
