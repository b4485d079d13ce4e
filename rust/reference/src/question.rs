//! A question, and what is wrong with it.

use crate::name::is_wire_name;
use crate::record::types;

/// A question of a client. The ordinal isn't part of it.
#[derive(Clone, Copy, Debug)]
pub struct Question<'a> {
    /// The name asked for, on the wire.
    pub name: &'a [u8],
    /// The record type asked for; 255 is all.
    pub record_type: u16,
    /// The client's address, 4 or 16 bytes.
    pub client: &'a [u8],
    /// When it is asked, a TAI64 number.
    pub moment: u64,
}

impl Question<'_> {
    /// The number of the first thing wrong with the question.
    pub fn refusal(&self) -> Option<u64> {
        if !is_wire_name(self.name) {
            Some(15)
        } else if self.moment >= 1 << 63 {
            Some(16)
        } else if self.client.len() != 4 && self.client.len() != 16 {
            Some(17)
        } else {
            None
        }
    }

    /// Whether the type asked for takes records of this one.
    pub fn takes(&self, record_type: u16) -> bool {
        self.record_type == types::ALL || self.record_type == record_type
    }

    /// How well a location's prefix fits the client: its length, if it fits.
    pub fn fit(&self, prefix: &[u8]) -> Option<usize> {
        let fits = prefix.is_empty() || (self.client.len() == 4 && self.client.starts_with(prefix));
        fits.then_some(prefix.len())
    }
}

/// The lifetime of a record at a moment, or `None` where its time hides it.
/// A time of 0 is none.
pub fn lifetime(ttl: u32, time: u64, moment: u64) -> Option<u32> {
    match (time, ttl) {
        (0, _) => Some(ttl),
        (_, 0) if moment < time => Some((time - moment).clamp(2, 3_600) as u32),
        (_, 0) => None,
        _ => (moment >= time).then_some(ttl),
    }
}
