//! Buffers with bytes before and behind them that nobody may write.

use crate::random::Random;

const GUARD: usize = 32;

/// A buffer between two guards, all filled with random bytes.
#[derive(Clone, Debug, PartialEq, Eq)]
pub struct Guarded {
    bytes: Vec<u8>,
}

impl Guarded {
    /// A buffer of this length.
    pub fn new(length: usize, random: &mut Random) -> Guarded {
        let mut bytes = Vec::with_capacity(length + 2 * GUARD);
        while bytes.len() < length + 2 * GUARD {
            bytes.extend_from_slice(&random.number().to_le_bytes());
        }
        bytes.truncate(length + 2 * GUARD);
        Guarded { bytes }
    }

    /// A buffer that holds these bytes.
    pub fn holding(content: &[u8], random: &mut Random) -> Guarded {
        let mut guarded = Guarded::new(content.len(), random);
        guarded.inner_mut().copy_from_slice(content);
        guarded
    }

    /// The buffer without its guards.
    pub fn inner(&self) -> &[u8] {
        &self.bytes[GUARD..self.bytes.len() - GUARD]
    }

    /// The buffer without its guards, to be lent.
    pub fn inner_mut(&mut self) -> &mut [u8] {
        let end = self.bytes.len() - GUARD;
        &mut self.bytes[GUARD..end]
    }

    /// Everything, guards included.
    pub fn all(&self) -> &[u8] {
        &self.bytes
    }
}
