//! Records one after another, by their lengths alone.

/// The records in the bytes, unjudged. Ends at the end, or in front of the
/// first one whose lengths don't fit.
pub struct Walk<'a> {
    rest: &'a [u8],
}

/// A record of the walk.
pub struct Walked<'a> {
    /// All of its bytes.
    pub whole: &'a [u8],
    /// Its key.
    pub key: &'a [u8],
}

impl<'a> Walk<'a> {
    pub fn new(bytes: &'a [u8]) -> Walk<'a> {
        Walk { rest: bytes }
    }
}

impl<'a> Iterator for Walk<'a> {
    type Item = Walked<'a>;

    fn next(&mut self) -> Option<Walked<'a>> {
        let (key_length, rest) = self.rest.split_first_chunk()?;
        let (data_length, rest) = rest.split_first_chunk()?;
        let (key, rest) = rest.split_at_checked(length(key_length)?)?;
        let (_, rest) = rest.split_at_checked(length(data_length)?)?;
        let (whole, rest) = self.rest.split_at(self.rest.len() - rest.len());
        self.rest = rest;
        Some(Walked { whole, key })
    }
}

fn length(bytes: &[u8; 4]) -> Option<usize> {
    u32::from_le_bytes(*bytes).try_into().ok()
}

#[cfg(test)]
mod tests {
    use super::*;

    #[test]
    fn lengths_that_do_not_fit_end_it() {
        let good = b"\x01\0\0\0\x02\0\0\0kdd\0\0\0\0\0\0\0\0";
        let walked = |bytes| Walk::new(bytes).map(|record| (record.whole.len(), record.key));
        assert!(walked(good).eq([(11, &b"k"[..]), (8, b"")]));
        assert!(walked(&good[..18]).eq([(11, &b"k"[..])]));
        for cut in 0..11 {
            assert_eq!(walked(&good[..cut]).count(), 0, "{cut}");
        }
        assert_eq!(walked(&[0xff; 64]).count(), 0);
        assert_eq!(walked(b"\0\0\0\0\xff\xff\xff\xff").count(), 0);
    }
}
