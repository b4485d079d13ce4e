//! What a file may be that isn't records.

use std::fs::File;
use std::io::Read;
use std::path::Path;

/// The pairs in front of a data.cdb's records: position and slots of a table.
const PAIRS: usize = 256;

/// Bytes that are enough to tell a source from records, which have zeros among
/// the first four.
const BEGINNING: u64 = 4096;

/// A guess at what a file is.
#[derive(Clone, Copy, Debug, PartialEq, Eq)]
pub enum Lookalike {
    /// A source.
    Source,
    /// A whole data.cdb, with its tables.
    Database,
}

impl Lookalike {
    /// The guess, if the bytes give reason for one.
    pub fn of(bytes: &[u8]) -> Option<Lookalike> {
        if is_source(bytes) {
            Some(Lookalike::Source)
        } else if is_database(bytes) {
            Some(Lookalike::Database)
        } else {
            None
        }
    }
}

/// Whether a file begins as a source does. One that can't be read doesn't.
pub fn begins_as_source(path: &Path) -> bool {
    let mut bytes = Vec::new();
    let read = File::open(path).and_then(|file| file.take(BEGINNING).read_to_end(&mut bytes));
    read.is_ok() && is_source(&bytes)
}

/// Sources are text, and the first line that isn't blank has a known kind.
/// Records have zeros in their lengths.
fn is_source(bytes: &[u8]) -> bool {
    let mut visible = bytes.iter().filter(|byte| !byte.is_ascii_whitespace());
    let known = visible
        .next()
        .is_some_and(|kind| b"%.&=+@S'^CZ:#-".contains(kind));
    known && !bytes.contains(&0)
}

/// Every table lies behind the pairs and inside the file.
fn is_database(bytes: &[u8]) -> bool {
    let (pairs, _) = bytes.as_chunks::<8>();
    let Some(pairs) = pairs.get(..PAIRS) else {
        return false;
    };
    pairs.iter().all(|&[p0, p1, p2, p3, s0, s1, s2, s3]| {
        let position = u64::from(u32::from_le_bytes([p0, p1, p2, p3]));
        let slots = u64::from(u32::from_le_bytes([s0, s1, s2, s3]));
        position >= 8 * PAIRS as u64 && position + 8 * slots <= bytes.len() as u64
    })
}

#[cfg(test)]
mod tests {
    use super::*;

    #[test]
    fn sources() {
        for source in ["+a:1.2.3.4", "\n\n# only a comment", " \t\n.b\n!", "-off"] {
            let looks = Lookalike::of(source.as_bytes());
            assert_eq!(looks, Some(Lookalike::Source), "{source}");
        }
        for other in ["", "\n", "!", "$TTL 300", "+a\0", "\x7fELF"] {
            assert_eq!(Lookalike::of(other.as_bytes()), None, "{other}");
        }
    }

    #[test]
    fn files_that_cannot_be_read() {
        for path in ["", ".", "/dev/null/none"] {
            assert!(!begins_as_source(Path::new(path)), "{path}");
        }
    }

    #[test]
    fn databases() {
        let pair =
            |position: u32, slots: u32| [position.to_le_bytes(), slots.to_le_bytes()].concat();
        let empty = pair(2048, 0).repeat(256);
        assert_eq!(Lookalike::of(&empty), Some(Lookalike::Database));
        assert_eq!(Lookalike::of(&empty[..2047]), None);
        let with = |pair: Vec<u8>, behind: usize| {
            let file = [&empty[..2040], &pair, &vec![0; behind]].concat();
            Lookalike::of(&file).is_some()
        };
        assert!(with(pair(2048, 2), 16));
        assert!(!with(pair(2048, 2), 15));
        assert!(!with(pair(2047, 2), 16));
        assert!(!with(pair(u32::MAX, u32::MAX), 16));
    }
}
