//! Domain names: as written in a source, and on the wire.

/// Most bytes of a label.
pub const LONGEST_LABEL: usize = 63;
/// Most bytes of a name on the wire, lengths and closing zero included.
pub const LONGEST_NAME: usize = 255;

/// A name on the wire, in the case it was written in.
#[derive(Clone, Debug, PartialEq, Eq)]
pub struct Name(Vec<u8>);

impl Name {
    /// The root: the closing zero alone.
    pub fn root() -> Name {
        Name(vec![0])
    }

    /// Reads a name as a source writes it.
    pub fn parse(text: &[u8]) -> Option<Name> {
        if text.is_empty() || text == b"." {
            return Some(Name::root());
        }
        // Only one closing dot is dropped; what it leaves must be whole labels.
        let text = text.strip_suffix(b".").unwrap_or(text);
        let mut wire = Vec::with_capacity(text.len() + 2);
        for label in text.split(|&byte| byte == b'.') {
            if !is_label(label) {
                return None;
            }
            wire.push(label.len() as u8);
            wire.extend_from_slice(label);
        }
        wire.push(0);
        (wire.len() <= LONGEST_NAME).then_some(Name(wire))
    }

    /// The name of `labels` in front of this one, if it isn't too long.
    pub fn under(&self, labels: &[&[u8]]) -> Option<Name> {
        let mut wire = Vec::with_capacity(LONGEST_NAME);
        for label in labels {
            wire.push(label.len() as u8);
            wire.extend_from_slice(label);
        }
        wire.extend_from_slice(&self.0);
        (wire.len() <= LONGEST_NAME).then_some(Name(wire))
    }

    /// The bytes on the wire.
    pub fn wire(&self) -> &[u8] {
        &self.0
    }

    /// The name behind a first label that is just `*`.
    pub fn behind_star(&self) -> Option<&[u8]> {
        self.0.strip_prefix(b"\x01*")
    }
}

/// Whether a source may have this label in a name.
pub fn is_label(text: &[u8]) -> bool {
    (1..=LONGEST_LABEL).contains(&text.len())
        && text
            .iter()
            .all(|&byte| (33..=126).contains(&byte) && byte != b'.' && byte != b'\\')
}

/// Whether these bytes are one whole name on the wire. Labels may hold any byte.
pub fn is_wire_name(bytes: &[u8]) -> bool {
    if bytes.len() > LONGEST_NAME {
        return false;
    }
    let mut rest = bytes;
    while let Some((&length, behind)) = rest.split_first() {
        let length = usize::from(length);
        if length == 0 {
            return behind.is_empty();
        }
        if length > LONGEST_LABEL || length > behind.len() {
            return false;
        }
        rest = &behind[length..];
    }
    false
}

/// A byte with A to Z lowered, all others kept.
pub fn lower(byte: u8) -> u8 {
    byte.to_ascii_lowercase()
}

#[cfg(test)]
mod tests {
    use super::*;

    #[test]
    fn dots_that_make_empty_labels_are_refused() {
        for text in ["..", "a..", ".a", "a..b", "..a"] {
            assert_eq!(Name::parse(text.as_bytes()), None, "{text}");
        }
        assert_eq!(Name::parse(b"."), Some(Name::root()));
        assert_eq!(Name::parse(b""), Some(Name::root()));
        assert_eq!(Name::parse(b"a."), Name::parse(b"a"));
    }

    #[test]
    fn wire_names_end_with_their_zero() {
        assert!(is_wire_name(b"\x00"));
        assert!(is_wire_name(b"\x01\xff\x00"));
        assert!(!is_wire_name(b""));
        assert!(!is_wire_name(b"\x01a"));
        assert!(!is_wire_name(b"\x01a\x00\x00"));
        assert!(!is_wire_name(b"\x40aaaa"));
    }

    #[test]
    fn only_a_to_z_are_lowered() {
        for byte in 0..=255u8 {
            let expected = if (65..=90).contains(&byte) {
                byte + 32
            } else {
                byte
            };
            assert_eq!(lower(byte), expected);
        }
    }
}
