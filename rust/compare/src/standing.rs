//! How the key of a record stands to an asked name.

/// Longest name on the wire.
const LONGEST_NAME: usize = 255;

/// How a key stands to a name.
#[derive(Clone, Copy, Debug, PartialEq, Eq)]
pub enum Standing {
    /// It is the name or an ancestor of it.
    Same,
    /// It is as long as the name or as an ancestor, and so many bytes differ,
    /// the first of them at this place.
    Differs {
        /// The place of the first byte that differs, from 0.
        first: usize,
        /// How many differ.
        count: usize,
    },
    /// It is an end of the name and no ancestor.
    End,
    /// It has a byte more than the name or an ancestor.
    Longer,
    /// It has a byte less.
    Shorter,
    /// It has another length.
    Apart,
}

/// Where a name and its ancestors begin in its wire form, the root last;
/// `None` for what is no name.
pub fn starts(name: &[u8]) -> Option<Vec<usize>> {
    if name.len() > LONGEST_NAME {
        return None;
    }
    let mut starts = vec![0];
    let mut at = 0;
    loop {
        match *name.get(at)? {
            0 => return (at + 1 == name.len()).then_some(starts),
            length @ 1..=63 => at += 1 + usize::from(length),
            _ => return None,
        }
        starts.push(at);
    }
}

/// How a key stands to a name that has no upper case and begins, as its
/// ancestors do, at these places.
pub fn standing(name: &[u8], starts: &[usize], key: &[u8]) -> Standing {
    let has = |length| starts.iter().any(|start| name.len() - start == length);
    if has(key.len()) {
        let end = &name[name.len() - key.len()..];
        let unlike = |place: &usize| end[*place] != key[*place];
        let count = (0..key.len()).filter(unlike).count();
        return match (0..key.len()).find(unlike) {
            Some(first) => Standing::Differs { first, count },
            None => Standing::Same,
        };
    }
    if name.ends_with(key) {
        return Standing::End;
    }
    if has(key.len().wrapping_sub(1)) {
        return Standing::Longer;
    }
    if has(key.len() + 1) {
        return Standing::Shorter;
    }
    Standing::Apart
}

#[cfg(test)]
mod tests {
    use super::*;

    #[test]
    fn names_begin_where_labels_do() {
        assert_eq!(starts(b"\0"), Some(vec![0]));
        assert_eq!(starts(b"\x01a\x02bc\0"), Some(vec![0, 2, 5]));
        for other in [&b""[..], b"\x01a", b"\x01a\0\0", b"\x02a\0", b"\x40\0"] {
            assert_eq!(starts(other), None);
        }
        let deep = [&b"\x01d".repeat(127)[..], b"\0"].concat();
        assert_eq!(starts(&deep).map(|starts| starts.len()), Some(128));
        assert_eq!(starts(&[b"\x01d", &deep[..]].concat()), None);
    }

    #[test]
    fn keys_stand_by_length_first() {
        let name = b"\x03\x02ab\x01c\0";
        let starts = starts(name).expect("a name");
        let stands = |key: &[u8]| standing(name, &starts, key);
        assert_eq!(stands(name), Standing::Same);
        assert_eq!(stands(b"\x01c\0"), Standing::Same);
        assert_eq!(stands(b"\0"), Standing::Same);
        assert_eq!(stands(b"\x02ab\x01c\0"), Standing::End);
        let differs = |first, count| Standing::Differs { first, count };
        assert_eq!(stands(b"\x05\x02ab\x01c\0"), differs(0, 1));
        assert_eq!(stands(b"\x03\x02az\x01d\0"), differs(3, 2));
        assert_eq!(stands(b"\x01d\0"), differs(1, 1));
        assert_eq!(stands(b"\x02cc\0"), Standing::Longer);
        assert_eq!(stands(b"\x04zb\x01c\0"), Standing::Shorter);
        assert_eq!(stands(b"\x09abcabcabc\0"), Standing::Apart);
    }
}
