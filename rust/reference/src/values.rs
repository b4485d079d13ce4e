//! The values a field can hold, each read from its bytes alone.

/// An address of a host.
#[derive(Clone, Copy, Debug, PartialEq, Eq)]
pub enum Address {
    /// Four bytes, an A record.
    V4([u8; 4]),
    /// Sixteen bytes, an AAAA record.
    V6([u8; 16]),
}

/// A client location: a letter, and a second letter or 0.
#[derive(Clone, Copy, Debug, PartialEq, Eq)]
pub struct Lo(pub [u8; 2]);

impl Lo {
    /// Reads one or two letters.
    pub fn parse(text: &[u8]) -> Option<Lo> {
        match *text {
            [first] => Lo::from_bytes([first, 0]),
            [first, second] if second != 0 => Lo::from_bytes([first, second]),
            _ => None,
        }
    }

    /// Takes the two bytes as records hold them.
    pub fn from_bytes(bytes: [u8; 2]) -> Option<Lo> {
        let [first, second] = bytes;
        let good = first.is_ascii_alphabetic() && (second == 0 || second.is_ascii_alphabetic());
        good.then_some(Lo(bytes))
    }
}

/// Reads 1 to 10 decimal digits of at most `most`.
pub fn number(text: &[u8], most: u32) -> Option<u32> {
    if !(1..=10).contains(&text.len()) || !text.iter().all(u8::is_ascii_digit) {
        return None;
    }
    // Ten digits don't fit 32 bits.
    let value = text
        .iter()
        .fold(0u64, |sum, digit| sum * 10 + u64::from(digit - b'0'));
    u32::try_from(value).ok().filter(|&value| value <= most)
}

/// Reads an address of either sort; an underscore makes it IPv6.
pub fn address(text: &[u8]) -> Option<Address> {
    if text.contains(&b'_') {
        address6(text).map(Address::V6)
    } else {
        let octets = octets(text)?;
        Some(Address::V4(octets.try_into().ok()?))
    }
}

/// Reads none to four octets joined by dots.
pub fn prefix(text: &[u8]) -> Option<Vec<u8>> {
    if text.is_empty() {
        return Some(Vec::new());
    }
    octets(text).filter(|octets| octets.len() <= 4)
}

fn octets(text: &[u8]) -> Option<Vec<u8>> {
    text.split(|&byte| byte == b'.').map(octet).collect()
}

fn octet(text: &[u8]) -> Option<u8> {
    let leading_zero = text.len() > 1 && text[0] == b'0';
    if text.len() > 3 || leading_zero {
        return None;
    }
    number(text, 255).and_then(|value| u8::try_from(value).ok())
}

fn address6(text: &[u8]) -> Option<[u8; 16]> {
    let mut bytes = [0; 16];
    let mut groups = text.split(|&byte| byte == b'_');
    for pair in bytes.chunks_exact_mut(2) {
        pair.copy_from_slice(&group(groups.next()?)?.to_be_bytes());
    }
    groups.next().is_none().then_some(bytes)
}

fn group(text: &[u8]) -> Option<u16> {
    if !(1..=4).contains(&text.len()) {
        return None;
    }
    text.iter().try_fold(0, |sum, &digit| {
        let value = char::from(digit).to_digit(16)?;
        Some(sum << 4 | value as u16)
    })
}

/// Reads a time: 16 digits of lower-case hex, not 0 and below 2^63.
pub fn time(text: &[u8]) -> Option<u64> {
    if text.len() != 16 {
        return None;
    }
    let value = text.iter().try_fold(0u64, |sum, &digit| {
        let value = match digit {
            b'0'..=b'9' => digit - b'0',
            b'a'..=b'f' => digit - b'a' + 10,
            _ => return None,
        };
        Some(sum << 4 | u64::from(value))
    })?;
    (1..1 << 63).contains(&value).then_some(value)
}

/// Takes the escapes out of a text; `None` for a bad one.
pub fn text(field: &[u8]) -> Option<Vec<u8>> {
    let mut plain = Vec::with_capacity(field.len());
    let mut rest = field;
    while let Some((&byte, behind)) = rest.split_first() {
        if byte != b'\\' {
            plain.push(byte);
            rest = behind;
            continue;
        }
        let (digits, behind) = behind.split_at_checked(3)?;
        let [high @ b'0'..=b'3', middle @ b'0'..=b'7', low @ b'0'..=b'7'] = *digits else {
            return None;
        };
        plain.push((high - b'0') << 6 | (middle - b'0') << 3 | (low - b'0'));
        rest = behind;
    }
    Some(plain)
}

#[cfg(test)]
mod tests {
    use super::*;

    #[test]
    fn numbers() {
        assert_eq!(number(b"0000000007", 65535), Some(7));
        assert_eq!(number(b"00000000007", 65535), None);
        assert_eq!(number(b"4294967295", u32::MAX), Some(u32::MAX));
        assert_eq!(number(b"4294967296", u32::MAX), None);
        assert_eq!(number(b"9999999999", u32::MAX), None);
        assert_eq!(number(b"", 9), None);
        assert_eq!(number(b"+1", 9), None);
        assert_eq!(number(b"1 ", 9), None);
    }

    #[test]
    fn addresses() {
        assert_eq!(address(b"1.2.3.0"), Some(Address::V4([1, 2, 3, 0])));
        for bad in [
            "1.2.3",
            "1.2.3.4.5",
            "1.2.3.256",
            "01.2.3.4",
            "1.2.3.00",
            "1.2.3.4.",
            "1..3.4",
            "1.2.3.4_",
            "1_2_3_4_5_6_7",
            "1_2_3_4_5_6_7_8_9",
            "1_2_3_4_5_6_7_",
            "1_2_3_4_5_6_7_g",
            "1_2_3_4_5_6_7_00001",
            "_1_2_3_4_5_6_7_8",
        ] {
            assert_eq!(address(bad.as_bytes()), None, "{bad}");
        }
        let bytes = [0x20, 1, 0xb, 0xd8, 0, 3, 0, 4, 0, 5, 0, 6, 0, 7, 0xAB, 0xcd];
        assert_eq!(
            address(b"2001_bd8_3_4_5_6_7_aBcD"),
            Some(Address::V6(bytes))
        );
    }

    #[test]
    fn prefixes() {
        assert_eq!(prefix(b""), Some(vec![]));
        assert_eq!(prefix(b"192.168"), Some(vec![192, 168]));
        for bad in ["1.", "01", "256", "1.2.3.4.5", "."] {
            assert_eq!(prefix(bad.as_bytes()), None, "{bad}");
        }
    }

    #[test]
    fn times() {
        assert_eq!(time(b"4000000038af1379"), Some(0x4000000038af1379));
        assert_eq!(time(b"7fffffffffffffff"), Some((1 << 63) - 1));
        assert_eq!(time(b"8000000000000000"), None);
        assert_eq!(time(b"0000000000000000"), None);
        assert_eq!(time(b"4000000038AF1379"), None);
        assert_eq!(time(b"4000000038af137"), None);
    }

    #[test]
    fn texts() {
        assert_eq!(text(b"a\\072\\377\\000b"), Some(b"a:\xff\x00b".to_vec()));
        for bad in ["\\400", "\\8", "\\", "\\07", "\\:", "\\779"] {
            assert_eq!(text(bad.as_bytes()), None, "{bad}");
        }
    }

    #[test]
    fn locations() {
        assert_eq!(Lo::parse(b"a"), Some(Lo([b'a', 0])));
        assert_eq!(Lo::parse(b"Zz"), Some(Lo(*b"Zz")));
        for bad in [&b""[..], b"abc", b"1", b"a1", b"a\0"] {
            assert_eq!(Lo::parse(bad), None, "{bad:?}");
        }
        assert_eq!(Lo::from_bytes([0, 0]), None);
        assert_eq!(Lo::from_bytes([0, b'a']), None);
    }
}
