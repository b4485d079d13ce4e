//! Record data as people write them.

use std::fmt::Write;
use std::net::{Ipv4Addr, Ipv6Addr};

use crate::names;

/// Shows record data in the form of their type. Data without that form, and
/// types that have none here, are shown as `\#`, their length and hex.
pub fn data(record_type: u16, data: &[u8]) -> String {
    let shown = match record_type {
        1 => <[u8; 4]>::try_from(data)
            .ok()
            .map(|bytes| Ipv4Addr::from(bytes).to_string()),
        28 => <[u8; 16]>::try_from(data)
            .ok()
            .map(|bytes| Ipv6Addr::from(bytes).to_string()),
        2 | 5 | 12 => whole_name(data),
        6 => authority(data),
        15 => numbers_and_name::<1>(data),
        33 => numbers_and_name::<3>(data),
        16 => text(data),
        _ => None,
    };
    shown.unwrap_or_else(|| hex(data))
}

fn whole_name(data: &[u8]) -> Option<String> {
    let (name, behind) = names::split(data)?;
    behind.is_empty().then_some(name)
}

fn numbers_and_name<const N: usize>(data: &[u8]) -> Option<String> {
    let (numbers, name) = data.split_at_checked(2 * N)?;
    let mut shown = String::new();
    for number in numbers.chunks_exact(2) {
        let number = u16::from_be_bytes(number.try_into().ok()?);
        write!(shown, "{number} ").ok()?;
    }
    Some(shown + &whole_name(name)?)
}

fn authority(data: &[u8]) -> Option<String> {
    let (primary, behind) = names::split(data)?;
    let (contact, numbers) = names::split(behind)?;
    if numbers.len() != 20 {
        return None;
    }
    let mut shown = format!("{primary} {contact}");
    for number in numbers.chunks_exact(4) {
        let number = u32::from_be_bytes(number.try_into().ok()?);
        write!(shown, " {number}").ok()?;
    }
    Some(shown)
}

fn text(data: &[u8]) -> Option<String> {
    // Empty text has no string at all; people write it as an empty one.
    if data.is_empty() {
        return Some("\"\"".to_owned());
    }
    let mut shown = Vec::new();
    let mut rest = data;
    while let Some((&length, behind)) = rest.split_first() {
        let (string, behind) = behind.split_at_checked(length.into())?;
        shown.push(quoted(string));
        rest = behind;
    }
    Some(shown.join(" "))
}

fn quoted(string: &[u8]) -> String {
    let mut shown = String::from("\"");
    for &byte in string {
        match byte {
            b'"' | b'\\' => write!(shown, "\\{byte:03}").expect("strings take all"),
            32..=126 => shown.push(byte.into()),
            _ => write!(shown, "\\{byte:03}").expect("strings take all"),
        }
    }
    shown + "\""
}

fn hex(data: &[u8]) -> String {
    let mut shown = format!("\\# {}", data.len());
    if !data.is_empty() {
        shown.push(' ');
    }
    for byte in data {
        write!(shown, "{byte:02x}").expect("strings take all");
    }
    shown
}

#[cfg(test)]
mod tests {
    use super::data;

    #[test]
    fn each_type_in_its_form() {
        assert_eq!(data(1, &[192, 0, 2, 1]), "192.0.2.1");
        let mut address = [0; 16];
        address[..4].copy_from_slice(&[0x20, 1, 0xd, 0xb8]);
        address[15] = 1;
        assert_eq!(data(28, &address), "2001:db8::1");
        assert_eq!(data(2, b"\x01a\x00"), "a");
        assert_eq!(data(15, b"\x00\x0a\x01a\x00"), "10 a");
        assert_eq!(
            data(33, b"\x00\x0a\x00\x14\x13\xc4\x01a\x00"),
            "10 20 5060 a"
        );
        let numbers = [1, 2, 3, 4, 5u32].map(u32::to_be_bytes).concat();
        let soa = [&b"\x01a\x00\x00"[..], &numbers].concat();
        assert_eq!(data(6, &soa), "a . 1 2 3 4 5");
        assert_eq!(data(16, b"\x03a \"\x01\xff"), r#""a \034" "\255""#);
        assert_eq!(data(16, b""), "\"\"");
        assert_eq!(data(99, b"\x01\xab"), "\\# 2 01ab");
        assert_eq!(data(99, b""), "\\# 0");
    }

    #[test]
    fn data_without_their_form() {
        assert_eq!(data(1, &[1, 2, 3]), "\\# 3 010203");
        assert_eq!(data(2, b"\x01a\x00\x00"), "\\# 4 01610000");
        assert_eq!(data(15, b"\x00"), "\\# 1 00");
        assert_eq!(data(16, b"\x05a"), "\\# 2 0561");
        assert_eq!(data(6, b"\x00\x00"), "\\# 2 0000");
    }
}
