//! Domain names: from what people write to the wire, and back.

use std::fmt::Write;

const LONGEST_LABEL: usize = 63;
const LONGEST_NAME: usize = 255;

/// Reads a name. A backslash with three decimal digits is that byte; with
/// anything else behind it, it takes away that byte's special meaning.
pub fn parse(text: &str) -> Result<Vec<u8>, &'static str> {
    if text == "." || text.is_empty() {
        return Ok(vec![0]);
    }
    let mut wire = Vec::new();
    let mut label = Vec::new();
    let mut rest = text.as_bytes();
    while let Some((&byte, behind)) = rest.split_first() {
        rest = behind;
        match byte {
            b'.' => close(&mut wire, &mut label)?,
            b'\\' => label.push(escaped(&mut rest)?),
            _ => label.push(byte),
        }
    }
    // A dot at the end has closed the last label already.
    if !label.is_empty() {
        close(&mut wire, &mut label)?;
    }
    wire.push(0);
    if wire.len() > LONGEST_NAME {
        return Err("a name has at most 255 bytes on the wire");
    }
    Ok(wire)
}

fn close(wire: &mut Vec<u8>, label: &mut Vec<u8>) -> Result<(), &'static str> {
    match label.len() {
        0 => Err("an empty label"),
        length @ 1..=LONGEST_LABEL => {
            wire.push(length as u8);
            wire.append(label);
            Ok(())
        }
        _ => Err("a label has at most 63 bytes"),
    }
}

fn escaped(rest: &mut &[u8]) -> Result<u8, &'static str> {
    let (&first, behind) = rest.split_first().ok_or("nothing behind the backslash")?;
    if !first.is_ascii_digit() {
        *rest = behind;
        return Ok(first);
    }
    let (digits, behind) = rest
        .split_at_checked(3)
        .ok_or("a backslash and a digit need two more digits")?;
    *rest = behind;
    let number = digits.iter().try_fold(0u32, |sum, digit| {
        digit
            .is_ascii_digit()
            .then(|| sum * 10 + u32::from(digit - b'0'))
    });
    number
        .and_then(|number| u8::try_from(number).ok())
        .ok_or("three digits behind a backslash are 000 to 255")
}

/// Shows the name that the bytes begin with, and what stands behind it.
/// `None` if they begin with none.
pub fn split(bytes: &[u8]) -> Option<(String, &[u8])> {
    let mut shown = String::new();
    let mut rest = bytes;
    loop {
        let (&length, behind) = rest.split_first()?;
        if length == 0 {
            let used = bytes.len() - behind.len();
            let root = used == 1;
            return (used <= LONGEST_NAME).then(|| {
                let name = if root { ".".to_owned() } else { shown };
                (name, behind)
            });
        }
        let length = usize::from(length);
        if length > LONGEST_LABEL {
            return None;
        }
        let (label, behind) = behind.split_at_checked(length)?;
        rest = behind;
        if !shown.is_empty() {
            shown.push('.');
        }
        show_label(&mut shown, label);
    }
}

fn show_label(shown: &mut String, label: &[u8]) {
    for &byte in label {
        match byte {
            b'.' | b'\\' | b'"' | b';' | b'(' | b')' | b'@' | b'$' => {
                write!(shown, "\\{byte:03}").expect("strings take all");
            }
            33..=126 => shown.push(byte.into()),
            _ => write!(shown, "\\{byte:03}").expect("strings take all"),
        }
    }
}

#[cfg(test)]
mod tests {
    use super::*;

    #[test]
    fn there_and_back() {
        for name in ["a.b", ".", "*.b", "a\\046b.c", "\\000\\255", "A.b"] {
            let wire = parse(name).unwrap();
            assert_eq!(split(&wire), Some((name.to_owned(), &[][..])), "{name}");
        }
        assert_eq!(parse("a.b."), parse("a.b"));
        assert_eq!(parse("a\\.b"), Ok(b"\x03a.b\x00".to_vec()));
        assert_eq!(parse(""), parse("."));
    }

    #[test]
    fn what_is_no_name() {
        let long = "n".repeat(64);
        for bad in [
            "..", ".a", "a..b", "a..", "a\\", "a\\25", "a\\256", "\\9x9", &long,
        ] {
            assert!(parse(bad).is_err(), "{bad}");
        }
        let label = "n".repeat(61);
        let name = [&label[..], &label, &label, &label].join(".");
        assert!(parse(&format!("{name}.abcde")).is_ok());
        assert!(parse(&format!("{name}.abcdef")).is_err());
        for bad in [&b""[..], b"\x01a", b"\x05a\x00", b"\x40", b"\xc0\x00"] {
            assert_eq!(split(bad), None, "{bad:?}");
        }
    }
}
