//! Record types by name and number.

const NAMES: [(&str, u16); 24] = [
    ("A", 1),
    ("NS", 2),
    ("CNAME", 5),
    ("SOA", 6),
    ("PTR", 12),
    ("HINFO", 13),
    ("MX", 15),
    ("TXT", 16),
    ("RP", 17),
    ("AFSDB", 18),
    ("AAAA", 28),
    ("LOC", 29),
    ("SRV", 33),
    ("NAPTR", 35),
    ("CERT", 37),
    ("DNAME", 39),
    ("DS", 43),
    ("SSHFP", 44),
    ("TLSA", 52),
    ("SVCB", 64),
    ("HTTPS", 65),
    ("SPF", 99),
    ("ANY", 255),
    ("CAA", 257),
];

/// Reads a type: a name in either case, a number, or TYPE and a number.
pub fn parse(text: &str) -> Option<u16> {
    let upper = text.to_ascii_uppercase();
    let named = NAMES.iter().find(|(name, _)| *name == upper);
    if let Some(&(_, number)) = named {
        return Some(number);
    }
    let digits = upper.strip_prefix("TYPE").unwrap_or(&upper);
    let plain = !digits.is_empty() && digits.bytes().all(|byte| byte.is_ascii_digit());
    plain.then(|| digits.parse().ok()).flatten()
}

/// A type's name, or TYPE and its number.
pub fn show(number: u16) -> String {
    match NAMES.iter().find(|&&(_, known)| known == number) {
        Some((name, _)) => (*name).to_owned(),
        None => format!("TYPE{number}"),
    }
}

#[cfg(test)]
mod tests {
    use super::*;

    #[test]
    fn types() {
        assert_eq!(parse("aaaa"), Some(28));
        assert_eq!(parse("ANY"), Some(255));
        assert_eq!(parse("type65280"), Some(65280));
        assert_eq!(parse("65535"), Some(65535));
        for bad in ["", "65536", "+1", "TYPE", "B", "-1", "A "] {
            assert_eq!(parse(bad), None, "{bad}");
        }
        assert_eq!(show(33), "SRV");
        assert_eq!(show(4711), "TYPE4711");
        for (name, number) in NAMES {
            assert_eq!(parse(&show(number)), parse(name));
        }
    }
}
