//! Sources at the edges of the rules: what is refused, where and in which order.

mod support;
use support::*;

/// A name of exactly `length` bytes on the wire.
fn long_name(length: usize) -> String {
    let mut name = String::new();
    let mut left = length - 1;
    while left > 0 {
        let label = (left - 1).min(63);
        // A single byte left over would be a label without content.
        let label = if left - 1 - label == 1 {
            label - 1
        } else {
            label
        };
        name += &"n".repeat(label);
        name.push('.');
        left -= 1 + label;
    }
    name.pop();
    assert_eq!(wire(&name).len(), length);
    name
}

fn check(source: &str, expected: (u64, u64, u64)) {
    assert_eq!(refused(source.as_bytes()), expected, "{source:?}");
}

fn fine(source: &str) {
    assert!(good(source.as_bytes()), "{source:?}");
}

#[test]
fn names_put_together_come_last_in_their_line() {
    let name = long_name(255);
    check(&format!("&{name}\n!"), (5, 1, 0));
    check(&format!("&{name}:::::1"), (9, 1, 6));
    check(&format!("!\n&{name}"), (3, 1, 0));
    check(
        &format!("&{}::{}", long_name(200), "x".repeat(63)),
        (5, 1, 0),
    );
    check(&format!("&a::{}", "x".repeat(64)), (5, 1, 3));
    fine(&format!("&{}", long_name(252)));
    check(&format!("&{}", long_name(253)), (5, 1, 0));
}

#[test]
fn hostmaster_is_put_together_too() {
    fine(&format!(".{}::x.y", long_name(244)));
    check(&format!(".{}::x.y", long_name(245)), (5, 1, 0));
    fine(&format!("&{}::x.y", long_name(245)));
}

#[test]
fn lines_are_measured_before_stripping() {
    for start in ["", "#", "-", "+a:1.2.3.4"] {
        let line = start.to_owned() + &" ".repeat(1024 - start.len());
        fine(&line);
        check(&(line + " "), (2, 1, 0));
    }
    check(&format!("\n#\n{}", "!".repeat(1025)), (2, 3, 0));
}

#[test]
fn only_blanks_and_tabs_are_stripped_and_only_at_the_end() {
    fine("+a:1.2.3.4 \t \n \t \n");
    check("+a:1.2.3.4\r", (6, 1, 2));
    check("\r", (3, 1, 0));
    check(" +a:1.2.3.4", (3, 1, 0));
    assert_eq!(asked(b"'a:x\r", "a")[0].2, b"\x02x\r");
    assert_eq!(asked(b"'a:x ", "a")[0].2, b"\x01x");
    assert_eq!(asked(b"'a:x :5", "a")[0].2, b"\x02x ");
    assert_eq!(asked(b"'a:x\\040", "a")[0].2, b"\x02x ");
}

#[test]
fn fields_are_split_before_escapes() {
    assert_eq!(asked(b"'a:x\\072y", "a")[0].2, b"\x03x:y");
    check("'a:x\\:5", (10, 1, 2));
    check("'a:\\400", (10, 1, 2));
    check(":a:16:\\", (10, 1, 3));
}

#[test]
fn one_field_more_is_too_many() {
    fine("+a:1.2.3.4:::");
    check("+a:1.2.3.4::::", (4, 1, 0));
    check("+a:bad::::", (4, 1, 0));
    fine("+a:1.2.3.4::: \t");
    check("%a::", (4, 1, 0));
    fine("Za:b:c::::::::");
    check("Za:b:c:::::::::", (4, 1, 0));
}

#[test]
fn kinds_alone() {
    check("S", (12, 1, 4));
    check("C", (12, 1, 2));
    check("^", (12, 1, 2));
    check("=", (12, 1, 2));
    check("+", (12, 1, 2));
    check("%", (12, 1, 1));
    check("Z", (12, 1, 2));
    check("Za:b", (12, 1, 3));
    check(":", (12, 1, 2));
    for kind in [".", "&", "@", "'"] {
        fine(kind);
    }
    for kind in ["s", "c", "z", "H", "!", "\0", "6"] {
        check(kind, (3, 1, 0));
    }
}

#[test]
fn names_and_labels() {
    let label = "l".repeat(63);
    fine(&format!("+{label}:1.2.3.4"));
    check(&format!("+{label}l:1.2.3.4"), (5, 1, 1));
    fine(&format!("+{}:1.2.3.4", long_name(255)));
    fine(&format!("+{}.:1.2.3.4", long_name(255)));
    check(&format!("+{}:1.2.3.4", long_name(256)), (5, 1, 1));
    for name in [
        "..", "a..", ".a", "a..b", "a b", "a\\101", "\u{7f}", "\u{e9}",
    ] {
        check(&format!("+{name}:1.2.3.4"), (5, 1, 1));
    }
    fine("+\"(;%!@*~:1.2.3.4");
}

#[test]
fn the_server_field() {
    let server = |x: &str| {
        let source = format!("&b::{x}");
        asked(source.as_bytes(), "b")[0].2.clone()
    };
    assert_eq!(server("a"), wire("a.ns.b"));
    assert_eq!(server(""), wire("ns.b"));
    assert_eq!(server("a."), wire("a"));
    assert_eq!(server("."), wire(""));
    assert_eq!(server("*"), wire("*.ns.b"));
    check("&b::.a", (5, 1, 3));
    check("&b::a b", (5, 1, 3));
    check("&b::a\\", (5, 1, 3));
}

#[test]
fn empty_names_in_data_are_refused_but_the_root_is_good() {
    assert_eq!(asked_as(b"C:.", "", 5, &[0; 4], NOW)[0].2, [0]);
    fine("Z:.:.");
    check("Z::.", (12, 1, 2));
    check("Z:.:", (12, 1, 3));
}

#[test]
fn numbers_times_and_locations() {
    fine("+a:1.2.3.4:2147483647");
    check("+a:1.2.3.4:2147483648", (7, 1, 3));
    fine("+a:1.2.3.4:0000000007");
    check("+a:1.2.3.4:00000000007", (7, 1, 3));
    check("+a:1.2.3.4:9999999999", (7, 1, 3));
    fine("Za:b:c:4294967295");
    check("Za:b:c:4294967296", (7, 1, 4));
    fine("@a:::65535");
    check("@a:::65536", (7, 1, 4));
    check("Sa:::65536", (7, 1, 4));
    check("Sa:::1:65536", (7, 1, 5));
    check("Sa:::1:1:65536", (7, 1, 6));
    check("+a:1.2.3.4::4000000038AF1379", (8, 1, 4));
    check("+a:1.2.3.4::0000000000000000", (8, 1, 4));
    check("+a:1.2.3.4::8000000000000000", (8, 1, 4));
    check("+a:1.2.3.4:::abc", (9, 1, 5));
    check("+a:1.2.3.4:::1", (9, 1, 5));
    check("%1", (9, 1, 1));
    check("%a:1.", (6, 1, 2));
    check("%a:01", (6, 1, 2));
}

#[test]
fn record_types_of_generic_lines() {
    for good in ["1", "65535", "251", "253", "254", "255", "016"] {
        fine(&format!(":a:{good}:x"));
    }
    for banned in ["0", "2", "5", "6", "12", "15", "252", "002", "0000000252"] {
        check(&format!(":a:{banned}:x"), (11, 1, 2));
    }
    check(":a::x", (12, 1, 2));
    check(":a:65536:x", (7, 1, 2));
    check(":a:65538:x", (7, 1, 2));
    check(":a:2 :x", (7, 1, 2));
}

#[test]
fn the_first_fault_of_a_line_is_the_leftmost() {
    check("+..:1.2.3.256:x:x:x", (5, 1, 1));
    check("+a:1.2.3.256:x:x:x", (6, 1, 2));
    check("+a:1.2.3.4:x:x:x", (7, 1, 3));
    check("+a:1.2.3.4:1:x:1", (8, 1, 4));
    check("+..:", (5, 1, 1));
}

#[test]
fn room_is_judged_after_all_lines() {
    assert_eq!(answer(b"+a:1.2.3.4\n!", 0), [3, 2, 0, 0]);
    assert_eq!(answer(b"+a:1.2.3.4\n+b:1.2.3.4", 0), [13, 0, 0, 60]);
    assert_eq!(answer(b"+a:1.2.3.4\n+b:1.2.3.4", 59), [13, 0, 0, 60]);
    assert_eq!(answer(b"+a:1.2.3.4\n+b:1.2.3.4", 60), [0, 0, 0, 60]);
    assert_eq!(answer(b"#\n\n-x", 0), [0, 0, 0, 0]);
}

#[test]
fn the_longest_source() {
    let mut source = b"#\n".repeat(524_288);
    assert_eq!(answer(&source, 0), [0, 0, 0, 0]);
    source.push(b'#');
    assert_eq!(answer(&source, 0), [1, 0, 0, 0]);
    source[0] = b'!';
    assert_eq!(answer(&source, 0), [1, 0, 0, 0]);
}

#[test]
fn soa_of_a_name_server_line() {
    let ttl = |field: &str| {
        let source = format!(".a:::{field}");
        let handed = asked(source.as_bytes(), "a");
        (handed[0].1, handed[1].1)
    };
    assert_eq!(ttl(""), (2_560, 259_200));
    assert_eq!(ttl("1"), (2_560, 1));
    assert_eq!(ttl("0"), (0, 0));
    assert_eq!(ttl("000"), (0, 0));
    let numbers = asked(b"Za:b:c:0", "a")[0].2[6..].to_vec();
    assert_eq!(numbers[..4], [0; 4]);
    let numbers = asked(b"Za:b:c", "a")[0].2[6..].to_vec();
    assert_eq!(numbers[..4], SERIAL.to_be_bytes());
}

#[test]
fn text_is_cut_after_escapes() {
    let source = format!("'a:{}", "\\141".repeat(128));
    let data = asked(source.as_bytes(), "a")[0].2.clone();
    assert_eq!(data.len(), 130);
    assert_eq!((data[0], data[128], data[129]), (127, 1, b'a'));
    assert_eq!(asked(b"'a", "a")[0].2, b"");
}

#[test]
fn reverse_name_of_an_ipv6_host() {
    let source = b"=a:3fff_0_1978_0308_1980_0125_0102_108";
    let owner = "8.0.1.0.2.0.1.0.5.2.1.0.0.8.9.1.8.0.3.0.8.7.9.1.0.0.0.0.f.f.f.3.ip6.arpa";
    assert_eq!(asked(source, owner), [(12, 86_400, wire("a"))]);
    assert_eq!(asked(source, "a")[0].0, 28);
}
