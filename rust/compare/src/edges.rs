//! Fixed inputs at the limits, with the answers that the rules give.

use vahmizar::sys;

use crate::cases;
use crate::difference::{literal, Checked, Difference};
use crate::guarded::Guarded;
use crate::names::of_wire_length;
use crate::random::Random;
use crate::reading::Reading;
use crate::tally::Tally;

/// A source and its answer's number, line and field.
type Edge = (Vec<u8>, [u64; 3]);

/// Compares all edges and holds them to their answers. Returns their count.
pub fn run(reading: &Reading, tally: &mut Tally) -> Checked<u64> {
    let mut random = Random::of_case(0, 0);
    let edges = edges(&mut random);
    for (source, wanted) in &edges {
        hold(source, wanted, &mut random)?;
        cases::source(reading, source, &mut random, tally)?;
    }
    Ok(edges.len() as u64)
}

/// Judges a source by a call without room: every good one that has records
/// needs some.
fn hold(source: &[u8], wanted: &[u64; 3], random: &mut Random) -> Checked {
    let mut answer = Guarded::new(sys::COMPILE_ANSWER, random);
    let mut out = Guarded::new(0, random);
    sys::compile(source, 1, out.inner_mut(), answer.inner_mut());
    let found = match [0, 1, 2].map(|place| sys::answer_number(answer.inner(), place)) {
        [13, line, field] => [0, line, field],
        found => found,
    };
    if found == *wanted {
        return Ok(());
    }
    let source = literal(&source[..source.len().min(2_000)]);
    Err(Difference(format!(
        "the rules give {wanted:?} and compiling answers {found:?}\n  source: {source}"
    )))
}

fn edges(random: &mut Random) -> Vec<Edge> {
    let mut edges = Vec::new();
    let mut edge = |source: &[u8], wanted| edges.push((source.to_vec(), wanted));
    let good = [0, 0, 0];
    for (source, wanted) in SHORT {
        edge(source.as_bytes(), *wanted);
    }
    let mut name = |length| String::from_utf8(of_wire_length(length, random)).expect("letters");
    let label = "l".repeat(63);
    for (source, wanted) in [
        (format!("+{label}:1.2.3.4"), good),
        (format!("+{label}l:1.2.3.4"), [5, 1, 1]),
        (format!("&a::{label}"), good),
        (format!("&a::{label}l"), [5, 1, 3]),
        (format!("&a::{}", name(255)), good),
        (format!("&a::{}", name(256)), [5, 1, 3]),
        (format!("+{}:1.2.3.4", name(255)), good),
        (format!("+{}.:1.2.3.4", name(255)), good),
        (format!("+{}:1.2.3.4", name(256)), [5, 1, 1]),
        (format!("+*.{}:1.2.3.4", name(253)), good),
        (format!("+*.{}:1.2.3.4", name(254)), [5, 1, 1]),
        (format!("={}:1.2.3.4", name(255)), good),
        (format!("Ca:{}", name(256)), [5, 1, 2]),
        (format!("Za:{}:{}", name(255), name(256)), [5, 1, 3]),
        (format!("&{}", name(252)), good),
        (format!("&{}", name(253)), [5, 1, 0]),
        (format!("&{}\n!", name(255)), [5, 1, 0]),
        (format!("!\n&{}", name(255)), [3, 1, 0]),
        (format!("&{}:::::1", name(255)), [9, 1, 6]),
        (format!("&{}::{label}", name(188)), good),
        (format!("&{}::{label}", name(189)), [5, 1, 0]),
        (format!("@{}::x", name(251)), [5, 1, 0]),
        (format!("S{}:::1", name(251)), good),
        (format!("S{}:::1", name(252)), [5, 1, 0]),
        (format!(".{}::x.y", name(244)), good),
        (format!(".{}::x.y", name(245)), [5, 1, 0]),
        (format!("&{}::x.y", name(245)), good),
        (format!("#{}", " ".repeat(1023)), good),
        (format!("#{}", " ".repeat(1024)), [2, 1, 0]),
        (" ".repeat(1025), [2, 1, 0]),
        (format!("-{}", "x".repeat(1024)), [2, 1, 0]),
        (format!("!{}", "x".repeat(1024)), [2, 1, 0]),
        (format!("'a:{}", "x".repeat(1021)), good),
        (format!("'a:{}", "x".repeat(1022)), [2, 1, 0]),
        (format!("'a:{}", "\\141".repeat(255)), good),
        ("#\n".repeat(524_288), good),
        ("#\n".repeat(524_288) + "#", [1, 0, 0]),
        ("!".repeat(1_048_577), [1, 0, 0]),
        ("!".repeat(1_048_576), [2, 1, 0]),
        ("\n".repeat(1_048_575) + "!", [3, 1_048_576, 0]),
        (".\n".repeat(2_000), good),
        ("+a:1.2.3.4\n".repeat(3_000) + "+a:1.2.3.4:x", [7, 3_001, 3]),
    ] {
        edge(source.as_bytes(), wanted);
    }
    edges
}

const SHORT: &[(&str, [u64; 3])] = &[
    ("", [0, 0, 0]),
    ("\n", [0, 0, 0]),
    ("+a.b:192.0.2.1", [0, 0, 0]),
    ("=button.panic.mil:1.8.7.108", [0, 0, 0]),
    (".panic.mil::a.ns.heaven.af.mil", [0, 0, 0]),
    ("@heaven.af.mil:1.2.3.4", [0, 0, 0]),
    (
        "S_sip._udp.slocombe.example:203.0.113.88:a:5060:10:20",
        [0, 0, 0],
    ),
    ("+a:1.2.3.256", [6, 1, 2]),
    ("+a:1.2.3.4\n!\n+b:1.2.3.4\n!", [3, 2, 0]),
    (
        ".w\n+w:192.0.2.234:0:4000000038af1379\n+w:192.0.2.235::4000000038af1379",
        [0, 0, 0],
    ),
    (
        ".j\n+j:192.168.1.2:::in\n+j:1.2.3.4:::ex\n%in:192.168\n%ex",
        [0, 0, 0],
    ),
    (".u\n+pink.floyd.u:1.2.3.4\n+*.u:1.2.3.200", [0, 0, 0]),
    ("+a:1.2.3.4:2147483647", [0, 0, 0]),
    ("+a:1.2.3.4:2147483648", [7, 1, 3]),
    ("+a:1.2.3.4:0000000007", [0, 0, 0]),
    ("+a:1.2.3.4:00000000007", [7, 1, 3]),
    ("+a:1.2.3.4:4294967297", [7, 1, 3]),
    (":a:1:x", [0, 0, 0]),
    (":a:65535:x", [0, 0, 0]),
    (":a:65536:x", [7, 1, 2]),
    (":a:65538:x", [7, 1, 2]),
    (":a:0:x", [11, 1, 2]),
    (":a:002:x", [11, 1, 2]),
    (":a:252:x", [11, 1, 2]),
    (":a:251:x", [0, 0, 0]),
    (":a:255:x", [0, 0, 0]),
    (":a::x", [12, 1, 2]),
    (":a:5:\\", [11, 1, 2]),
    (":a:16:\\400", [10, 1, 3]),
    ("Za:b:c:4294967295", [0, 0, 0]),
    ("Za:b:c:4294967296", [7, 1, 4]),
    ("Za:b:c:9999999999", [7, 1, 4]),
    ("+a:1.2.3.4:::", [0, 0, 0]),
    ("+a:1.2.3.4::::", [4, 1, 0]),
    ("+..:::::", [4, 1, 0]),
    ("S", [12, 1, 4]),
    ("C", [12, 1, 2]),
    ("%", [12, 1, 1]),
    ("Z", [12, 1, 2]),
    ("=", [12, 1, 2]),
    (".\n&\n@\n'", [0, 0, 0]),
    ("H", [3, 1, 0]),
    (" +a:1.2.3.4", [3, 1, 0]),
    ("\r", [3, 1, 0]),
    ("+a:1.2.3.4\r\n", [6, 1, 2]),
    ("'a:x\r", [0, 0, 0]),
    ("'a:x\\:", [10, 1, 2]),
    ("C:.", [0, 0, 0]),
    ("C:..", [5, 1, 2]),
    ("&b::.a", [5, 1, 3]),
    ("&b::.\n&b::a.\n&b::*\n&*.b:1.2.3.4:a", [0, 0, 0]),
    ("%a:1.", [6, 1, 2]),
    ("%abc:1.", [9, 1, 1]),
    ("+a:1.2.3.4::8000000000000000", [8, 1, 4]),
    ("+a:1.2.3.4::0000000000000000", [8, 1, 4]),
    ("+a:1.2.3.4:::IN", [0, 0, 0]),
    ("+a:1.2.3.4:x:x:1", [7, 1, 3]),
];
