//! What is compiled and asked.

use std::fmt::Write;
use std::iter;

use vahmizar::{compile_to_vec, LONGEST_SOURCE};

/// A source of just under the largest size, with a usual mix of lines.
pub fn source() -> String {
    let mut source = String::with_capacity(LONGEST_SOURCE);
    for number in 0.. {
        let before = source.len();
        let zone = number / 40;
        let (high, low) = (number / 250 % 250, number % 250);
        match number % 40 {
            0 => writeln!(source, ".zone{zone}.example:10.9.{high}.{low}:a"),
            1 => writeln!(source, ".zone{zone}.example:10.9.{high}.{low}:b:3600"),
            2 => writeln!(source, "@zone{zone}.example:10.8.{high}.{low}:mail:10"),
            3 => writeln!(source, "'zone{zone}.example:v=spf1 mx -all"),
            4 => writeln!(source, "Cwww.zone{zone}.example:h.zone{zone}.example"),
            5 => writeln!(source, "# a remark about zone {zone}"),
            6 => writeln!(source, "+*.dyn.zone{zone}.example:10.7.{high}.{low}:300"),
            place if place % 2 == 0 => {
                writeln!(source, "=host{number}.zone{zone}.example:10.1.{high}.{low}")
            }
            _ => writeln!(
                source,
                "+Alias{number}.zone{zone}.example:10.2.{high}.{low}:600:4000000038af1379"
            ),
        }
        .expect("strings take all");
        if source.len() > LONGEST_SOURCE {
            source.truncate(before);
            break;
        }
    }
    source
}

/// What a file begins with: a location, a zone's own records, a delegation, a
/// wildcard, and a zone for names of many labels.
const FIRST: [&str; 5] = [
    "%in:10",
    ".example:10.9.0.1:a",
    "&far.example:10.9.0.2:a",
    "+*.dyn.example:10.7.0.1",
    ".d::ns.d",
];
/// How many records that makes.
const FIRST_COUNT: usize = 9;

/// Compiled bytes of lines. A stream may be joined from several; one source
/// couldn't hold them all.
fn stream(lines: impl Iterator<Item = String>) -> Vec<u8> {
    let lines: Vec<_> = lines.collect();
    let sources = lines.chunks(1_000).map(|lines| lines.join("\n"));
    let streams = sources.map(|source| compile_to_vec(source.as_bytes(), 1));
    let streams = streams.map(|bytes| bytes.expect("a good source"));
    streams.collect::<Vec<_>>().concat()
}

/// A stream of so many records: those of [`FIRST`], then hosts of 50 places.
pub fn records(count: usize) -> Vec<u8> {
    let hosts = (FIRST_COUNT..count).map(|number| host(number, number % 50));
    stream(FIRST.map(str::to_owned).into_iter().chain(hosts))
}

/// A zone of this number and so many hosts, its own records first or last.
pub fn one_zone(number: usize, hosts: usize, first: bool) -> Vec<u8> {
    let own = iter::once(zone(number));
    let hosts = (0..hosts).map(|host_number| host(host_number, number));
    match first {
        true => stream(own.chain(hosts)),
        false => stream(hosts.chain(own)),
    }
}

/// A zone of this number, and so many address records of its first host.
pub fn one_host(number: usize, addresses: usize) -> Vec<u8> {
    let own = iter::once(zone(number));
    stream(own.chain(iter::repeat_n(host(0, number), addresses)))
}

/// So many zones with so many hosts each, one zone behind another.
pub fn zones(count: usize, hosts: usize) -> Vec<u8> {
    let streams = (0..count).map(|number| one_zone(number, hosts, true));
    streams.collect::<Vec<_>>().concat()
}

fn host(number: usize, zone: usize) -> String {
    format!("+host{number}.zone{zone}.example:10.1.2.3")
}

fn zone(number: usize) -> String {
    format!(".zone{number}.example::ns.example")
}

/// The name of a host, on the wire.
pub fn name(number: usize, zone: usize) -> Vec<u8> {
    wire(&format!("host{number}.zone{zone}.example"))
}

/// A name on the wire.
pub fn wire(name: &str) -> Vec<u8> {
    let mut wire = Vec::new();
    for label in name.split('.') {
        wire.push(label.len() as u8);
        wire.extend_from_slice(label.as_bytes());
    }
    wire.push(0);
    wire
}
