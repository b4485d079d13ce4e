//! Holds outcomes and records to those of the real tinydns-get, over databases
//! of the real tinydns-data. TINYDNS_GET and TINYDNS_DATA name the programs;
//! without them the test passes and says so.
//!
//! Its known differences are kept out or evened out here: an alias answers for
//! every type, only one SOA is given, at most eight addresses, in any order and
//! all with the last one's lifetime, and clients have four bytes.

mod support;

use std::env;
use std::ffi::OsStr;
use std::net::Ipv4Addr;
use std::path::Path;
use std::process::Command;
use std::time::SystemTime;

use compare::asking::{self, Told};
use compare::family::Family;
use compare::random::Random;
use compare::reading::{Asked, REFERENCE};
use compare::tally::Tally;
use compare::zones;
use support::SERIAL;

const SOURCES: u64 = 250;
const QUESTIONS: usize = 16;
/// TAI64 of the Unix epoch, as the program counts.
const EPOCH: u64 = (1 << 62) + 10;
/// Far enough from now that a slow run changes no lifetime.
const FAR: u64 = 100_000;
const CLIENTS: [[u8; 4]; 4] = [[10, 1, 2, 3], [10, 9, 9, 9], [192, 0, 2, 9], [1, 2, 3, 4]];

#[test]
fn outcomes_are_those_of_tinydns_get() {
    let (Some(get), Some(data)) = (env::var_os("TINYDNS_GET"), env::var_os("TINYDNS_DATA")) else {
        println!("left out: TINYDNS_GET and TINYDNS_DATA name no programs");
        return;
    };
    let since = SystemTime::now().duration_since(SystemTime::UNIX_EPOCH);
    let now = EPOCH + since.expect("a clock").as_secs();
    let mut outcomes = [0; 6];
    for case in 0..SOURCES {
        let random = &mut Random::of_case(7, case);
        let family = Family::written(random);
        let source = zones::source(&family, &[now - FAR, now + FAR], random);
        let source = without_aliases(&source);
        let records = vahmizar::compile_to_vec(&source, SERIAL).expect("a good source");
        let folder = support::database(&data, "tinydns_get", &source);
        for _ in 0..QUESTIONS {
            let asked = Asked {
                client: random.pick(&CLIENTS).to_vec(),
                moment: now,
                ..family.question(random)
            };
            let told = asking::check(&REFERENCE, &records, &asked, random, &mut Tally::default());
            let told = told.unwrap_or_else(|difference| panic!("{difference}"));
            outcomes[told.outcome as usize] += 1;
            // Neither takes a name that is too long.
            let addresses = told.list.iter().filter(|numbers| numbers[1] == 1);
            if told.outcome > 0 && addresses.count() <= 8 {
                let theirs = said(&get, &folder, &asked);
                let words = format!("{}\n{asked:?}", String::from_utf8_lossy(&source));
                assert_eq!(ours(&told, &records), theirs, "{words}");
            }
        }
    }
    println!("tinydns-get: outcomes 0 to 5 as often as {outcomes:?}");
    assert!(outcomes[1..].iter().all(|&count| count > 50));
}

fn without_aliases(source: &[u8]) -> Vec<u8> {
    let lines = source.split_inclusive(|&byte| byte == b'\n');
    let lines = lines.filter(|line| !line.starts_with(b"C"));
    lines.collect::<Vec<_>>().concat()
}

/// An outcome and records in the program's words.
type Said = (u64, Vec<String>);

/// What the program says: nothing at all of a name that isn't ours.
fn said(program: &OsStr, folder: &Path, asked: &Asked) -> Said {
    let output = Command::new(program)
        .current_dir(folder)
        .arg(asked.record_type.to_string())
        .arg(dotted(&asked.name))
        .arg(
            asked
                .client
                .iter()
                .map(u8::to_string)
                .collect::<Vec<_>>()
                .join("."),
        )
        .output()
        .expect("TINYDNS_GET starts");
    let text = String::from_utf8(output.stdout).expect("plain text");
    let mut lines = text.lines().skip(1);
    let Some(head) = lines.next() else {
        return (1, Vec::new());
    };
    let records = |section: &str| -> Vec<String> {
        let lines = lines.clone().filter_map(|line| line.strip_prefix(section));
        // Without the owner.
        let mut records: Vec<_> = lines
            .filter_map(|line| line.split_once(' '))
            .map(|(_, record)| record.to_owned())
            .collect();
        records.sort();
        records
    };
    let answer = records("answer: ");
    if !head.contains("authoritative") {
        assert!(answer.is_empty(), "{text}");
        return (2, records("authority: "));
    }
    match head.contains("nxdomain") {
        true => (5, answer),
        false if answer.is_empty() => (4, answer),
        false => (3, answer),
    }
}

/// What the library says, in the same words.
fn ours(told: &Told, records: &[u8]) -> Said {
    let of_type = |wanted| told.list.iter().filter(move |numbers| numbers[1] == wanted);
    let mut addresses = of_type(1).map(|numbers| numbers[2]);
    let lifetime = addresses.next_back();
    let authority = of_type(6).next();
    let mut said = Vec::new();
    for numbers in &told.list {
        let &[_, record_type, its_lifetime, place, length, _] = numbers;
        let data = &records[place as usize..][..length as usize];
        match record_type {
            1 => said.push(format!("{} A {}", lifetime.unwrap_or(0), address(data))),
            2 => said.push(format!("{its_lifetime} NS {}", dotted(data))),
            6 if authority != Some(numbers) => (),
            6 => said.push(format!("{its_lifetime} SOA {}", soa(data))),
            _ => {
                let data = escaped(data, |byte| byte.is_ascii_graphic() && byte != b'\\');
                said.push(format!("{its_lifetime} {record_type} {data}"));
            }
        }
    }
    said.sort();
    (told.outcome, said)
}

fn address(data: &[u8]) -> Ipv4Addr {
    <[u8; 4]>::try_from(data).expect("four bytes").into()
}

fn soa(data: &[u8]) -> String {
    let (names, numbers) = data.split_at(data.len() - 20);
    let (server, contact) = first_name(names);
    let (contact, _) = first_name(contact);
    let numbers = numbers.chunks(4);
    let numbers = numbers.map(|four| u32::from_be_bytes(four.try_into().expect("four bytes")));
    let numbers: Vec<_> = numbers.map(|number| number.to_string()).collect();
    format!("{server} {contact} {}", numbers.join(" "))
}

/// A name in the program's words, with the case kept; the root is a dot.
fn dotted(wire: &[u8]) -> String {
    first_name(wire).0
}

/// The first name in some bytes, and what stands behind it.
fn first_name(wire: &[u8]) -> (String, &[u8]) {
    let mut labels = Vec::new();
    let mut rest = wire;
    while let [length @ 1..=63, behind @ ..] = rest {
        let (label, behind) = behind.split_at(usize::from(*length));
        labels.push(escaped(label, |byte| {
            byte.is_ascii_alphanumeric() || b"-_".contains(&byte)
        }));
        rest = behind;
    }
    let name = match &labels[..] {
        [] => ".".to_owned(),
        labels => labels.join("."),
    };
    (name, &rest[1..])
}

/// Bytes with those that aren't plain as a backslash and three digits.
fn escaped(bytes: &[u8], plain: impl Fn(u8) -> bool) -> String {
    let shown = |&byte: &u8| match plain(byte) {
        true => char::from(byte).to_string(),
        false => format!("\\{byte:03o}"),
    };
    bytes.iter().map(shown).collect()
}
