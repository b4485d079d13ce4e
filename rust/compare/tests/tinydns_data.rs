//! Holds the record part of data.cdb, as the real tinydns-data writes it, to
//! what compiling gives. TINYDNS_DATA names the program; without it the test
//! passes at once.

mod support;

use std::env;
use std::ffi::OsStr;
use std::fs;

use compare::difference::{first_difference, literal};
use compare::random::Random;
use compare::sources;
use support::SERIAL;

/// The pairs of table positions and counts before the records.
const HEAD: usize = 2_048;
const SOURCES: u64 = 300;

/// The typical file of the program's manual.
const TYPICAL: &[u8] = include_bytes!("../../../crates/boundaries/data/typical");

#[test]
fn records_are_those_of_tinydns_data() {
    let Some(program) = env::var_os("TINYDNS_DATA") else {
        return;
    };
    same_records(&program, TYPICAL);
    let mut compared = 1;
    for case in 0..SOURCES {
        let mut random = Random::of_case(2, case);
        let count = random.within(1, 40);
        let source = sources::classic(count, &mut random);
        // Names put together from good ones may still be too long.
        if vahmizar::check(&source, SERIAL).is_ok() {
            same_records(&program, &source);
            compared += 1;
        }
    }
    assert!(compared > SOURCES / 2, "only {compared} sources compared");
    println!("tinydns-data: {compared} sources have the same records");
}

fn same_records(program: &OsStr, source: &[u8]) {
    let theirs = record_part(program, source);
    let ours = vahmizar::compile_to_vec(source, SERIAL).expect("a good source");
    assert!(
        ours == theirs,
        "{}\n  source: {}",
        first_difference(&theirs, &ours),
        literal(source)
    );
    let mut second = vec![0; ours.len()];
    reference::compile(source, SERIAL, &mut second);
    assert!(second == theirs, "the second implementation differs");
}

/// Runs the program on a source and cuts the records out of its database.
fn record_part(program: &OsStr, source: &[u8]) -> Vec<u8> {
    let folder = support::database(program, "tinydns_data", source);
    let database = fs::read(folder.join("data.cdb")).expect("data.cdb");
    // The first table stands right behind the records.
    let end = u32::from_le_bytes(database[..4].try_into().unwrap());
    database[HEAD..end as usize].to_vec()
}
