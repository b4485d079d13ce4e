//! Several sources in one call of `vahmizar compile` or `vahmizar check`.

mod support;

use std::fs::File;
use std::time::{Duration, UNIX_EPOCH};

use support::Folder;

const NORTH: &str = ".north.example:192.0.2.1:a\n+h.north.example:192.0.2.2\n";
const SOUTH: &str = ".south.example:192.0.2.3:a\n+h.south.example:192.0.2.4\n";

/// A folder with the two sources, and an old output.
fn regions(test: &str) -> Folder {
    let folder = Folder::new(test);
    folder.write("north", NORTH);
    folder.write("south", SOUTH);
    folder.write("out", "old");
    folder
}

/// What `cat` makes of sources, each in front of another closed.
fn joined(sources: &[&str]) -> String {
    let mut joined = String::new();
    for source in sources {
        if !joined.is_empty() && !joined.ends_with('\n') {
            joined.push('\n');
        }
        joined += source;
    }
    joined
}

#[test]
fn the_records_are_those_of_the_joined_source() {
    let folder = Folder::new("the_records_are_those");
    for sources in [
        &[NORTH, SOUTH][..],
        &[SOUTH, NORTH],
        &[NORTH.trim_end(), SOUTH],
        &[NORTH, SOUTH.trim_end()],
        &[NORTH.trim_end(), SOUTH.trim_end(), NORTH.trim_end()],
        &["", NORTH, "", SOUTH, ""],
        &[NORTH.trim_end(), "", SOUTH],
        &["# only a comment", SOUTH],
        &[NORTH, "# a comment\n#\n\n-off:1.2.3\n", SOUTH],
        &["# ended by a return\r", SOUTH],
        &[
            "+h.north.example:192.0.2.2 \t",
            "\n\n",
            "%in:192.168",
            SOUTH,
        ],
        &["", ""],
    ] {
        let names: Vec<_> = (0..sources.len()).map(|n| format!("source{n}")).collect();
        let names: Vec<_> = names.iter().map(String::as_str).collect();
        for (name, source) in names.iter().zip(sources) {
            folder.write(name, source);
        }
        folder.write("one", joined(sources));
        folder.good(&["compile", "one", "-o", "wanted", "--serial", "77"]);
        let call = [&["compile", "-o", "out", "--serial", "77"], &names[..]].concat();
        assert_eq!(folder.good(&call), "");
        let records = folder.read("out");
        assert_eq!(records, folder.read("wanted"), "{sources:?}");
        let said = folder.good(&[&["check"], &names[..]].concat());
        let (count, room) = (sources.len(), records.len());
        let last = format!("{count} sources joined: good, their records take {room} bytes");
        assert_eq!(said.lines().last(), Some(&last[..]), "{sources:?}");
        assert_eq!(said.lines().count(), count + 1);
    }
}

#[test]
fn a_line_for_each_source_and_one_for_all() {
    let folder = Folder::new("a_line_for_each_source");
    folder.write("north", "+a.b:192.0.2.1\n+b.b:192.0.2.1");
    folder.write("south", "+c.b:192.0.2.1\n");
    folder.write("none", "#");
    assert_eq!(
        folder.good(&["check", "north", "south", "none"]),
        "north: good, its records take 64 bytes\n\
         south: good, its records take 32 bytes\n\
         none: good, its records take 0 bytes\n\
         3 sources joined: good, their records take 96 bytes\n"
    );
    let said = folder.good(&["check", "south"]);
    assert_eq!(said, "south: good, its records take 32 bytes\n");
    assert_eq!(folder.names(), ["none", "north", "south"]);
}

#[test]
fn a_refusal_names_the_file_and_its_own_line() {
    let folder = regions("a_refusal_names");
    let south = format!("{SOUTH}+a.b:192.0.2.256:5\n!\n");
    folder.write("south", &south);
    folder.write("one", joined(&[NORTH, &south]));
    let said = "south:3:2: refused 6: address or prefix\n    192.0.2.256\n";
    let call = ["compile", "north", "south", "-o", "out"];
    assert_eq!(folder.fails(&call, 1), said);
    let run = folder.run(&["check", "north", "south"]);
    assert_eq!((run.status, &run.err[..]), (1, said));
    assert_eq!(run.out, "north: good, its records take 253 bytes\n");
    // The joined source has the two lines of north in front.
    let one = said.replace("south:3:", "one:5:");
    assert_eq!(folder.fails(&["check", "one"], 1), one);
    assert_eq!(folder.read("out"), b"old");
    assert_eq!(folder.names(), ["north", "one", "out", "south"]);
}

#[test]
fn every_bad_file_is_told_in_order() {
    let folder = regions("every_bad_file");
    folder.write("west", "#\r\n+a.b:192.0.2.1\r\n!");
    folder.write("east", "\n\n+a..b:192.0.2.1");
    let refused = "west:2:2: refused 6: address or prefix\n    192.0.2.1\\015\n\
                   east:3:1: refused 5: name\n    a..b\n";
    let call = ["west", "north", "east", "south"];
    let compile = [&["compile", "-o", "out"], &call[..]].concat();
    assert_eq!(folder.fails(&compile, 1), refused);
    let run = folder.run(&[&["check"], &call[..]].concat());
    assert_eq!((run.status, &run.err[..]), (1, refused));
    let good = "north: good, its records take 253 bytes\n\
                south: good, its records take 253 bytes\n";
    assert_eq!(run.out, good);

    let missing = "none: No such file or directory (os error 2)\n";
    let said = folder.fails(&["compile", "west", "none", "east", "-o", "out"], 2);
    assert_eq!(said, refused.replace("east", &format!("{missing}east")));
    let run = folder.run(&["check", "none", "north", "."]);
    let folder_said = ".: Is a directory (os error 21)\n";
    assert_eq!((run.status, run.err), (2, missing.to_owned() + folder_said));
    assert_eq!(run.out, "north: good, its records take 253 bytes\n");
    assert_eq!(folder.read("out"), b"old");
    assert_eq!(folder.names(), ["east", "north", "out", "south", "west"]);
}

#[test]
fn the_added_line_end_counts() {
    let folder = regions("the_added_line_end");
    let half = "\n".repeat(524_287);
    let compile = ["compile", "north", "south", "-o", "out"];
    let refused = "2 sources joined: refused 1: source too long: \
                   they have 1048577 bytes, at most 1048576 are taken\n";
    let lines = "north: good, its records take 0 bytes\n\
                 south: good, its records take 0 bytes\n";
    for (north, south) in [
        (half.clone() + "#", half.clone()),
        (half.clone() + "\n", half.clone() + "#"),
    ] {
        folder.write("north", &north);
        folder.write("south", &south);
        let joined = "2 sources joined: good, their records take 0 bytes\n";
        let said = folder.good(&["check", "north", "south"]);
        assert_eq!(said, lines.to_owned() + joined);
        folder.good(&compile);
        assert_eq!(folder.read("out"), b"");

        folder.write("out", "old");
        folder.write("south", "\n".to_owned() + &south);
        assert_eq!(folder.fails(&compile, 1), refused);
        let run = folder.run(&["check", "north", "south"]);
        assert_eq!(
            (run.status, &run.out[..], &run.err[..]),
            (1, lines, refused)
        );
        assert_eq!(folder.read("out"), b"old");
    }
}

#[test]
fn too_long_joined_is_told_behind_the_files() {
    let folder = Folder::new("too_long_joined");
    let million = "\n".repeat(1_000_000);
    folder.write("north", "!\n".to_owned() + &million);
    folder.write("south", &million);
    folder.write("long", "\n".repeat(1_048_577));
    let says = |sources: &[&str], status| {
        let run = folder.run(&[&["check"], sources].concat());
        assert_eq!(run.status, status, "{sources:?}");
        run.err
    };
    let bad = "north:1: refused 3: unknown kind\n    !\n";
    let joined = "2 sources joined: refused 1: source too long: \
                  they have 2000002 bytes, at most 1048576 are taken\n";
    assert_eq!(says(&["north", "south"], 1), bad.to_owned() + joined);
    // How long a file is that is too long, or can't be read, isn't known.
    let long = "long: refused 1: source too long\n";
    assert_eq!(says(&["long", "south"], 1), long);
    assert_eq!(says(&["north", "south", "long"], 1), bad.to_owned() + long);
    let missing = "none: No such file or directory (os error 2)\n";
    assert_eq!(
        says(&["north", "none", "south"], 2),
        bad.to_owned() + missing
    );
}

#[test]
fn the_serial_is_that_of_the_latest_file() {
    let folder = regions("the_serial_is_that");
    folder.write("east", "#");
    let change = |name: &str, seconds: u64| {
        let file = File::options().write(true).open(folder.file(name));
        let time = UNIX_EPOCH + Duration::from_millis(seconds * 1000 + 900);
        file.unwrap().set_modified(time).unwrap();
    };
    let serials = |words: &[&str]| {
        let call = ["compile", "north", "east", "south", "-o", "out"];
        folder.good(&[&call, words].concat());
        ["north.example", "south.example"].map(|zone| {
            let said = folder.good(&["ask", "out", zone, "SOA"]);
            let soa = said.lines().nth(1).unwrap();
            soa.split(' ').nth(5).unwrap().parse::<u32>().unwrap()
        })
    };
    change("north", 1_700_000_001);
    change("east", 1_700_000_003);
    change("south", 1_700_000_002);
    assert_eq!(serials(&[]), [1_700_000_003; 2]);
    assert_eq!(serials(&["--serial", "5"]), [5; 2]);
    change("north", 1_700_000_004);
    assert_eq!(serials(&[]), [1_700_000_004; 2]);
    // The latest time, not the largest serial number.
    change("south", (1 << 32) + 7);
    assert_eq!(serials(&[]), [7; 2]);
    change("south", 1 << 32);
    assert_eq!(serials(&[]), [1; 2]);
}
