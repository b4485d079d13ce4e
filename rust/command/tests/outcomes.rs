//! How questions end: the first line and the exit status of `vahmizar ask`,
//! and what it says of bytes that are no records.

mod support;

use support::Folder;

const SOURCE: &str = "\
.b:192.0.2.1:a
&sub.b:192.0.2.2:c
&Sub.b:192.0.2.3:d:0:4000000038af1379
+x.sub.b:192.0.2.4
+*.wild.b:192.0.2.5
+h.b:192.0.2.7
+h.b:192.0.2.8
+below.none.b:192.0.2.9
+stray.c:192.0.2.10
";

fn records(test: &str) -> Folder {
    Folder::compiled(test, SOURCE)
}

#[test]
fn each_outcome_has_words_and_a_status() {
    let folder = records("each_outcome");
    let before = ["--at", "4000000038af1378"];
    let ask = |name, record_type, status| {
        let words = ["ask", "out", name, record_type];
        folder.says(&[&words[..], &before].concat(), status)
    };
    assert_eq!(
        ask("H.b", "A", 0),
        "H.b A: 2 records\nH.b 86400 A 192.0.2.7\nH.b 86400 A 192.0.2.8\n"
    );
    for (name, record_type) in [("X.sub.b", "A"), ("sub.b", "NS"), ("c.ns.sub.b", "ANY")] {
        let said = format!(
            "{name} {record_type}: referral to the name servers of sub.b\n\
             sub.b 259200 NS c.ns.sub.b\nsub.b 2 NS d.ns.Sub.b\n"
        );
        assert_eq!(ask(name, record_type, 3), said);
    }
    for name in ["h.b", "b", "q.wild.b"] {
        let said = format!("{name} MX: no records of this type, but the name has others\n");
        assert_eq!(ask(name, "MX", 4), said);
    }
    for name in ["none.b", "nope.b", "wild.b"] {
        let said = format!("{name} A: no such name in our zone b\n");
        assert_eq!(ask(name, "A", 5), said);
    }
    for name in ["stray.c", "c", "."] {
        let said = format!("{name} ANY: not ours: no zone of these records holds this name\n");
        assert_eq!(ask(name, "ANY", 6), said);
    }
}

#[test]
fn the_root_handed_on() {
    let folder = Folder::new("the_root_handed_on");
    folder.write("data", "&:192.0.2.1:a\n");
    folder.good(&["compile", "data", "out"]);
    assert_eq!(
        folder.says(&["ask", "out", "h", "A"], 3),
        "h A: referral to the name servers of .\n. 259200 NS a.ns\n"
    );
}

#[test]
fn no_records_at_all() {
    let folder = Folder::new("no_records_at_all");
    folder.write("nothing", "");
    let said = folder.says(&["ask", "nothing", ".", "ANY"], 6);
    assert_eq!(
        said,
        ". ANY: not ours: no zone of these records holds this name\n"
    );
}

/// What is said of a file that isn't records: the byte, and what it may be.
fn refused(folder: &Folder, file: &str) -> (usize, String) {
    let said = folder.fails(&["ask", file, "h.b", "A"], 1);
    let start = format!(
        "{file}: refused 14: these bytes aren't whole records: they stop being records at byte "
    );
    let rest = said
        .strip_prefix(&start)
        .unwrap_or_else(|| panic!("{said}"));
    let (byte, instead) = rest
        .split_once(", counted from 0\n    ")
        .expect("two lines");
    (byte.parse().unwrap(), instead.to_owned())
}

#[test]
fn a_source_in_place_of_records() {
    let folder = records("a_source_in_place");
    let (byte, instead) = refused(&folder, "data");
    assert_eq!(byte, 0);
    let words = "This looks like a source. Compile it first: vahmizar compile data OUT\n";
    assert_eq!(instead, words);
    folder.write("bad", "\n# a source, though a bad one\n!\n");
    assert!(refused(&folder, "bad")
        .1
        .contains("vahmizar compile bad OUT"));
}

#[test]
fn a_database_in_place_of_records() {
    let folder = records("a_database_in_place");
    let records = folder.read("out");
    let position = 2048 + records.len() as u32;
    let pair = [position.to_le_bytes(), 0u32.to_le_bytes()].concat();
    folder.write("data.cdb", [pair.repeat(256), records].concat());
    let (byte, instead) = refused(&folder, "data.cdb");
    assert_eq!(byte, 0);
    let words = "This looks like a data.cdb. Records alone are wanted, \
                 as vahmizar compile DATA OUT writes them.\n";
    assert_eq!(instead, words);
}

#[test]
fn records_that_are_damaged() {
    let folder = records("records_that_are_damaged");
    let mut bytes = folder.read("out");
    let last = bytes.len() - (8 + 9 + 15 + 4);
    bytes.pop();
    folder.write("cut", &bytes);
    let other = "Wanted is what vahmizar compile DATA OUT writes into OUT.\n".to_owned();
    assert_eq!(refused(&folder, "cut"), (last, other.clone()));
    // The first record's flag byte: its lengths still fit.
    let flag = 8 + 3 + 2;
    assert_eq!(bytes[flag], b'=');
    bytes[flag] = 0;
    folder.write("cut", &bytes);
    assert_eq!(refused(&folder, "cut"), (0, other));
}

#[test]
fn help_has_every_status() {
    let folder = Folder::new("help_has_every_status");
    let page = folder.good(&["help"]);
    for line in [
        "  0  done",
        "  1  refused",
        "  2  wrong usage",
        "  3  ask: referral to the name servers of ",
        "  4  ask: no records of this type, but the name has others",
        "  5  ask: no such name in our zone ",
        "  6  ask: not ours: no zone of these records holds this name",
    ] {
        assert!(page.lines().any(|said| said.starts_with(line)), "{line}");
    }
}
