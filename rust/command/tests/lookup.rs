//! What the program lookup says on standard error: its stored output, which
//! the toolchain holds it to, has standard output alone. Where the program
//! isn't built the tests pass without it, unless LOOKUP_NEEDED is set, as in
//! the gate.

mod support;

use std::path::{Path, PathBuf};
use support::Folder;

fn program() -> Option<PathBuf> {
    let path = Path::new(env!("CARGO_MANIFEST_DIR")).join("../../target/bin/lookup");
    let needed = std::env::var_os("LOOKUP_NEEDED").is_some();
    assert!(path.exists() || !needed, "tools/build lookup builds it");
    path.exists().then_some(path)
}

#[test]
fn a_refused_source_is_told_by_place_number_and_words() {
    let Some(lookup) = program() else { return };
    let folder = Folder::new("lookup-refused");
    folder.write("questions", "4000000038af0000 203.0.113.7 1 a\n");
    let long = "#".repeat(1_025);
    for (source, said) in [
        (long.as_str(), "1:0: 2 line too long"),
        ("\n!", "2:0: 3 unknown kind"),
        ("+a:1.2.3.4::::", "1:0: 4 too many fields"),
        ("+a..b:1.2.3.4", "1:1: 5 bad name"),
        ("+a:1.2.3.256", "1:2: 6 bad address or prefix"),
        ("+a:1.2.3.4:x", "1:3: 7 bad number"),
        ("+a:1.2.3.4::0", "1:4: 8 bad time"),
        ("+a:1.2.3.4:::abc", "1:5: 9 bad lo"),
        ("'a:\\400", "1:2: 10 bad escape"),
        (":a:252:x", "1:2: 11 reserved type"),
        ("+a:1.2.3.4\n=a", "2:2: 12 empty field"),
    ] {
        folder.write("data", source);
        let run = folder.run_program(&lookup, &["data", "questions"]);
        assert_eq!(run.err, format!("data:{said}\n"));
        assert_eq!(run.out, "", "nothing is asked");
    }
}

#[test]
fn what_cant_be_read_is_told_and_the_rest_is_done() {
    let Some(lookup) = program() else { return };
    let folder = Folder::new("lookup-unread");
    folder.write("data", ".a\n+a:1.2.3.4\n");
    folder.write("long", "#\n".repeat(32_769));
    folder.write(
        "questions",
        "4000000038af0000 203.0.113.7 1 a\nwhat\n8000000000000000 203.0.113.7 1 a\n",
    );

    let run = folder.run_program(&lookup, &["data", "questions"]);
    let answers = "4000000038af0000 203.0.113.7 1 a\n  records\n  1 86400 01020304\n\
                   8000000000000000 203.0.113.7 1 a\n  16 moment out of range\n";
    assert_eq!(run.out, answers);
    assert!(run.err.starts_with("questions:2: "), "{}", run.err);
    assert_eq!(run.err.lines().count(), 1);

    for (words, said) in [
        (&["data"][..], "usage: lookup DATA QUESTIONS [SERIAL]\n"),
        (&["none", "questions"], "none: No such file or directory\n"),
        (&["data", "none"], "none: No such file or directory\n"),
        (&["long", "questions"], "long: longer than 65536 bytes\n"),
        (&["data", "long"], "long: longer than 65536 bytes\n"),
        (
            &["data", "questions", "4294967296"],
            "SERIAL is not a decimal number up to 4294967295\n",
        ),
    ] {
        let run = folder.run_program(&lookup, words);
        assert_eq!((&run.err[..], &run.out[..]), (said, ""), "{words:?}");
    }
}
