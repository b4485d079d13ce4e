//! How `vahmizar compile` and `vahmizar check` are called with several sources.

mod support;

use std::ffi::{OsStr, OsString};
use std::fs::{self, File};
use std::io::Write;
use std::os::unix::ffi::OsStrExt;
use std::os::unix::fs::{symlink, PermissionsExt};
use std::process::{Command, Stdio};

use support::Folder;

const VAHMIZAR: &str = env!("CARGO_BIN_EXE_vahmizar");
const NORTH: &str = "+north.b:192.0.2.1\n";
const SOUTH: &str = "+south.b:192.0.2.2\n";

fn regions(test: &str) -> Folder {
    let folder = Folder::new(test);
    folder.write("north", NORTH);
    folder.write("south", SOUTH);
    folder
}

/// The records of both sources, and of the first alone.
fn records() -> (Vec<u8>, Vec<u8>) {
    let compiled = |source: &str| vahmizar::compile_to_vec(source.as_bytes(), 1).unwrap();
    (compiled(&[NORTH, SOUTH].concat()), compiled(NORTH))
}

#[test]
fn the_output_may_be_named_anywhere() {
    let folder = regions("the_output_may_be_named");
    let (both, north) = records();
    for (words, wanted) in [
        (&["north", "south", "-o", "out"][..], &both),
        (&["-o", "out", "north", "south"], &both),
        (&["north", "--output", "out", "south"], &both),
        (&["north", "south", "--output=out"], &both),
        (&["-o=out", "north", "south"], &both),
        (&["-o", "out", "--", "north", "south"], &both),
        (&["north", "-o", "out"], &north),
        (&["north", "out"], &north),
    ] {
        folder.good(&[&["compile"], words].concat());
        assert_eq!(&folder.read("out"), wanted, "{words:?}");
        fs::remove_file(folder.file("out")).unwrap();
    }
    folder.good(&["compile", "north", "south", "-o", "--serial"]);
    assert_eq!(folder.read("--serial"), both);
}

#[test]
fn paths_that_are_no_text() {
    let folder = regions("paths_that_are_no_text");
    let source = OsStr::from_bytes(b"\xffdata");
    let out = OsStr::from_bytes(b"\xffout=\xff");
    let path = |name: &OsStr| folder.file("north").with_file_name(name);
    fs::copy(folder.file("north"), path(source)).unwrap();
    let mut joined = OsString::from("--output=");
    joined.push(out);
    let calls: [&[&OsStr]; 3] = [
        &[source, "south".as_ref(), "-o".as_ref(), out],
        &[source, "south".as_ref(), &joined],
        &[source, out],
    ];
    let (both, north) = records();
    for (words, wanted) in calls.into_iter().zip([&both, &both, &north]) {
        let run = folder.run_program(VAHMIZAR, &[&["compile".as_ref()], words].concat());
        assert_eq!((run.status, &run.err[..]), (0, ""), "{words:?}");
        assert_eq!(&fs::read(path(out)).unwrap(), wanted, "{words:?}");
        fs::remove_file(path(out)).unwrap();
    }
}

#[test]
fn wrong_calls() {
    let folder = regions("wrong_calls_joined");
    let many = "one word too many: out: behind several sources write -o OUT";
    for (words, said) in [
        (&["compile", "north", "south", "out"][..], many),
        (&["compile", "north", "south", "out", "more"], many),
        (&["compile", "-o", "out"], "DATA is missing"),
        (&["compile", "north"], "OUT is missing"),
        (&["check"], "DATA is missing"),
        (&["compile", "north", "-o"], "-o needs a value"),
        (&["compile", "north", "--output"], "--output needs a value"),
        (
            &["compile", "north", "-o", "a", "-o", "b"],
            "-o is given twice",
        ),
        (
            &["compile", "north", "-o", "a", "--output=b"],
            "--output is given twice",
        ),
        (&["compile", "north", "-oout"], "no such option: -oout"),
        (&["check", "north", "-o", "out"], "-o has no meaning here"),
        (&["time", "now", "-o", "out"], "-o has no meaning here"),
        (
            &["ask", "out", "b", "A", "--output=out"],
            "-o has no meaning here",
        ),
    ] {
        let message = folder.fails(words, 2);
        let wanted = format!("vahmizar: {said}\nTry: vahmizar --help\n");
        assert_eq!(message, wanted, "{words:?}");
    }
    assert_eq!(folder.names(), ["north", "south"]);
}

#[test]
fn a_source_is_not_replaced_by_a_forgotten_option() {
    let folder = regions("a_forgotten_option");
    let said = "south: this looks like a source, and the output would replace it\n    \
                To compile both: vahmizar compile north south -o OUT\n    \
                To replace it all the same: vahmizar compile north -o south\n";
    assert_eq!(folder.fails(&["compile", "north", "south"], 2), said);
    // It is a wrong call, whatever the first source has.
    folder.write("north", "!");
    assert_eq!(folder.fails(&["compile", "north", "south"], 2), said);
    assert_eq!(folder.read("south"), SOUTH.as_bytes());
    folder.write("north", NORTH);
    let (both, north) = records();
    folder.good(&["compile", "north", "south", "-o", "OUT"]);
    assert_eq!(folder.read("OUT"), both);
    folder.good(&["compile", "north", "-o", "south"]);
    assert_eq!(folder.read("south"), north);
    // Records are replaced, and so is what can't be read.
    folder.good(&["compile", "north", "OUT"]);
    assert_eq!(folder.read("OUT"), north);
    folder.write("OUT", SOUTH);
    let hidden = folder.file("OUT");
    fs::set_permissions(&hidden, fs::Permissions::from_mode(0o200)).unwrap();
    // Root reads all.
    let status = if File::open(&hidden).is_ok() { 2 } else { 0 };
    assert_eq!(folder.run(&["compile", "north", "OUT"]).status, status);
}

#[test]
fn a_source_named_twice() {
    let folder = regions("a_source_named_twice");
    symlink("north", folder.file("link")).unwrap();
    let twice = |sources: &[&str], said: &str| {
        for call in [&["compile", "-o", "out"][..], &["check"]] {
            assert_eq!(folder.fails(&[call, sources].concat(), 2), said);
        }
    };
    twice(
        &["north", "south", "north"],
        "north: this source was named before: its records would stand twice\n",
    );
    twice(
        &["north", "./north"],
        "./north: this source was named before, as north: its records would stand twice\n",
    );
    twice(
        &["south", "link", "north"],
        "north: this source was named before, as link: its records would stand twice\n",
    );
    assert_eq!(folder.names(), ["link", "north", "south"]);
    folder.good(&["check", "/dev/null", "/dev/null"]);
}

#[test]
fn the_output_among_the_sources() {
    let folder = regions("the_output_among");
    symlink("south", folder.file("link")).unwrap();
    for out in ["north", "./south", "link"] {
        let said = folder.fails(&["compile", "north", "south", "-o", out], 2);
        let wanted = format!("{out}: the output would replace the source\n");
        assert_eq!(said, wanted);
    }
    assert_eq!(folder.read("north"), NORTH.as_bytes());
    assert_eq!(folder.read("south"), SOUTH.as_bytes());
    assert_eq!(folder.names(), ["link", "north", "south"]);
}

#[test]
fn a_pipe_among_the_sources() {
    let folder = regions("a_pipe_among");
    let mut running = Command::new(VAHMIZAR)
        .args(["compile", "/dev/stdin"])
        .args([folder.file("south"), "-o".into(), folder.file("out")])
        .stdin(Stdio::piped())
        .spawn()
        .unwrap();
    let mut pipe = running.stdin.take().unwrap();
    pipe.write_all(NORTH.trim_end().as_bytes()).unwrap();
    drop(pipe);
    assert!(running.wait().unwrap().success());
    assert_eq!(folder.read("out"), records().0);
}

#[test]
fn more_sources_than_files_can_be_open() {
    let folder = Folder::new("more_sources");
    let names: Vec<_> = (0..100).map(|number| format!("source{number}")).collect();
    for name in &names {
        folder.write(name, NORTH.trim_end());
    }
    let mut words = vec!["-c", "ulimit -n 20; exec \"$@\"", "sh"];
    words.extend([VAHMIZAR, "compile", "-o", "out"]);
    words.extend(names.iter().map(String::as_str));
    let run = folder.run_program("sh", &words);
    assert_eq!((run.status, &run.err[..]), (0, ""));
    assert_eq!(folder.read("out"), records().1.repeat(100));
}

#[test]
fn the_help_page() {
    let folder = Folder::new("the_help_page");
    let page = folder.good(&["help"]);
    for said in [
        "  vahmizar compile DATA... -o OUT [--serial N]\n",
        "  vahmizar compile DATA OUT [--serial N]\n",
        "  vahmizar check DATA... [--serial N]\n",
        "1,048,576",
    ] {
        assert!(page.contains(said), "{said}");
    }
    let wide = page.lines().find(|line| line.chars().count() > 80);
    assert_eq!(wide, None);
}
