//! `vahmizar compile` and `vahmizar check`, run as commands.

mod support;

use std::fs::{self, File};
use std::time::{Duration, UNIX_EPOCH};

use support::Folder;

#[test]
fn writes_the_records() {
    let folder = Folder::new("writes_the_records");
    folder.write("data", "+a.b:192.0.2.1\n");
    assert_eq!(folder.good(&["compile", "data", "out"]), "");
    let bytes = folder.read("out");
    assert_eq!(bytes.len(), 32);
    assert_eq!(bytes[28..], [192, 0, 2, 1]);
    assert_eq!(folder.names(), ["data", "out"]);
}

#[test]
fn replaces_old_output_and_keeps_its_mode_and_owner() {
    use std::os::unix::fs::{chown, MetadataExt, PermissionsExt};
    let folder = Folder::new("replaces_old_output");
    let out = folder.file("out");
    folder.write("data", "+a.b:192.0.2.1\n");
    folder.write("out", [7; 500]);
    fs::set_permissions(&out, fs::Permissions::from_mode(0o640)).unwrap();
    // Only root may give a file away; another's test has its own file.
    let _ = chown(&out, Some(65534), Some(65534));
    let kept = |file: fs::Metadata| (file.mode(), file.uid(), file.gid());
    let old = kept(fs::metadata(&out).unwrap());
    folder.good(&["compile", "data", "out"]);
    assert_eq!(folder.read("out").len(), 32);
    assert_eq!(kept(fs::metadata(&out).unwrap()), old);
    assert_eq!(folder.names(), ["data", "out"]);
}

#[test]
fn follows_a_link_to_the_output() {
    let folder = Folder::new("follows_a_link");
    folder.write("data", "+a.b:192.0.2.1\n");
    folder.write("real", "old");
    std::os::unix::fs::symlink("real", folder.file("out")).unwrap();
    folder.good(&["compile", "data", "out"]);
    assert!(folder.file("out").is_symlink());
    assert_eq!(folder.read("real").len(), 32);
    std::os::unix::fs::symlink("nowhere", folder.file("lost")).unwrap();
    let said = folder.fails(&["compile", "data", "lost"], 2);
    assert!(said.starts_with("lost: "), "{said}");
}

#[test]
fn a_refusal_leaves_the_old_output_and_nothing_else() {
    let folder = Folder::new("a_refusal_leaves");
    folder.write("data", "+a:1.2.3.4\n+a:1.2.3.256:5\n");
    folder.write("out", "old");
    let said = folder.fails(&["compile", "data", "out"], 1);
    assert_eq!(
        said,
        "data:2:2: refused 6: address or prefix\n    1.2.3.256\n"
    );
    assert_eq!(folder.read("out"), b"old");
    assert_eq!(folder.names(), ["data", "out"]);
    folder.fails(&["compile", "data", "new"], 1);
    assert_eq!(folder.names(), ["data", "out"]);
}

#[test]
fn refusals_of_lines() {
    let folder = Folder::new("refusals_of_lines");
    let refused = |source: &str| {
        folder.write("data", source);
        folder.fails(&["check", "data"], 1)
    };
    assert_eq!(
        refused("# ok\n\n!x\n"),
        "data:3: refused 3: unknown kind\n    !x\n"
    );
    assert_eq!(
        refused("+a:1.2.3.4::::\n"),
        "data:1: refused 4: too many fields\n    +a:1.2.3.4::::\n"
    );
    assert_eq!(
        refused("Ca \n"),
        "data:1:2: refused 12: empty field\n    Ca\n"
    );
    let long = refused(&"#".repeat(1025));
    assert!(long.starts_with("data:1: refused 2: line too long\n    ####"));
    assert!(long.ends_with("#... (1025 bytes)\n"));
    assert_eq!(
        refused("+a:1.2.3.4\r\n"),
        "data:1:2: refused 6: address or prefix\n    1.2.3.4\\015\n"
    );
}

#[test]
fn the_longest_source_and_one_byte_more() {
    let folder = Folder::new("the_longest_source");
    folder.write("data", vec![b'\n'; 1_048_576]);
    let said = folder.good(&["check", "data"]);
    assert_eq!(said, "data: good, its records take 0 bytes\n");
    folder.write("data", vec![b'\n'; 1_048_577]);
    let said = folder.fails(&["check", "data"], 1);
    assert_eq!(said, "data: refused 1: source too long\n");
}

#[test]
fn the_serial() {
    let folder = Folder::new("the_serial");
    folder.write("data", ".b");
    let serial = |words: &[&str]| -> u32 {
        folder.good(&[&["compile", "data", "out"], words].concat());
        let said = folder.good(&["ask", "out", "b", "SOA"]);
        let soa = said.lines().nth(1).unwrap();
        soa.split(' ').nth(5).unwrap().parse().unwrap()
    };
    assert_eq!(serial(&["--serial", "4294967295"]), u32::MAX);
    assert_eq!(serial(&["--serial=0"]), 0);
    let data = File::options().write(true).open(folder.file("data"));
    let time = UNIX_EPOCH + Duration::from_millis((1 << 32) * 1000 + 7_900);
    data.unwrap().set_modified(time).unwrap();
    assert_eq!(serial(&[]), 7);
}

#[test]
fn output_that_cannot_be_written() {
    let folder = Folder::new("output_that_cannot");
    folder.write("data", "+a.b:192.0.2.1\n");
    fs::create_dir(folder.file("folder")).unwrap();
    for out in [
        "folder",
        "none/out",
        "data/out",
        "/dev/null",
        "new/",
        "..",
        "",
    ] {
        folder.fails(&["compile", "data", out], 2);
    }
    let said = folder.fails(&["compile", "data", "./data"], 2);
    assert_eq!(said, "./data: the output would replace the source\n");
    assert_eq!(folder.read("data"), b"+a.b:192.0.2.1\n");
    assert_eq!(folder.names(), ["data", "folder"]);
}

#[test]
fn source_that_cannot_be_read() {
    let folder = Folder::new("source_that_cannot");
    let said = folder.fails(&["compile", "none", "out"], 2);
    assert!(said.starts_with("none: "), "{said}");
    folder.fails(&["check", "."], 2);
    assert!(folder.names().is_empty());
}

#[test]
fn good_sources_are_checked_without_output() {
    let folder = Folder::new("good_sources_are_checked");
    folder.write("data", "+a.b:192.0.2.1\n");
    let said = folder.good(&["check", "data"]);
    assert_eq!(said, "data: good, its records take 32 bytes\n");
    assert_eq!(folder.names(), ["data"]);
}

#[test]
fn wrong_calls() {
    let folder = Folder::new("wrong_calls");
    folder.write("data", "+a.b:192.0.2.1\n");
    for (words, said) in [
        (&[][..], "no command given"),
        (&["dump"], "no such command: dump"),
        (&["compile"], "DATA is missing"),
        (&["compile", "data"], "OUT is missing"),
        (
            &["compile", "data", "out", "more"],
            "one word too many: more",
        ),
        (&["check", "data", "--serial"], "--serial needs a value"),
        (
            &["check", "data", "--serial", "x"],
            "--serial: x is no number",
        ),
        (&["check", "data", "--serial=4294967296"], "is no number"),
        (
            &["check", "data", "--serial=1", "--serial=1"],
            "given twice",
        ),
        (
            &["check", "data", "--at", "now"],
            "--at has no meaning here",
        ),
        (&["check", "data", "-x"], "no such option: -x"),
        (&["check", "--", "-x"], "-x: "),
    ] {
        let message = folder.fails(words, 2);
        assert!(message.contains(said), "{words:?}: {message}");
    }
    assert_eq!(folder.names(), ["data"]);
}

#[test]
fn help() {
    let folder = Folder::new("help");
    let page = folder.good(&["help"]);
    assert!(page.contains("vahmizar compile DATA OUT"));
    for words in [
        &["--help"][..],
        &["-h"],
        &["ask", "--help"],
        &["check", "-h"],
    ] {
        assert_eq!(folder.good(words), page, "{words:?}");
    }
}

#[test]
fn a_name_that_is_put_together_too_long() {
    let folder = Folder::new("put_together");
    let label = |length| "n".repeat(length);
    let name = [label(63), label(63), label(63), label(61)].join(".");
    folder.write("data", format!("&{name}\n"));
    let said = folder.fails(&["check", "data"], 1);
    let words =
        "data:1: refused 5: name: put together from the fields it is longer than 255 bytes\n";
    assert!(said.starts_with(words), "{said}");
}
