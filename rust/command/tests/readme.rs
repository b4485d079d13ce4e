//! The session that README.md shows is what the command prints.

mod support;

use std::fs;
use std::path::Path;
use support::Folder;

#[test]
fn the_readme_shows_what_the_command_prints() {
    let root = Path::new(env!("CARGO_MANIFEST_DIR")).join("../..");
    let readme = fs::read_to_string(root.join("README.md")).expect("README.md");
    let folder = Folder::new("readme");
    fs::create_dir(folder.file("examples")).expect("a folder for the test");
    for example in ["town", "north", "south"].map(|name| format!("examples/{name}")) {
        let bytes = fs::read(root.join(&example)).expect(&example);
        folder.write(&example, bytes);
    }

    let mut commands = 0;
    let mut printed = String::new();
    let mut shown = String::new();
    for line in readme.lines().map(str::trim_start) {
        if let Some(words) = line.strip_prefix("$ ./vahmizar ") {
            assert_eq!(shown, printed, "in front of: {line}");
            let words: Vec<_> = words.split(' ').collect();
            // Failures have a message; the other ways to end have none.
            let run = folder.run(&words);
            assert_eq!(run.err, "", "{line}");
            printed = run.out;
            shown.clear();
            commands += 1;
        } else if line.is_empty() || line.starts_with("```") {
            assert_eq!(shown, printed, "at the end of a session");
            shown.clear();
            printed.clear();
        } else if !printed.is_empty() {
            shown.push_str(line);
            shown.push('\n');
        }
    }
    assert!(commands > 5, "the README shows a session");
}

#[test]
fn the_readme_shows_what_lookup_prints() {
    let root = Path::new(env!("CARGO_MANIFEST_DIR")).join("../..");
    let readme = fs::read_to_string(root.join("README.md")).expect("README.md");
    let stored = fs::read_to_string(root.join("crates/lookup/stdout")).expect("stored output");
    let blocks = readme.split("```text\n").skip(1);
    let shown = blocks.filter_map(|block| block.split("```").next());
    let first = stored.lines().next().expect("a first line");
    let of_lookup: Vec<_> = shown.filter(|block| block.starts_with(first)).collect();
    assert_eq!(of_lookup.len(), 1, "the README shows it once");
    assert!(stored.starts_with(of_lookup[0]), "{}", of_lookup[0]);
}
