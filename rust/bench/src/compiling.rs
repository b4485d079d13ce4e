//! Compiling a source of a mebibyte.

use std::env;
use std::fs;
use std::hint::black_box;
use std::process::{self, Command, Stdio};

use crate::inputs;
use crate::timing::{compare, Contender};

/// Prints the table for compiling.
pub fn table() {
    let source = inputs::source();
    let bytes = source.as_bytes();
    let size = vahmizar::check(bytes, 1).expect("a good source");
    let program = env::var_os("TINYDNS_DATA");
    let folder = env::temp_dir().join(format!("vahmizar-bench-{}", process::id()));
    let mut out = vec![0; size];
    let mut second = vec![0; size];
    let mut contenders = vec![
        Contender::new("library", || {
            black_box(vahmizar::compile(bytes, 1, &mut out)).expect("room");
        }),
        Contender::new("reference", || {
            black_box(reference::compile(bytes, 1, &mut second));
        }),
    ];
    if let Some(program) = &program {
        fs::create_dir_all(&folder).expect("a folder for tinydns-data");
        fs::write(folder.join("data"), bytes).expect("a source for tinydns-data");
        let folder = &folder;
        contenders.push(Contender::new("tinydns-data (process)", move || {
            let status = Command::new(program)
                .current_dir(folder)
                .stdin(Stdio::null())
                .status()
                .expect("TINYDNS_DATA starts");
            assert!(status.success(), "tinydns-data fails");
        }));
    }
    let lines = source.lines().count();
    let length = source.len();
    let title = format!("compile: {length} bytes, {lines} lines, {size} bytes of records");
    compare(&title, 20, contenders);
    if program.is_some() {
        // Left over files do no harm.
        let _ = fs::remove_dir_all(&folder);
    } else {
        println!("  (tinydns-data isn't timed: TINYDNS_DATA names none)");
    }
}
