//! A folder for one test, and the command run in it.

#![allow(dead_code)]

use std::ffi::OsStr;
use std::fs;
use std::path::{Path, PathBuf};
use std::process::Command;

/// An empty folder, removed when the test ends well.
pub struct Folder {
    path: PathBuf,
}

/// What a run of the command left.
#[derive(Debug)]
pub struct Run {
    pub status: i32,
    pub out: String,
    pub err: String,
}

impl Folder {
    pub fn new(test: &str) -> Folder {
        let path = Path::new(env!("CARGO_TARGET_TMPDIR")).join(test);
        let _ = fs::remove_dir_all(&path);
        fs::create_dir_all(&path).expect("a folder for the test");
        Folder { path }
    }

    /// A folder with a source, `data`, and its records, `out`.
    pub fn compiled(test: &str, source: &str) -> Folder {
        let folder = Folder::new(test);
        folder.write("data", source);
        folder.good(&["compile", "data", "out", "--serial", "42"]);
        folder
    }

    pub fn file(&self, name: &str) -> PathBuf {
        self.path.join(name)
    }

    pub fn write(&self, name: &str, bytes: impl AsRef<[u8]>) {
        fs::write(self.file(name), bytes).expect("a file for the test");
    }

    pub fn read(&self, name: &str) -> Vec<u8> {
        fs::read(self.file(name)).expect("a file of the test")
    }

    /// The names in the folder, sorted.
    pub fn names(&self) -> Vec<String> {
        let entries = fs::read_dir(&self.path).expect("the test's folder");
        let mut names: Vec<_> = entries
            .map(|entry| entry.unwrap().file_name().into_string().unwrap())
            .collect();
        names.sort();
        names
    }

    /// Runs the command with these words, in the folder.
    pub fn run(&self, words: &[&str]) -> Run {
        self.run_program(env!("CARGO_BIN_EXE_vahmizar"), words)
    }

    /// Runs any program so.
    pub fn run_program(&self, program: impl AsRef<OsStr>, words: &[impl AsRef<OsStr>]) -> Run {
        let output = Command::new(program)
            .args(words)
            .current_dir(&self.path)
            .output()
            .expect("the program starts");
        Run {
            status: output.status.code().expect("no signal"),
            out: String::from_utf8(output.stdout).unwrap(),
            err: String::from_utf8(output.stderr).unwrap(),
        }
    }

    /// Runs the command, which must succeed, and returns what it prints.
    pub fn good(&self, words: &[&str]) -> String {
        self.says(words, 0)
    }

    /// Runs the command, which must end so without a message, and returns what
    /// it prints.
    pub fn says(&self, words: &[&str], status: i32) -> String {
        let run = self.run(words);
        assert_eq!((run.status, &run.err[..]), (status, ""), "{words:?}");
        run.out
    }

    /// Runs the command, which must fail so and print nothing else.
    pub fn fails(&self, words: &[&str], status: i32) -> String {
        let run = self.run(words);
        assert_eq!((run.status, &run.out[..]), (status, ""), "{words:?}");
        assert!(!run.err.is_empty());
        run.err
    }
}

impl Drop for Folder {
    fn drop(&mut self) {
        if !std::thread::panicking() {
            let _ = fs::remove_dir_all(&self.path);
        }
    }
}
