//! Source files: where they lie, and reading them.

use std::collections::HashMap;
use std::ffi::OsString;
use std::fs::{self, File};
use std::io::{self, Read};
use std::path::{Path, PathBuf};
use std::time::SystemTime;

use vahmizar::LONGEST_SOURCE;

use crate::failure::Failure;

/// A source as it was read.
pub struct Source {
    /// Its bytes; of one that is too long only one more than are taken.
    pub bytes: Vec<u8>,
    /// When it was last changed.
    pub modified: SystemTime,
}

impl Source {
    /// Reads a file, which is opened only once: a pipe can't be opened again.
    pub fn read(path: &Path) -> io::Result<Source> {
        let file = File::open(path)?;
        let modified = file.metadata()?.modified()?;
        let mut bytes = Vec::new();
        // One byte over the limit is enough to have the source refused.
        file.take(LONGEST_SOURCE as u64 + 1)
            .read_to_end(&mut bytes)?;
        Ok(Source { bytes, modified })
    }
}

/// Where those of the sources lie that are regular files, links followed, and
/// how each was named. None may be named twice.
pub fn places(paths: &[OsString]) -> Result<HashMap<PathBuf, &Path>, Failure> {
    let mut places = HashMap::new();
    for path in paths.iter().map(Path::new) {
        // What is wrong with a file that isn't found is said when it is read.
        let Ok(place) = fs::canonicalize(path) else {
            continue;
        };
        if !place.is_file() {
            continue;
        }
        if let Some(before) = places.insert(place, path) {
            return Err(named_twice(path, before));
        }
    }
    Ok(places)
}

fn named_twice(path: &Path, before: &Path) -> Failure {
    // A link or a longer way to it doesn't tell which one it is.
    let named = match before {
        _ if before == path => String::new(),
        _ => format!(", as {}", before.display()),
    };
    let words = format!("this source was named before{named}: its records would stand twice");
    Failure::file(path, io::Error::other(words))
}
