//! Running the real tinydns-data.

use std::env;
use std::ffi::OsStr;
use std::fs;
use std::path::{Path, PathBuf};
use std::process::Command;
use std::time::{Duration, UNIX_EPOCH};

use compare::difference::literal;

/// The program takes the source's modification time as serial.
pub const SERIAL: u32 = 1_234_567_890;

/// Runs tinydns-data on a source in a folder of this name. Returns the folder,
/// which then holds data.cdb.
pub fn database(program: &OsStr, folder: &str, source: &[u8]) -> PathBuf {
    let folder = Path::new(env!("CARGO_TARGET_TMPDIR")).join(folder);
    fs::create_dir_all(&folder).expect("a folder");
    let data = folder.join("data");
    fs::write(&data, source).expect("a source");
    let time = UNIX_EPOCH + Duration::from_secs(SERIAL.into());
    let file = fs::File::options().write(true).open(&data);
    file.and_then(|file| file.set_modified(time))
        .expect("the serial as time");
    let output = Command::new(program)
        .current_dir(&folder)
        .output()
        .expect("TINYDNS_DATA starts");
    let said = String::from_utf8_lossy(&output.stderr);
    let shown = literal(source);
    assert!(output.status.success(), "{said}\n  source: {shown}");
    folder
}
