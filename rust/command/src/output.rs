//! Replacing a file as a whole: readers see the old bytes or the new ones.

use std::ffi::OsString;
use std::fs::{self, File, Metadata, OpenOptions};
use std::io::{self, ErrorKind, Write};
use std::os::unix::fs::{fchown, MetadataExt, OpenOptionsExt};
use std::path::{Path, PathBuf};
use std::process;

/// The file that a path names, links followed. It need not exist yet, but
/// if it does it must be a regular file.
pub fn target(path: &Path) -> io::Result<PathBuf> {
    match fs::canonicalize(path) {
        Ok(target) if target.is_file() => Ok(target),
        Ok(_) => Err(io::Error::other("this is no regular file")),
        Err(error) if error.kind() == ErrorKind::NotFound => new_target(path),
        Err(error) => Err(error),
    }
}

fn new_target(path: &Path) -> io::Result<PathBuf> {
    if path.is_symlink() {
        return Err(io::Error::other("this link leads nowhere"));
    }
    let ends_in_slash = path.as_os_str().as_encoded_bytes().ends_with(b"/");
    let (Some(name), false) = (path.file_name(), ends_in_slash) else {
        return Err(io::Error::other("this names no file"));
    };
    let folder = match path.parent() {
        Some(folder) if !folder.as_os_str().is_empty() => folder,
        _ => Path::new("."),
    };
    Ok(fs::canonicalize(folder)?.join(name))
}

/// Replaces the file at a path that [`target`] gave. On a failure it stays as
/// it was, and no temporary file is left.
pub fn replace(target: &Path, bytes: &[u8]) -> io::Result<()> {
    let old = fs::metadata(target).ok();
    // Nobody reads the new bytes who couldn't read the old ones.
    let mode = if old.is_some() { 0o600 } else { 0o666 };
    let (file, temporary) = create_beside(target, mode)?;
    let replaced = fill(file, bytes, old).and_then(|()| fs::rename(&temporary, target));
    if replaced.is_err() {
        // The first failure is the one to tell.
        let _ = fs::remove_file(&temporary);
        return replaced;
    }
    // Makes the new name lasting. Not every file system can, and the file is
    // whole either way.
    if let Some(folder) = target.parent() {
        let _ = File::open(folder).and_then(|folder| folder.sync_all());
    }
    Ok(())
}

/// Gives the file the bytes, and owner, group and mode of the one it replaces.
fn fill(mut file: File, bytes: &[u8], old: Option<Metadata>) -> io::Result<()> {
    file.write_all(bytes)?;
    if let Some(old) = old {
        // Only root may give a file away; where it can't be, the mode is kept.
        let _ = fchown(&file, None, Some(old.gid()));
        let _ = fchown(&file, Some(old.uid()), None);
        file.set_permissions(old.permissions())?;
    }
    file.sync_all()
}

/// A new file in the same folder, so that renaming stays in one file system.
fn create_beside(target: &Path, mode: u32) -> io::Result<(File, PathBuf)> {
    let name = target.file_name().unwrap_or_default();
    for attempt in 0.. {
        let mut beside = OsString::from(".");
        beside.push(name);
        beside.push(format!(".{}.{attempt}.tmp", process::id()));
        let beside = target.with_file_name(beside);
        match OpenOptions::new()
            .write(true)
            .create_new(true)
            .mode(mode)
            .open(&beside)
        {
            Ok(file) => return Ok((file, beside)),
            Err(error) if error.kind() == ErrorKind::AlreadyExists && attempt < 100 => (),
            Err(error) => return Err(error),
        }
    }
    unreachable!("the attempts end")
}
