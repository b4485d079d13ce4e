//! `vahmizar compile` and `vahmizar check`.

use std::ffi::{OsStr, OsString};
use std::io;
use std::path::Path;
use std::slice;

use crate::arguments::Arguments;
use crate::failure::Failure;
use crate::joining::Joined;
use crate::serial::parse_serial;
use crate::{lookalikes, output, say, sources};

/// Compiles sources and replaces the output.
pub fn compile(arguments: Arguments) -> Result<(), Failure> {
    arguments.only(&["-o", "--serial"])?;
    let (paths, out) = sources_and_output(&arguments)?;
    let serial = arguments.serial.as_deref().map(parse_serial).transpose()?;
    let places = sources::places(paths)?;
    let out = Path::new(out);
    let trouble = |error| Failure::file(out, error);
    let target = output::target(out).map_err(trouble)?;
    if places.contains_key(&target) {
        let words = "the output would replace the source";
        return Err(trouble(io::Error::other(words)));
    }
    if arguments.output.is_none() && lookalikes::begins_as_source(&target) {
        return Err(forgotten_option(Path::new(&paths[0]), out));
    }
    let mut records = Vec::new();
    let judged = Joined::read(paths).judge(serial, |source, serial| {
        let more = vahmizar::compile_to_vec(source, serial)?;
        let room = more.len();
        // One source, as most calls have it, needs no copy.
        if records.is_empty() {
            records = more;
        } else {
            records.extend_from_slice(&more);
        }
        Ok(room)
    });
    Failure::all(judged.failures)?;
    output::replace(&target, &records).map_err(trouble)
}

/// Judges sources and says how large their records are.
pub fn check(arguments: Arguments) -> Result<(), Failure> {
    arguments.only(&["--serial"])?;
    let paths = arguments.some("DATA")?;
    let serial = arguments.serial.as_deref().map(parse_serial).transpose()?;
    sources::places(paths)?;
    let mut judged = Joined::read(paths).judge(serial, vahmizar::check);
    let mut lines = String::new();
    for (path, room) in &judged.good {
        let path = path.display();
        lines += &format!("{path}: good, its records take {room} bytes\n");
    }
    if paths.len() > 1 && judged.failures.is_empty() {
        let count = paths.len();
        let room: usize = judged.good.iter().map(|(_, room)| room).sum();
        lines += &format!("{count} sources joined: good, their records take {room} bytes\n");
    }
    judged.failures.extend(say(&lines).err());
    Failure::all(judged.failures)
}

/// With `-o` all plain words are sources, without there is one.
fn sources_and_output(arguments: &Arguments) -> Result<(&[OsString], &OsStr), Failure> {
    if let Some(out) = &arguments.output {
        return Ok((arguments.some("DATA")?, out));
    }
    if let Some(more) = arguments.plain.get(2) {
        let more = more.display();
        let words = format!("one word too many: {more}: behind several sources write -o OUT");
        return Err(Failure::usage(words));
    }
    let [data, out] = arguments.exactly(["DATA", "OUT"])?;
    Ok((slice::from_ref(data), out))
}

/// One who forgets `-o` would lose the last of his sources.
fn forgotten_option(data: &Path, out: &Path) -> Failure {
    let (data, out) = (data.display(), out.display());
    Failure::Trouble(format!(
        "{out}: this looks like a source, and the output would replace it\n    \
         To compile both: vahmizar compile {data} {out} -o OUT\n    \
         To replace it all the same: vahmizar compile {data} -o {out}"
    ))
}
