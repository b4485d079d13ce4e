//! `vahmizar time`.

use std::ffi::OsStr;

use vahmizar::Moment;

use crate::arguments::Arguments;
use crate::failure::Failure;
use crate::{moments, say};

/// Prints moments as time fields and as dates, a line each. Those that are no
/// time of a line are told behind the others.
pub fn time(arguments: Arguments) -> Result<(), Failure> {
    arguments.only(&[])?;
    let whens = arguments.some("WHEN")?;
    let mut lines = String::new();
    let mut wrong = Vec::new();
    for when in whens {
        match field(when) {
            Ok(moment) => {
                let number = moment.tai64();
                lines += &format!("{number:016x} {}\n", moments::show(moment));
            }
            Err(words) => wrong.push(format!("{}: {words}", when.display())),
        }
    }
    say(&lines)?;
    if wrong.is_empty() {
        return Ok(());
    }
    Err(Failure::usage(wrong.join("\nvahmizar: ")))
}

/// A moment that can stand in a line's time field.
fn field(when: &OsStr) -> Result<Moment, String> {
    let moment = moments::parse(when.to_str().ok_or("this is no text")?)?;
    match moment.tai64() {
        0 => Err("no line can have this time; for none leave the field empty".to_owned()),
        0x8000_0000_0000_0000.. => {
            Err("no line can have this time; the last one is 7fffffffffffffff".to_owned())
        }
        _ => Ok(moment),
    }
}
