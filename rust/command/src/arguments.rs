//! The words of a call, sorted into plain ones and options.

use std::ffi::{OsStr, OsString};
use std::os::unix::ffi::OsStrExt;

use crate::failure::Failure;

/// The words behind the command's own name.
#[derive(Debug, Default)]
pub struct Arguments {
    /// Words that are no options, in order.
    pub plain: Vec<OsString>,
    /// What stood behind `-o` or `--output`.
    pub output: Option<OsString>,
    /// What stood behind `--serial`.
    pub serial: Option<String>,
    /// What stood behind `--client`.
    pub client: Option<String>,
    /// What stood behind `--at`.
    pub at: Option<String>,
    /// Whether help was asked for.
    pub help: bool,
}

impl Arguments {
    /// Sorts the words. `--option value` and `--option=value` are the same.
    pub fn sort(mut words: impl Iterator<Item = OsString>) -> Result<Arguments, Failure> {
        let mut arguments = Arguments::default();
        while let Some(word) = words.next() {
            let Some((option, value)) = split(&word) else {
                arguments.plain.push(word);
                continue;
            };
            let place = match (option, value) {
                ("--", None) => {
                    arguments.plain.extend(words);
                    break;
                }
                ("--help" | "-h", None) => {
                    arguments.help = true;
                    continue;
                }
                ("-o" | "--output", _) => {
                    once(option, &arguments.output)?;
                    arguments.output = Some(given(option, value, &mut words)?);
                    continue;
                }
                ("--serial", _) => &mut arguments.serial,
                ("--client", _) => &mut arguments.client,
                ("--at", _) => &mut arguments.at,
                _ => {
                    let word = word.display();
                    return Err(Failure::usage(format!("no such option: {word}")));
                }
            };
            once(option, place)?;
            let value = given(option, value, &mut words)?.into_string();
            let no_text = |_| Failure::usage(format!("{option} has a value that is no text"));
            *place = Some(value.map_err(no_text)?);
        }
        Ok(arguments)
    }

    /// The plain words, which must be as many as `names`.
    pub fn exactly<const N: usize>(&self, names: [&str; N]) -> Result<&[OsString; N], Failure> {
        if let Some(missing) = names.get(self.plain.len()) {
            return Err(Failure::usage(format!("{missing} is missing")));
        }
        match self.plain.get(N) {
            Some(more) => {
                let more = more.display();
                Err(Failure::usage(format!("one word too many: {more}")))
            }
            None => Ok(self.plain[..].try_into().expect("counted above")),
        }
    }

    /// The plain words, of which there must be one at least.
    pub fn some(&self, name: &str) -> Result<&[OsString], Failure> {
        if self.plain.is_empty() {
            return Err(Failure::usage(format!("{name} is missing")));
        }
        Ok(&self.plain)
    }

    /// Refuses options that the command doesn't have.
    pub fn only(&self, options: &[&str]) -> Result<(), Failure> {
        let given = [
            ("-o", self.output.is_some()),
            ("--serial", self.serial.is_some()),
            ("--client", self.client.is_some()),
            ("--at", self.at.is_some()),
        ];
        for (option, given) in given {
            if given && !options.contains(&option) {
                return Err(Failure::usage(format!("{option} has no meaning here")));
            }
        }
        Ok(())
    }
}

/// An option, and the value that stands in the same word. A path behind it need
/// not be text.
fn split(word: &OsStr) -> Option<(&str, Option<&OsStr>)> {
    let mut parts = word.as_bytes().splitn(2, |&byte| byte == b'=');
    let option = str::from_utf8(parts.next()?).ok()?;
    is_option(option).then_some((option, parts.next().map(OsStr::from_bytes)))
}

/// A lone dash and a negative number are plain words.
fn is_option(text: &str) -> bool {
    let second = text.strip_prefix('-').and_then(|rest| rest.bytes().next());
    second.is_some_and(|byte| !byte.is_ascii_digit())
}

fn once<T>(option: &str, before: &Option<T>) -> Result<(), Failure> {
    match before {
        Some(_) => Err(Failure::usage(format!("{option} is given twice"))),
        None => Ok(()),
    }
}

/// An option's value, from the same word or the next one.
fn given(
    option: &str,
    value: Option<&OsStr>,
    mut words: impl Iterator<Item = OsString>,
) -> Result<OsString, Failure> {
    let value = value.map(OsStr::to_owned).or_else(|| words.next());
    value.ok_or_else(|| Failure::usage(format!("{option} needs a value")))
}
