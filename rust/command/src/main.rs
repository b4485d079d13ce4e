//! The command `vahmizar`: compiles tinydns data and asks compiled records.

mod arguments;
mod asking;
mod calendar;
mod compiling;
mod dates;
mod failure;
mod help;
mod joining;
mod lookalikes;
mod moments;
mod names;
mod output;
mod refusal;
mod serial;
mod show;
mod sources;
mod timing;
mod types;

use std::env;
use std::io::{self, ErrorKind, Write};
use std::process::ExitCode;

use arguments::Arguments;
use failure::Failure;

fn main() -> ExitCode {
    match run() {
        Ok(status) => status,
        Err(failure) => {
            // Nothing is left to do where even this can't be said.
            let _ = writeln!(io::stderr(), "{failure}");
            failure.status()
        }
    }
}

fn run() -> Result<ExitCode, Failure> {
    let mut words = env::args_os().skip(1);
    let Some(command) = words.next() else {
        return Err(Failure::usage("no command given"));
    };
    let arguments = Arguments::sort(words)?;
    let done = match command.to_str() {
        _ if arguments.help => say(help::TEXT),
        Some("compile") => compiling::compile(arguments),
        Some("check") => compiling::check(arguments),
        Some("ask") => return asking::ask(arguments),
        Some("time") => timing::time(arguments),
        Some("help" | "--help" | "-h") => say(help::TEXT),
        _ => {
            let command = command.display();
            Err(Failure::usage(format!("no such command: {command}")))
        }
    };
    done.map(|()| ExitCode::SUCCESS)
}

/// Writes to the standard output; what can't be written is a failure. One who
/// reads no further has what he wanted.
fn say(text: &str) -> Result<(), Failure> {
    let mut out = io::stdout().lock();
    match out.write_all(text.as_bytes()).and_then(|()| out.flush()) {
        Err(error) if error.kind() != ErrorKind::BrokenPipe => {
            let words = format!("vahmizar: standard output: {error}");
            Err(Failure::Trouble(words))
        }
        _ => Ok(()),
    }
}
