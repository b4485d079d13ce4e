//! Why the command ends without having done its work.

use std::fmt;
use std::io;
use std::path::Path;
use std::process::ExitCode;

/// A failure, with the whole message.
#[derive(Debug)]
pub enum Failure {
    /// The library refused the source, the records or the question.
    Refused(String),
    /// The command was called in a wrong way.
    Usage(String),
    /// Something could not be read or written.
    Trouble(String),
}

impl Failure {
    /// A wrong call, said in a few words.
    pub fn usage(words: impl fmt::Display) -> Failure {
        Failure::Usage(format!("vahmizar: {words}\nTry: vahmizar --help"))
    }

    /// A file that could not be used.
    pub fn file(path: &Path, error: io::Error) -> Failure {
        Failure::Trouble(format!("{}: {error}", path.display()))
    }

    /// All failures in one, if there are any, told in their order. It is a
    /// refusal only if all of them are.
    pub fn all(failures: Vec<Failure>) -> Result<(), Failure> {
        let mut refused = true;
        let mut texts = Vec::new();
        for failure in failures {
            refused &= matches!(failure, Failure::Refused(_));
            texts.push(failure.to_string());
        }
        match texts.join("\n") {
            _ if texts.is_empty() => Ok(()),
            text if refused => Err(Failure::Refused(text)),
            text => Err(Failure::Trouble(text)),
        }
    }

    /// The exit status for scripts.
    pub fn status(&self) -> ExitCode {
        match self {
            Failure::Refused(_) => ExitCode::from(1),
            Failure::Usage(_) | Failure::Trouble(_) => ExitCode::from(2),
        }
    }
}

impl fmt::Display for Failure {
    fn fmt(&self, f: &mut fmt::Formatter<'_>) -> fmt::Result {
        let (Failure::Refused(text) | Failure::Usage(text) | Failure::Trouble(text)) = self;
        f.write_str(text)
    }
}

#[cfg(test)]
mod tests {
    use super::*;

    #[test]
    fn several_at_once() {
        let refused = || Failure::Refused("a: refused".to_owned());
        let trouble = || Failure::Trouble("b: trouble".to_owned());
        assert!(Failure::all(vec![]).is_ok());
        let both = Failure::all(vec![refused(), refused()]).unwrap_err();
        assert!(matches!(both, Failure::Refused(text) if text == "a: refused\na: refused"));
        for failures in [vec![refused(), trouble()], vec![trouble(), refused()]] {
            let text = format!("{}\n{}", failures[0], failures[1]);
            let both = Failure::all(failures).unwrap_err();
            assert!(matches!(both, Failure::Trouble(told) if told == text));
        }
    }
}
