//! Refusals as people read them, with the text at fault.

use std::fmt::Write;
use std::path::Path;

use vahmizar::{AskRefusal, Fault, Records, Refusal, LONGEST_SOURCE};

use crate::failure::Failure;
use crate::lookalikes::Lookalike;

/// Most bytes of a source that a message shows.
const MOST_SHOWN: usize = 200;

/// A refused source: place, number and words, and the text below.
pub fn of_source(path: &Path, source: &[u8], refusal: Refusal) -> Failure {
    let mut message = path.display().to_string();
    if refusal.line > 0 {
        write!(message, ":{}", refusal.line).expect("strings take all");
    }
    if refusal.field > 0 {
        write!(message, ":{}", refusal.field).expect("strings take all");
    }
    let fault = refusal.fault;
    write!(message, ": refused {}: {}", fault.number(), fault.words()).expect("strings take all");
    if fault == Fault::Name && refusal.field == 0 {
        // Each field is good by itself, so the line shown wouldn't tell.
        message += ": put together from the fields it is longer than 255 bytes";
    }
    let text = text_at(source, refusal.line, refusal.field);
    if !text.is_empty() {
        message += "\n    ";
        message += &visible(text);
    }
    Failure::Refused(message)
}

/// Sources that are too long joined.
pub fn of_joined(sources: usize, bytes: u64) -> Failure {
    let fault = Fault::SourceTooLong;
    let (number, words) = (fault.number(), fault.words());
    Failure::Refused(format!(
        "{sources} sources joined: refused {number}: {words}: \
         they have {bytes} bytes, at most {LONGEST_SOURCE} are taken"
    ))
}

/// Refused records, or a refused question.
pub fn of_asking(path: &Path, bytes: &[u8], refusal: AskRefusal) -> Failure {
    if refusal != AskRefusal::Records {
        return Failure::Refused(format!("question: {refusal}"));
    }
    let path = path.display();
    let end = Records::new(bytes).valid_up_to();
    let instead = match Lookalike::of(bytes) {
        Some(Lookalike::Source) => {
            format!("This looks like a source. Compile it first: vahmizar compile {path} OUT")
        }
        Some(Lookalike::Database) => "This looks like a data.cdb. Records alone are wanted, \
             as vahmizar compile DATA OUT writes them."
            .to_owned(),
        None => "Wanted is what vahmizar compile DATA OUT writes into OUT.".to_owned(),
    };
    Failure::Refused(format!(
        "{path}: {refusal}: they stop being records at byte {end}, counted from 0\n    {instead}"
    ))
}

/// The field's text, or the whole line where the field is empty or none.
fn text_at(source: &[u8], line: u64, field: u64) -> &[u8] {
    let number = |from_one: u64| usize::try_from(from_one).ok()?.checked_sub(1);
    let line = number(line).and_then(|line| source.split(|&byte| byte == b'\n').nth(line));
    let mut line = line.unwrap_or_default();
    while let [before @ .., b' ' | b'\t'] = line {
        line = before;
    }
    let field = number(field).and_then(|field| {
        let fields = line.get(1..)?;
        fields.split(|&byte| byte == b':').nth(field)
    });
    field.filter(|field| !field.is_empty()).unwrap_or(line)
}

/// Text that is safe to print: other bytes as octal, as sources write them.
fn visible(text: &[u8]) -> String {
    let mut shown = String::new();
    for &byte in text.iter().take(MOST_SHOWN) {
        match byte {
            32..=126 => shown.push(byte.into()),
            _ => write!(shown, "\\{byte:03o}").expect("strings take all"),
        }
    }
    if text.len() > MOST_SHOWN {
        write!(shown, "... ({} bytes)", text.len()).expect("strings take all");
    }
    shown
}

#[cfg(test)]
mod tests {
    use super::*;

    #[test]
    fn the_text_at_fault() {
        let source = b"# c\n+a:1.2.3.x:5 \t\nC";
        assert_eq!(text_at(source, 2, 2), b"1.2.3.x");
        assert_eq!(text_at(source, 2, 3), b"5");
        assert_eq!(text_at(source, 2, 5), b"+a:1.2.3.x:5");
        assert_eq!(text_at(source, 2, 0), b"+a:1.2.3.x:5");
        assert_eq!(text_at(source, 3, 2), b"C");
        assert_eq!(text_at(source, 0, 0), b"");
        assert_eq!(text_at(source, 9, 1), b"");
    }

    #[test]
    fn unprintable_bytes() {
        assert_eq!(visible(b"a\x1b[31m\xff"), "a\\033[31m\\377");
        assert!(visible(&[b'x'; 2000]).ends_with("xx... (2000 bytes)"));
    }
}
