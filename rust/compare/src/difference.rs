//! What a comparison found, in a form that can be tried again.

use std::fmt;

/// A place where library and second implementation differ, or where the
/// library breaks a rule that needs no second opinion.
#[derive(Clone, Debug)]
pub struct Difference(pub String);

impl fmt::Display for Difference {
    fn fmt(&self, f: &mut fmt::Formatter<'_>) -> fmt::Result {
        f.write_str(&self.0)
    }
}

/// The result of a check.
pub type Checked<T = ()> = Result<T, Difference>;

/// Bytes as a literal of Rust, to be pasted into a test.
pub fn literal(bytes: &[u8]) -> String {
    format!("b\"{}\"", bytes.escape_ascii())
}

/// Says where two byte strings first differ.
pub fn first_difference(wanted: &[u8], found: &[u8]) -> String {
    let pairs = wanted.iter().zip(found);
    let place = pairs.take_while(|(wanted, found)| wanted == found).count();
    format!(
        "byte {place} should be {:?} and is {:?}",
        wanted.get(place),
        found.get(place)
    )
}
