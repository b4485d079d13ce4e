//! Compiling a source.

use crate::refusal::{Fault, Refusal};
use crate::sys;

/// Most bytes of a source that compiling takes.
pub const LONGEST_SOURCE: usize = 1_048_576;

/// Compiles `source` into `out` and returns how many bytes were written.
///
/// `serial` is the serial number of SOA records that don't have their own.
/// Bytes of `out` behind the count stay as they were. After a refusal all of
/// them do.
///
/// ```
/// use vahmizar::{compile, Fault};
///
/// let mut out = [0; 40];
/// assert_eq!(compile(b"+a.b:192.0.2.1", 1, &mut out), Ok(32));
/// assert_eq!(out[28..32], [192, 0, 2, 1]);
///
/// let refusal = compile(b"+a.b:192.0.2.1", 1, &mut out[..31]).unwrap_err();
/// assert_eq!(refusal.fault, Fault::NoRoom);
/// assert_eq!(refusal.needed, 32);
/// ```
pub fn compile(source: &[u8], serial: u32, out: &mut [u8]) -> Result<usize, Refusal> {
    let mut answer = [0; sys::COMPILE_ANSWER];
    let number = sys::compile(source, serial, out, &mut answer);
    let [line, field, bytes] = [1, 2, 3].map(|place| sys::answer_number(&answer, place));
    if number == 0 {
        return Ok(size(bytes));
    }
    let Some(fault) = Fault::from_number(number) else {
        panic!("compiling answered {number}, which its promise excludes");
    };
    Err(Refusal {
        fault,
        line,
        field,
        needed: bytes,
    })
}

/// Judges `source` and returns how many bytes its records need.
///
/// ```
/// assert_eq!(vahmizar::check(b"+a.b:192.0.2.1", 1), Ok(32));
/// ```
pub fn check(source: &[u8], serial: u32) -> Result<usize, Refusal> {
    match compile(source, serial, &mut []) {
        Err(refusal) if refusal.fault == Fault::NoRoom => Ok(size(refusal.needed)),
        judged => judged,
    }
}

/// Compiles `source` into a vector of the right size.
///
/// ```
/// let bytes = vahmizar::compile_to_vec(b"+a.b:192.0.2.1", 1)?;
/// assert_eq!(bytes.len(), 32);
/// # Ok::<(), vahmizar::Refusal>(())
/// ```
///
/// Sources that are joined, each but the last empty or ending in a line end,
/// give their records one behind the other, as long as they have at most
/// [`LONGEST_SOURCE`] bytes together. So where one of several has changed, it
/// alone has to be compiled again, with the same serial:
///
/// ```
/// use vahmizar::compile_to_vec;
///
/// let (north, south) = (b"+n.b:192.0.2.1\n", b"+s.b:192.0.2.2\n");
/// let joined = compile_to_vec(&[&north[..], south].concat(), 1)?;
/// assert_eq!(joined, [compile_to_vec(north, 1)?, compile_to_vec(south, 1)?].concat());
/// # Ok::<(), vahmizar::Refusal>(())
/// ```
pub fn compile_to_vec(source: &[u8], serial: u32) -> Result<Vec<u8>, Refusal> {
    // Most records take two to three times the bytes of their line. Where that
    // is too little, the first call says how much it is.
    let mut out = vec![0; source.len().min(LONGEST_SOURCE) * 3];
    let written = match compile(source, serial, &mut out) {
        Err(refusal) if refusal.fault == Fault::NoRoom => {
            out = vec![0; size(refusal.needed)];
            compile(source, serial, &mut out)
        }
        written => written,
    };
    out.truncate(written?);
    out.shrink_to_fit();
    Ok(out)
}

fn size(bytes: u64) -> usize {
    usize::try_from(bytes).expect("records of a source fit the memory")
}

#[cfg(test)]
mod tests {
    use super::*;

    #[test]
    fn records_that_outgrow_the_guess() {
        let source = b".\n".repeat(1000);
        let bytes = compile_to_vec(&source, 1).unwrap();
        assert_eq!(bytes.len(), 88_000);
        assert_eq!(check(&source, 1), Ok(88_000));
    }

    #[test]
    fn nothing_to_compile() {
        assert_eq!(compile_to_vec(b"", 1), Ok(vec![]));
        assert_eq!(check(b"# none\n", 1), Ok(0));
    }

    #[test]
    fn sources_over_the_limit() {
        let source = vec![b'\n'; LONGEST_SOURCE + 1];
        let refusal = compile_to_vec(&source, 1).unwrap_err();
        assert_eq!(refusal.fault, Fault::SourceTooLong);
        assert_eq!(compile_to_vec(&source[1..], 1), Ok(vec![]));
    }

    #[test]
    fn a_refusal_leaves_the_buffer() {
        let mut out = [7; 64];
        let refusal = compile(b"+a:1.2.3.4\n!", 1, &mut out).unwrap_err();
        assert_eq!((refusal.fault, refusal.line), (Fault::UnknownKind, 2));
        assert_eq!(out, [7; 64]);
    }
}
