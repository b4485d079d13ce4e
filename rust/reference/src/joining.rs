//! Sources joined: what the source made of several parts must answer, told
//! from the parts, each compiled by itself. The whole is neither made nor
//! compiled here.

use crate::compile::CompileAnswer;
use crate::source::LONGEST_SOURCE;

/// Compiles a part with a serial into a buffer.
pub type Compile<'a> = &'a dyn Fn(&[u8], u32, &mut [u8]) -> CompileAnswer;

/// What the joined source answers and writes into `out`, by what `compile`
/// answers for each part. `None` where a part before the last isn't ended: its
/// last line goes on in the next part, and the parts say nothing of the whole.
pub fn joined(
    parts: &[&[u8]],
    serial: u32,
    out: &mut [u8],
    compile: Compile<'_>,
) -> Option<CompileAnswer> {
    let before_the_last = parts.split_last().map_or(parts, |(_, before)| before);
    if !before_the_last.iter().all(|part| is_ended(part)) {
        return None;
    }
    let length: usize = parts.iter().map(|part| part.len()).sum();
    if length > LONGEST_SOURCE {
        return Some(CompileAnswer {
            number: 1,
            ..CompileAnswer::default()
        });
    }
    let answer = match in_turn(parts, serial, compile) {
        Ok(records) => written(&records, out),
        Err(refusal) => refusal,
    };
    Some(answer)
}

/// Whether another part may follow: the next one then begins with a line.
fn is_ended(part: &[u8]) -> bool {
    part.is_empty() || part.ends_with(b"\n")
}

/// The records of the parts, one part's behind the other's, or the refusal of
/// the first part that is refused, at its line in the whole.
fn in_turn(parts: &[&[u8]], serial: u32, compile: Compile<'_>) -> Result<Vec<u8>, CompileAnswer> {
    let mut records = Vec::new();
    let mut lines_before = 0;
    for part in parts {
        let answer = compile(part, serial, &mut []);
        if !matches!(answer.number, 0 | 13) {
            let line = lines_before + answer.line;
            return Err(CompileAnswer { line, ..answer });
        }
        let mut own = vec![0; answer.bytes as usize];
        compile(part, serial, &mut own);
        records.extend_from_slice(&own);
        lines_before += part.iter().filter(|&&byte| byte == b'\n').count() as u64;
    }
    Ok(records)
}

/// The room is judged for the records of all parts together.
fn written(records: &[u8], out: &mut [u8]) -> CompileAnswer {
    let number = match out.get_mut(..records.len()) {
        Some(room) => {
            room.copy_from_slice(records);
            0
        }
        None => 13,
    };
    CompileAnswer {
        number,
        line: 0,
        field: 0,
        bytes: records.len() as u64,
    }
}
