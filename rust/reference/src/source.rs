//! A source: its lines, one after another.

use crate::fault::BadLine;
use crate::line;
use crate::record::Record;

/// Most bytes of a source.
pub const LONGEST_SOURCE: usize = 1_048_576;

/// Hands the records of each line to `with`, up to the first bad line.
pub fn each_line(
    source: &[u8],
    serial: u32,
    mut with: impl FnMut(&[Record]),
) -> Result<(), BadLine> {
    let mut records = Vec::new();
    for (number, bytes) in (1..).zip(source.split(|&byte| byte == b'\n')) {
        records.clear();
        line::read(bytes, serial, &mut records).map_err(|at| BadLine {
            line: number,
            field: at.field,
            fault: at.fault,
        })?;
        with(&records);
    }
    Ok(())
}

/// All records of a source, in line order, or its first bad line. The length
/// of the source isn't judged here.
pub fn records(source: &[u8], serial: u32) -> Result<Vec<Record>, BadLine> {
    let mut all = Vec::new();
    each_line(source, serial, |records| all.extend_from_slice(records))?;
    Ok(all)
}
