//! Compiling: from a source to the bytes of its records.

use crate::source::{each_line, LONGEST_SOURCE};

/// What compiling answers.
#[derive(Clone, Copy, Debug, Default, PartialEq, Eq)]
pub struct CompileAnswer {
    /// 0 for done, else the refusal's number.
    pub number: u64,
    /// The bad line, from 1.
    pub line: u64,
    /// Its field, from 1.
    pub field: u64,
    /// Bytes written, or needed where there is no room.
    pub bytes: u64,
}

impl CompileAnswer {
    /// The numbers in the order in which a call lays them down.
    pub fn numbers(&self) -> [u64; 4] {
        [self.number, self.line, self.field, self.bytes]
    }
}

/// Compiles a source into `out`. Bytes behind the count stay as they were, and
/// after a refusal all do.
pub fn compile(source: &[u8], serial: u32, out: &mut [u8]) -> CompileAnswer {
    if source.len() > LONGEST_SOURCE {
        return CompileAnswer {
            number: 1,
            ..CompileAnswer::default()
        };
    }
    let mut written = Vec::with_capacity(source.len() * 2);
    let read = each_line(source, serial, |records| {
        for record in records {
            record.write(&mut written);
        }
    });
    if let Err(bad) = read {
        return CompileAnswer {
            number: bad.fault.number(),
            line: bad.line,
            field: bad.field,
            bytes: 0,
        };
    }
    let bytes = written.len() as u64;
    let number = match out.get_mut(..written.len()) {
        Some(room) => {
            room.copy_from_slice(&written);
            0
        }
        None => 13,
    };
    CompileAnswer {
        number,
        line: 0,
        field: 0,
        bytes,
    }
}
