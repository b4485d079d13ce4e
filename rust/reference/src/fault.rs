//! What can be wrong with a source, and where.

/// What is wrong with a line.
#[derive(Clone, Copy, Debug, PartialEq, Eq)]
pub enum Fault {
    /// More than 1,024 bytes.
    LineTooLong,
    /// The first byte names no kind of line.
    UnknownKind,
    /// A field more than the kind has.
    TooManyFields,
    /// No domain name, or one too long.
    Name,
    /// No address, or no prefix of one.
    Address,
    /// No number, or one too large.
    Number,
    /// No time.
    Time,
    /// No client location.
    Lo,
    /// A backslash without three octal digits.
    Escape,
    /// A record type that has its own kind of line, or is none.
    ForbiddenType,
    /// Empty where something must stand.
    Empty,
}

impl Fault {
    /// The number by which an answer names the fault.
    pub fn number(self) -> u64 {
        match self {
            Fault::LineTooLong => 2,
            Fault::UnknownKind => 3,
            Fault::TooManyFields => 4,
            Fault::Name => 5,
            Fault::Address => 6,
            Fault::Number => 7,
            Fault::Time => 8,
            Fault::Lo => 9,
            Fault::Escape => 10,
            Fault::ForbiddenType => 11,
            Fault::Empty => 12,
        }
    }
}

/// A fault with its field, from 1; field 0 is the line as a whole.
#[derive(Clone, Copy, Debug, PartialEq, Eq)]
pub struct LineFault {
    /// What is wrong.
    pub fault: Fault,
    /// In which field.
    pub field: u64,
}

impl LineFault {
    /// A fault of the whole line.
    pub fn of_line(fault: Fault) -> LineFault {
        LineFault { fault, field: 0 }
    }
}

/// The first bad line of a source.
#[derive(Clone, Copy, Debug, PartialEq, Eq)]
pub struct BadLine {
    /// Its number, from 1.
    pub line: u64,
    /// The field, from 1, or 0 for the line as a whole.
    pub field: u64,
    /// What is wrong.
    pub fault: Fault,
}
