//! Refusals: what they mean, and how they read.

use std::error::Error;
use std::fmt;

/// Why a source wasn't compiled.
#[derive(Clone, Copy, Debug, PartialEq, Eq, Hash)]
#[non_exhaustive]
#[repr(u64)]
pub enum Fault {
    /// More than 1,048,576 bytes.
    SourceTooLong = 1,
    /// A line of more than 1,024 bytes.
    LineTooLong = 2,
    /// A line whose first byte names no kind.
    UnknownKind = 3,
    /// A line with a field more than its kind has.
    TooManyFields = 4,
    /// A field, or several put together, that make no domain name.
    Name = 5,
    /// No address, or no prefix of one.
    Address = 6,
    /// No number, or one too large.
    Number = 7,
    /// No time.
    Time = 8,
    /// No client location.
    Lo = 9,
    /// A backslash without three octal digits of at most 377.
    Escape = 10,
    /// A type number that generic lines can't have.
    ForbiddenType = 11,
    /// An empty field where something must stand.
    Empty = 12,
    /// The records need more room than the buffer has.
    NoRoom = 13,
}

impl Fault {
    const ALL: [Fault; 13] = [
        Fault::SourceTooLong,
        Fault::LineTooLong,
        Fault::UnknownKind,
        Fault::TooManyFields,
        Fault::Name,
        Fault::Address,
        Fault::Number,
        Fault::Time,
        Fault::Lo,
        Fault::Escape,
        Fault::ForbiddenType,
        Fault::Empty,
        Fault::NoRoom,
    ];

    pub(crate) fn from_number(number: u64) -> Option<Fault> {
        Fault::ALL
            .into_iter()
            .find(|fault| fault.number() == number)
    }

    /// The number by which the library names the fault.
    pub fn number(self) -> u64 {
        self as u64
    }

    /// The fault in plain words.
    pub fn words(self) -> &'static str {
        match self {
            Fault::SourceTooLong => "source too long",
            Fault::LineTooLong => "line too long",
            Fault::UnknownKind => "unknown kind",
            Fault::TooManyFields => "too many fields",
            Fault::Name => "name",
            Fault::Address => "address or prefix",
            Fault::Number => "number",
            Fault::Time => "time",
            Fault::Lo => "location",
            Fault::Escape => "escape",
            Fault::ForbiddenType => "type 0, 2, 5, 6, 12, 15 or 252",
            Fault::Empty => "empty field",
            Fault::NoRoom => "no room",
        }
    }
}

/// A source that wasn't compiled, and where it is at fault.
#[derive(Clone, Copy, Debug, PartialEq, Eq, Hash)]
#[non_exhaustive]
pub struct Refusal {
    /// What is wrong.
    pub fault: Fault,
    /// The line, from 1; 0 if it is no single line.
    pub line: u64,
    /// The field, from 1; 0 if it is no single field.
    pub field: u64,
    /// For [`Fault::NoRoom`] how many bytes are needed, else 0.
    pub needed: u64,
}

impl fmt::Display for Refusal {
    fn fmt(&self, f: &mut fmt::Formatter<'_>) -> fmt::Result {
        match (self.line, self.field) {
            (0, _) => (),
            (line, 0) => write!(f, "line {line}: ")?,
            (line, field) => write!(f, "line {line}, field {field}: ")?,
        }
        write!(f, "refused {}: {}", self.fault.number(), self.fault.words())?;
        if self.fault == Fault::NoRoom {
            write!(f, ", {} bytes needed", self.needed)?;
        }
        Ok(())
    }
}

impl Error for Refusal {}

/// Why a question wasn't answered.
#[derive(Clone, Copy, Debug, PartialEq, Eq, Hash)]
#[non_exhaustive]
#[repr(u64)]
pub enum AskRefusal {
    /// The bytes aren't whole records as compiling writes them.
    Records = 14,
    /// The name isn't one whole name on the wire.
    Name = 15,
    /// The moment is 2^63 or more.
    Moment = 16,
    /// The client address has neither 4 nor 16 bytes.
    Client = 17,
}

impl AskRefusal {
    pub(crate) fn from_number(number: u64) -> Option<AskRefusal> {
        match number {
            14 => Some(AskRefusal::Records),
            15 => Some(AskRefusal::Name),
            16 => Some(AskRefusal::Moment),
            17 => Some(AskRefusal::Client),
            _ => None,
        }
    }

    /// The number by which the library names the refusal.
    pub fn number(self) -> u64 {
        self as u64
    }

    /// The refusal in plain words.
    pub fn words(self) -> &'static str {
        match self {
            AskRefusal::Records => "these bytes aren't whole records",
            AskRefusal::Name => "question name malformed",
            AskRefusal::Moment => "moment 2^63 or more",
            AskRefusal::Client => "client address neither 4 nor 16 bytes",
        }
    }
}

impl fmt::Display for AskRefusal {
    fn fmt(&self, f: &mut fmt::Formatter<'_>) -> fmt::Result {
        write!(f, "refused {}: {}", self.number(), self.words())
    }
}

impl Error for AskRefusal {}

#[cfg(test)]
mod tests {
    use super::*;

    #[test]
    fn numbers_lead_back() {
        for (number, fault) in (1..).zip(Fault::ALL) {
            assert_eq!(fault.number(), number);
            assert_eq!(Fault::from_number(number), Some(fault));
        }
        assert_eq!(Fault::from_number(0), None);
        assert_eq!(Fault::from_number(14), None);
        for number in 14..=17 {
            let refusal = AskRefusal::from_number(number).unwrap();
            assert_eq!(refusal.number(), number);
        }
        assert_eq!(AskRefusal::from_number(18), None);
    }

    #[test]
    fn refusals_read_plainly() {
        let refusal = |fault, line, field, needed| {
            let refusal = Refusal {
                fault,
                line,
                field,
                needed,
            };
            refusal.to_string()
        };
        assert_eq!(
            refusal(Fault::SourceTooLong, 0, 0, 0),
            "refused 1: source too long"
        );
        assert_eq!(
            refusal(Fault::UnknownKind, 7, 0, 0),
            "line 7: refused 3: unknown kind"
        );
        assert_eq!(
            refusal(Fault::Lo, 7, 5, 0),
            "line 7, field 5: refused 9: location"
        );
        assert_eq!(
            refusal(Fault::NoRoom, 0, 0, 32),
            "refused 13: no room, 32 bytes needed"
        );
    }
}
