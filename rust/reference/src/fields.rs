//! The fields of a line, taken one after another from the left.

use crate::fault::{Fault, LineFault};
use crate::name::{is_label, Name};
use crate::values::{self, Address, Lo};

/// The most fields a kind has.
const MOST_FIELDS: usize = 11;
/// The largest time to live.
const LONGEST_TTL: u32 = 2_147_483_647;

/// A field read, or the fault with the field's number.
pub type Taken<T> = Result<T, LineFault>;

/// The fields of one line. Each call takes the next one, so faults come in
/// the order of the fields.
pub struct Fields<'a> {
    parts: [&'a [u8]; MOST_FIELDS],
    taken: usize,
}

/// The server of a line: which name its records point to.
pub enum Server<'a> {
    /// Nothing given: the middle label in front of the line's name.
    Default,
    /// One label in front of that.
    Label(&'a [u8]),
    /// A name of its own.
    Name(Name),
}

/// What every resource line ends with.
#[derive(Clone, Copy)]
pub struct Ending {
    /// Time to live.
    pub ttl: u32,
    /// Start or end.
    pub time: Option<u64>,
    /// Location.
    pub lo: Option<Lo>,
}

impl<'a> Fields<'a> {
    /// Splits what stands behind the kind; fields missing at the end are empty.
    pub fn split(rest: &'a [u8], count: usize) -> Taken<Fields<'a>> {
        let mut parts = [&rest[..0]; MOST_FIELDS];
        for (place, part) in rest.split(|&byte| byte == b':').enumerate() {
            if place == count {
                return Err(LineFault::of_line(Fault::TooManyFields));
            }
            parts[place] = part;
        }
        Ok(Fields { parts, taken: 0 })
    }

    fn next(&mut self) -> &'a [u8] {
        let part = self.parts[self.taken];
        self.taken += 1;
        part
    }

    fn next_filled(&mut self) -> Taken<&'a [u8]> {
        let part = self.next();
        if part.is_empty() {
            return Err(self.fault(Fault::Empty));
        }
        Ok(part)
    }

    /// The fault, at the field taken last.
    fn fault(&self, fault: Fault) -> LineFault {
        let field = self.taken as u64;
        LineFault { fault, field }
    }

    /// A name; empty is the root.
    pub fn name(&mut self) -> Taken<Name> {
        Name::parse(self.next()).ok_or(self.fault(Fault::Name))
    }

    /// A name that must be given.
    pub fn given_name(&mut self) -> Taken<Name> {
        Name::parse(self.next_filled()?).ok_or(self.fault(Fault::Name))
    }

    /// An address, or none.
    pub fn address(&mut self) -> Taken<Option<Address>> {
        match self.next() {
            b"" => Ok(None),
            part => self.read_address(part).map(Some),
        }
    }

    /// An address that must be given.
    pub fn given_address(&mut self) -> Taken<Address> {
        let part = self.next_filled()?;
        self.read_address(part)
    }

    fn read_address(&self, part: &[u8]) -> Taken<Address> {
        values::address(part).ok_or(self.fault(Fault::Address))
    }

    /// An address prefix; empty is the prefix of every address.
    pub fn prefix(&mut self) -> Taken<Vec<u8>> {
        values::prefix(self.next()).ok_or(self.fault(Fault::Address))
    }

    /// The server field x.
    pub fn server(&mut self) -> Taken<Server<'a>> {
        let part = self.next();
        let server = if part.is_empty() {
            Some(Server::Default)
        } else if part.contains(&b'.') {
            Name::parse(part).map(Server::Name)
        } else {
            is_label(part).then_some(Server::Label(part))
        };
        server.ok_or(self.fault(Fault::Name))
    }

    /// A number, or its default where the field is empty.
    pub fn number(&mut self, most: u32, default: u32) -> Taken<u32> {
        match self.next() {
            b"" => Ok(default),
            part => self.read_number(part, most),
        }
    }

    /// A 16-bit number, or 0 where the field is empty.
    pub fn short_number(&mut self) -> Taken<u16> {
        self.number(u16::MAX.into(), 0).map(|number| number as u16)
    }

    /// A 16-bit number that must be given.
    pub fn given_short_number(&mut self) -> Taken<u16> {
        let part = self.next_filled()?;
        self.read_number(part, u16::MAX.into())
            .map(|number| number as u16)
    }

    fn read_number(&self, part: &[u8], most: u32) -> Taken<u32> {
        values::number(part, most).ok_or(self.fault(Fault::Number))
    }

    /// The number of a record type that has no kind of line of its own.
    pub fn free_type(&mut self) -> Taken<u16> {
        match self.given_short_number()? {
            0 | 2 | 5 | 6 | 12 | 15 | 252 => Err(self.fault(Fault::ForbiddenType)),
            number => Ok(number),
        }
    }

    /// Text, its escapes taken out.
    pub fn text(&mut self) -> Taken<Vec<u8>> {
        values::text(self.next()).ok_or(self.fault(Fault::Escape))
    }

    /// A location that must be given.
    pub fn given_lo(&mut self) -> Taken<Lo> {
        Lo::parse(self.next_filled()?).ok_or(self.fault(Fault::Lo))
    }

    /// The last three fields of a resource line.
    pub fn ending(&mut self, default_ttl: u32) -> Taken<Ending> {
        let ttl = self.number(LONGEST_TTL, default_ttl)?;
        let time = match self.next() {
            b"" => None,
            part => Some(values::time(part).ok_or(self.fault(Fault::Time))?),
        };
        let lo = match self.next() {
            b"" => None,
            part => Some(Lo::parse(part).ok_or(self.fault(Fault::Lo))?),
        };
        Ok(Ending { ttl, time, lo })
    }
}
