//! One line: its kind, its fields, and the records it means.

use crate::fault::{Fault, LineFault};
use crate::fields::{Ending, Fields, Server, Taken};
use crate::name::Name;
use crate::record::{types, Record, Resource};
use crate::values::Address;

/// Most bytes of a line, blanks at its end included.
const LONGEST_LINE: usize = 1024;
/// Most bytes of a string in a TXT record that we write.
const LONGEST_CHUNK: usize = 127;
/// The SOA's refresh, retry, expire and minimum where none is given.
const SOA_DEFAULTS: [u32; 4] = [16_384, 2_048, 1_048_576, 2_560];
/// The time to live of SOA records where none is given.
const SOA_TTL: u32 = 2_560;

/// How many fields a kind has, and its default time to live.
pub fn kind(byte: u8) -> Option<(usize, u32)> {
    match byte {
        b'%' => Some((2, 0)),
        b'.' | b'&' => Some((6, 259_200)),
        b'=' | b'+' | b'\'' | b'^' | b'C' => Some((5, 86_400)),
        b'@' => Some((7, 86_400)),
        b'S' => Some((9, 86_400)),
        b'Z' => Some((11, SOA_TTL)),
        b':' => Some((6, 86_400)),
        _ => None,
    }
}

/// A line without the blanks at its end.
pub fn stripped(line: &[u8]) -> &[u8] {
    let blanks = line.iter().rev().take_while(|&&b| b == b' ' || b == b'\t');
    &line[..line.len() - blanks.count()]
}

/// Whether a stripped line says nothing.
pub fn is_ignored(line: &[u8]) -> bool {
    matches!(line.first(), None | Some(b'#' | b'-'))
}

/// Reads a line and puts its records, in order, behind those in `records`.
/// After a fault, what was put there means nothing.
pub fn read(line: &[u8], serial: u32, records: &mut Vec<Record>) -> Taken<()> {
    if line.len() > LONGEST_LINE {
        return Err(LineFault::of_line(Fault::LineTooLong));
    }
    let line = stripped(line);
    if is_ignored(line) {
        return Ok(());
    }
    let (first, rest) = (line[0], &line[1..]);
    let Some((count, default_ttl)) = kind(first) else {
        return Err(LineFault::of_line(Fault::UnknownKind));
    };
    let mut fields = Fields::split(rest, count)?;
    if first == b'%' {
        let lo = fields.given_lo()?;
        let prefix = fields.prefix()?;
        records.push(Record::Location { prefix, lo });
        return Ok(());
    }
    let owner = fields.name()?;
    let mut sheet = Sheet { records, owner };
    match first {
        b'.' | b'&' => name_server(&mut sheet, fields, default_ttl, first, serial),
        b'=' | b'+' => host(&mut sheet, fields, default_ttl, first),
        b'@' => mail_exchanger(&mut sheet, fields, default_ttl),
        b'S' => service(&mut sheet, fields, default_ttl),
        b'\'' => text(&mut sheet, fields, default_ttl),
        b'^' => pointer(&mut sheet, fields, default_ttl, types::PTR),
        b'C' => pointer(&mut sheet, fields, default_ttl, types::CNAME),
        b'Z' => authority(&mut sheet, fields, default_ttl, serial),
        _ => generic(&mut sheet, fields, default_ttl),
    }
}

/// The records of a line in the making, with the line's own name.
struct Sheet<'r> {
    records: &'r mut Vec<Record>,
    owner: Name,
}

impl Sheet<'_> {
    fn add(&mut self, owner: Name, record_type: u16, ending: Ending, data: Vec<u8>) {
        self.records.push(Record::Resource(Resource {
            owner,
            record_type,
            ttl: ending.ttl,
            time: ending.time,
            lo: ending.lo,
            data,
        }));
    }

    fn add_own(&mut self, record_type: u16, ending: Ending, data: Vec<u8>) {
        self.add(self.owner.clone(), record_type, ending, data);
    }

    fn add_address(&mut self, owner: Name, address: Option<Address>, ending: Ending) {
        match address {
            None => (),
            Some(Address::V4(bytes)) => self.add(owner, types::A, ending, bytes.to_vec()),
            Some(Address::V6(bytes)) => self.add(owner, types::AAAA, ending, bytes.to_vec()),
        }
    }

    /// The name of a server, put together from x and the line's name.
    fn server_name(&self, server: Server<'_>, middle: &[u8]) -> Taken<Name> {
        match server {
            Server::Default => self.below(&[middle]),
            Server::Label(label) => self.below(&[label, middle]),
            Server::Name(name) => Ok(name),
        }
    }

    /// The only fault of names put together is their length; it has no field.
    fn below(&self, labels: &[&[u8]]) -> Taken<Name> {
        self.owner
            .under(labels)
            .ok_or(LineFault::of_line(Fault::Name))
    }
}

fn name_server(
    sheet: &mut Sheet<'_>,
    mut fields: Fields<'_>,
    default_ttl: u32,
    kind: u8,
    serial: u32,
) -> Taken<()> {
    let address = fields.address()?;
    let server = fields.server()?;
    let ending = fields.ending(default_ttl)?;
    let server = sheet.server_name(server, b"ns")?;
    if kind == b'.' {
        let contact = sheet.below(&[b"hostmaster"])?;
        // A SOA that kept its own ttl would start where the line ends.
        let ttl = if ending.ttl == 0 { 0 } else { SOA_TTL };
        let data = soa_data(&server, &contact, serial, SOA_DEFAULTS);
        sheet.add_own(types::SOA, Ending { ttl, ..ending }, data);
    }
    sheet.add_own(types::NS, ending, server.wire().to_vec());
    sheet.add_address(server, address, ending);
    Ok(())
}

fn host(sheet: &mut Sheet<'_>, mut fields: Fields<'_>, default_ttl: u32, kind: u8) -> Taken<()> {
    let address = fields.given_address()?;
    let ending = fields.ending(default_ttl)?;
    sheet.add_address(sheet.owner.clone(), Some(address), ending);
    if kind == b'=' {
        let data = sheet.owner.wire().to_vec();
        sheet.add(reverse_name(address), types::PTR, ending, data);
    }
    Ok(())
}

/// The name under which an address is looked up.
fn reverse_name(address: Address) -> Name {
    let text = match address {
        Address::V4([a, b, c, d]) => format!("{d}.{c}.{b}.{a}.in-addr.arpa"),
        Address::V6(bytes) => {
            let number = u128::from_be_bytes(bytes);
            let digits = (0..32).map(|place| format!("{:x}.", number >> (4 * place) & 15));
            digits.collect::<String>() + "ip6.arpa"
        }
    };
    Name::parse(text.as_bytes()).expect("short labels of digits and letters")
}

fn mail_exchanger(sheet: &mut Sheet<'_>, mut fields: Fields<'_>, default_ttl: u32) -> Taken<()> {
    let address = fields.address()?;
    let server = fields.server()?;
    let distance = fields.short_number()?;
    let ending = fields.ending(default_ttl)?;
    let server = sheet.server_name(server, b"mx")?;
    let data = [&distance.to_be_bytes(), server.wire()].concat();
    sheet.add_own(types::MX, ending, data);
    sheet.add_address(server, address, ending);
    Ok(())
}

fn service(sheet: &mut Sheet<'_>, mut fields: Fields<'_>, default_ttl: u32) -> Taken<()> {
    let address = fields.address()?;
    let server = fields.server()?;
    let port = fields.given_short_number()?;
    let priority = fields.short_number()?;
    let weight = fields.short_number()?;
    let ending = fields.ending(default_ttl)?;
    let server = sheet.server_name(server, b"srv")?;
    // The data's order isn't that of the fields.
    let numbers = [priority, weight, port].map(u16::to_be_bytes).concat();
    let data = [&numbers, server.wire()].concat();
    sheet.add_own(types::SRV, ending, data);
    sheet.add_address(server, address, ending);
    Ok(())
}

fn text(sheet: &mut Sheet<'_>, mut fields: Fields<'_>, default_ttl: u32) -> Taken<()> {
    let text = fields.text()?;
    let ending = fields.ending(default_ttl)?;
    let mut data = Vec::with_capacity(text.len() + text.len() / LONGEST_CHUNK + 1);
    for chunk in text.chunks(LONGEST_CHUNK) {
        data.push(chunk.len() as u8);
        data.extend_from_slice(chunk);
    }
    sheet.add_own(types::TXT, ending, data);
    Ok(())
}

fn pointer(
    sheet: &mut Sheet<'_>,
    mut fields: Fields<'_>,
    default_ttl: u32,
    record_type: u16,
) -> Taken<()> {
    let target = fields.given_name()?;
    let ending = fields.ending(default_ttl)?;
    sheet.add_own(record_type, ending, target.wire().to_vec());
    Ok(())
}

fn authority(
    sheet: &mut Sheet<'_>,
    mut fields: Fields<'_>,
    default_ttl: u32,
    serial: u32,
) -> Taken<()> {
    let primary = fields.given_name()?;
    let contact = fields.given_name()?;
    let serial = fields.number(u32::MAX, serial)?;
    let mut numbers = SOA_DEFAULTS;
    for number in &mut numbers {
        *number = fields.number(u32::MAX, *number)?;
    }
    let ending = fields.ending(default_ttl)?;
    let data = soa_data(&primary, &contact, serial, numbers);
    sheet.add_own(types::SOA, ending, data);
    Ok(())
}

fn soa_data(primary: &Name, contact: &Name, serial: u32, numbers: [u32; 4]) -> Vec<u8> {
    let numbers = numbers.map(u32::to_be_bytes).concat();
    [
        primary.wire(),
        contact.wire(),
        &serial.to_be_bytes(),
        &numbers,
    ]
    .concat()
}

fn generic(sheet: &mut Sheet<'_>, mut fields: Fields<'_>, default_ttl: u32) -> Taken<()> {
    let record_type = fields.free_type()?;
    let data = fields.text()?;
    let ending = fields.ending(default_ttl)?;
    sheet.add_own(record_type, ending, data);
    Ok(())
}
