//! What a name server's index rests on: the records that an answer depends
//! on, given the asked name.

use crate::name::{is_wire_name, lower};
use crate::stream::{Entry, Stored, Stream};

/// The records of some bytes that can matter to questions for a name, in
/// their order: locations, and the records whose owner is the name, one of
/// its ancestors, or a wildcard of one of its ancestors. `None` where the
/// bytes aren't whole records, or the name isn't one.
pub fn relevant(records: &[u8], name: &[u8]) -> Option<Vec<u8>> {
    if !is_wire_name(name) {
        return None;
    }
    let name: Vec<u8> = name.iter().copied().map(lower).collect();
    let mut kept = Vec::new();
    let mut stream = Stream::new(records);
    loop {
        let start = stream.place();
        let Some(entry) = stream.next() else {
            return Some(kept);
        };
        let matters = match entry.ok()? {
            Entry::Location { .. } => true,
            Entry::Resource(stored) => owner_matters(&stored, &name),
        };
        if matters {
            kept.extend_from_slice(&records[start..stream.place()]);
        }
    }
}

/// Whether a record's owner is the name, an ancestor of it, or a wildcard of
/// an ancestor.
fn owner_matters(stored: &Stored<'_>, name: &[u8]) -> bool {
    if stored.key == name {
        return !stored.wildcard;
    }
    ancestors(name).any(|ancestor| ancestor == stored.key)
}

/// The ancestors of a name on the wire, the parent first, the root last.
fn ancestors(name: &[u8]) -> impl Iterator<Item = &[u8]> {
    std::iter::successors(parent(name), |ancestor| parent(ancestor))
}

/// The name behind the first label; the root has none.
fn parent(name: &[u8]) -> Option<&[u8]> {
    match *name.first()? {
        0 => None,
        length => name.get(1 + usize::from(length)..),
    }
}
