//! What an answer doesn't depend on, by the lines: those of other towns, and
//! moments between which no time lies. Sources are accepted ones throughout.

use crate::line::{self, is_ignored, kind, stripped};
use crate::meaning;
use crate::values::{self, Lo};

/// The lines that count for a client.
#[derive(Clone, Debug, PartialEq, Eq)]
pub struct Share<'a> {
    /// The `%` lines, in their order.
    pub locations: Vec<&'a [u8]>,
    /// The others, in theirs: those without a lo, and the client's own.
    pub others: Vec<&'a [u8]>,
}

/// Whether a client is answered the same by both sources, compiled with the
/// same serial.
pub fn alike(first: &[u8], second: &[u8], client: &[u8]) -> bool {
    share(first, client) == share(second, client)
}

/// The lines of a source that count for a client.
pub fn share<'a>(source: &'a [u8], client: &[u8]) -> Share<'a> {
    let location = location(source, client);
    let (locations, mut others): (Vec<_>, Vec<_>) = lines(source).partition(|line| is_place(line));
    others.retain(|line| is_for(line, location));
    Share { locations, others }
}

/// Where a client is, by the `%` lines alone.
pub fn location(source: &[u8], client: &[u8]) -> Option<Lo> {
    let mut records = Vec::new();
    for line in lines(source).filter(|line| is_place(line)) {
        line::read(line, 0, &mut records).ok()?;
    }
    meaning::location(&records, client)
}

/// Whether a line other than a `%` line counts for clients of a location: it
/// has no lo or theirs. Clients without a location have no lines of their own.
pub fn is_for(line: &[u8], location: Option<Lo>) -> bool {
    let lo = field_from_end(line, 0);
    lo.is_empty() || Lo::parse(lo) == location
}

/// Whether no time of a source lies after the earlier moment and not after
/// the later one: then both moments show the same records.
pub fn steady(source: &[u8], earlier: u64, later: u64) -> bool {
    !times(source).any(|time| earlier < time && time <= later)
}

/// The times of a source's lines.
pub fn times(source: &[u8]) -> impl Iterator<Item = u64> + '_ {
    let others = lines(source).filter(|line| !is_place(line));
    others.filter_map(|line| values::time(field_from_end(line, 1)))
}

/// The lines that aren't ignored, without the blanks at their ends.
fn lines(source: &[u8]) -> impl Iterator<Item = &[u8]> {
    let lines = source.split(|&byte| byte == b'\n').map(stripped);
    lines.filter(|line| !is_ignored(line))
}

fn is_place(line: &[u8]) -> bool {
    line.starts_with(b"%")
}

/// A field of a line that isn't a `%` line, counted back from the last one of
/// its kind: 0 is lo, 1 is time. Empty where the line ends before it.
fn field_from_end(line: &[u8], back: usize) -> &[u8] {
    let field = line.split_first().and_then(|(&first, rest)| {
        let (count, _) = kind(first)?;
        rest.split(|&byte| byte == b':').nth(count - 1 - back)
    });
    field.unwrap_or_default()
}
