//! Few names, and all that is made up about them for several towns.

use crate::family::Family;
use crate::lines::{field_from_end, with_field};
use crate::random::Random;
use crate::reading::Asked;
use crate::town_lines::{insert, is_place, Lines, LOS};
use crate::{sources, zones};

/// Few names, and how lines or records about them are made.
pub struct Crowd {
    family: Family,
    sort: Sort,
}

#[derive(Clone, Copy, PartialEq, Eq)]
enum Sort {
    /// Lines crowded around them.
    Crowded,
    /// Zones and delegations.
    Zones,
    /// Record bytes, since lines can't have all of the names.
    AnyBytes,
}

impl Crowd {
    /// Names that lines can have.
    pub fn new(random: &mut Random) -> Crowd {
        match random.once_in(3) {
            true => Crowd {
                family: Family::crowded(),
                sort: Sort::Crowded,
            },
            false => Crowd {
                family: Family::written(random),
                sort: Sort::Zones,
            },
        }
    }

    /// Names that only record bytes can have, too.
    pub fn of_any_bytes(random: &mut Random) -> Crowd {
        Crowd {
            family: Family::of_any_bytes(random),
            sort: Sort::AnyBytes,
        }
    }

    /// Record bytes about names that lines can't all have. Most pass the
    /// reader.
    pub fn stream(&self, random: &mut Random) -> Option<Vec<u8>> {
        (self.sort == Sort::AnyBytes).then(|| zones::stream(&self.family, random))
    }

    /// Lines about the names.
    pub fn lines(&self, random: &mut Random) -> Lines {
        let source = match self.sort {
            Sort::Crowded => sources::crowded(random),
            _ => zones::source(&self.family, &zones::TIMES, random),
        };
        let mut lines = Vec::new();
        for line in source.split(|&byte| byte == b'\n') {
            if line.is_empty() {
                continue;
            }
            lines.push(line.to_vec());
            if !is_place(line) && random.once_in(6) {
                lines.push(of_other_kind(line, random));
            }
        }
        lines
    }

    /// A question about the names, often for all types.
    pub fn question(&self, random: &mut Random) -> Asked {
        let asked = self.family.question(random);
        match random.once_in(2) {
            true => Asked {
                record_type: 255,
                ..asked
            },
            false => asked,
        }
    }

    /// Lines about the names, with more towns and more `%` lines.
    pub fn town_lines(&self, random: &mut Random) -> Lines {
        let mut lines = self.lines(random);
        if random.once_in(2) {
            // The root's zone makes most names ours, for every town.
            insert(&mut lines, b".".to_vec(), random);
        }
        for line in lines.iter_mut().filter(|line| !is_place(line)) {
            if random.once_in(4) {
                *line = with_field(line, 0, random.pick(&LOS).as_bytes());
            }
        }
        for _ in 0..random.below(4) {
            let lo = random.pick(&LOS);
            let prefix = random.pick(&["", "10", "10.1", "10.1", "10.1.168", "192"]);
            insert(&mut lines, format!("%{lo}:{prefix}").into_bytes(), random);
        }
        lines
    }
}

/// A line with the owner and the ending of another, of a kind that the sources
/// don't have.
fn of_other_kind(line: &[u8], random: &mut Random) -> Vec<u8> {
    let (kind, middle) = random.pick(&[
        ("=", ":10.1.168.192:"),
        ("@", "::x.y:5:"),
        ("S", "::x.y:80:::"),
        ("^", ":p:"),
        (":", ":99:x:"),
    ]);
    let owner = line[1..].split(|&byte| byte == b':').next();
    let ending = [2, 1, 0].map(|back| field_from_end(line, back)).join(&b':');
    let middle = middle.as_bytes();
    [kind.as_bytes(), owner.unwrap_or_default(), middle, &ending].concat()
}
