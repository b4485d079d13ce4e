//! Names that belong together or look as if they did, and questions about
//! them.

use crate::names;
use crate::questions;
use crate::random::Random;
use crate::reading::Asked;

/// Few names, many of them ancestors of each other.
pub struct Family {
    /// Each as its labels.
    names: Vec<Vec<Vec<u8>>>,
}

impl Family {
    /// Names that lines can have.
    pub fn written(random: &mut Random) -> Family {
        match random.below(8) {
            0 => Family::deep(random),
            1 => Family::alike(vec![b'a'; 33], b"!"),
            2 => Family::twins(random, |_| b'x'),
            _ => Family::near(),
        }
    }

    /// Names that only record bytes can have, too.
    pub fn of_any_bytes(random: &mut Random) -> Family {
        match random.below(8) {
            0 => Family::deep(random),
            1 => Family::alike(b"b".to_vec(), b"z\x01"),
            2 => Family::alike(b"\0".to_vec(), b"\x01"),
            3 => Family::alike(b"*".to_vec(), b"\x01"),
            4 => Family::twins(random, |byte| byte ^ 0x80),
            5 => Family::twins(random, |byte| match byte {
                // They differ as an upper case letter does from a lower case one.
                b'[' => b'{',
                _ => byte ^ 1,
            }),
            _ => Family::near(),
        }
    }

    fn near() -> Family {
        Family::of(&[
            "", "b", "s.b", "t.s.b", "u.t.s.b", "h.b", "h.s.b", "h.t.s.b", "c", "s.c", "a.ns.s.b",
            "h",
        ])
    }

    /// The names that crowded sources have, and some below them.
    pub fn crowded() -> Family {
        Family::of(&["", "b", "a.b", "x.a.b", "*.b", "c.b", "y.x.a.b", "y.c.b"])
    }

    fn of(names: &[&str]) -> Family {
        let labels = |name: &str| {
            let labels = name.split('.').filter(|label| !label.is_empty());
            labels.map(|label| label.as_bytes().to_vec()).collect()
        };
        Family {
            names: names.iter().map(|name| labels(name)).collect(),
        }
    }

    /// A name of many labels with some of its ancestors.
    fn deep(random: &mut Random) -> Family {
        let most = random.pick(&[4, 20, 64, 125, 126, 127]);
        let depths = [0, 1, 2, most / 2, most - 2, most - 1, most];
        let deep = depths.map(|depth| vec![b"d".to_vec(); depth]);
        let mut other = deep[6].clone();
        other[0] = b"e".to_vec();
        let names = deep.into_iter().chain([other]);
        Family {
            names: names.collect(),
        }
    }

    /// A label, and one that ends in the first one's wire form: with `!`, which
    /// is 33, in front of 33 bytes, or with other bytes.
    fn alike(label: Vec<u8>, front: &[u8]) -> Family {
        let longer = [front, &label].concat();
        let h = b"h".to_vec();
        let parent = b"b".to_vec();
        let names = vec![
            vec![],
            vec![label.clone()],
            vec![longer.clone()],
            vec![h.clone(), label.clone()],
            vec![h, longer.clone()],
            vec![parent.clone()],
            vec![label, parent.clone()],
            vec![longer, parent],
        ];
        Family { names }
    }

    /// A name with its ancestors, and the same with one byte changed.
    fn twins(random: &mut Random, change: fn(u8) -> u8) -> Family {
        let first = random.within(1, 40);
        let name = vec![
            b"h".to_vec(),
            vec![b'a'; first],
            vec![b'['; 7],
            b"b".to_vec(),
        ];
        let mut twin = name.clone();
        let place = random.below(twin.len());
        let byte = random.below(twin[place].len());
        twin[place][byte] = change(twin[place][byte]);
        let chains = [name, twin].map(|name| (0..4).map(move |cut| name[cut..].to_vec()));
        Family {
            names: chains.into_iter().flatten().collect(),
        }
    }

    /// One of the names, as its labels.
    pub fn name(&self, random: &mut Random) -> &[Vec<u8>] {
        &self.names[random.below(self.names.len())]
    }

    /// A question about one of the names, or one below it.
    pub fn question(&self, random: &mut Random) -> Asked {
        let mut name = wire(self.name(random));
        if random.once_in(4) {
            let label = names::label(random);
            name.splice(..0, label.iter().copied());
            name.insert(0, label.len() as u8);
        }
        if random.once_in(8) {
            name.make_ascii_uppercase();
        }
        Asked {
            name,
            record_type: random.pick(&[1, 1, 1, 2, 2, 6, 16, 5, 255, 255, 65_535]),
            client: questions::client(random),
            moment: questions::moment(random),
        }
    }
}

/// The wire form of some labels.
pub fn wire(labels: &[Vec<u8>]) -> Vec<u8> {
    let mut wire = Vec::new();
    for label in labels {
        wire.push(label.len() as u8);
        wire.extend(label);
    }
    wire.push(0);
    wire
}
