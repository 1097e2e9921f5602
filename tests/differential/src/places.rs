//! What each bit of a record stands for. Bit n of byte m, 0 for the lowest, is place 8 * m + n.

use reference::RECORD_BYTES;
use std::fmt::{self, Display, Formatter};

pub const PLACES: usize = 8 * RECORD_BYTES;

#[derive(Clone, Copy, Debug, PartialEq, Eq)]
pub enum Part {
    Users,
    Areas,
    Objects,
    Owners,
    Definitions,
    Structure,
    Imports,
    Exports,
}

/// The parts in the order of the record: how many rows of 32 each has, and what one of its places is called.
const PARTS: [(Part, usize, &str); 8] = [
    (Part::Users, 1, "user"),
    (Part::Areas, 1, "area"),
    (Part::Objects, 2, "object"),
    (Part::Owners, 32, "owner"),
    (Part::Definitions, 64, "definition"),
    (Part::Structure, 32, "structure"),
    (Part::Imports, 64, "import"),
    (Part::Exports, 64, "export"),
];

/// A number in a list, which is `first`, or a pair in a relation.
pub struct Meaning {
    pub part: Part,
    pub first: u8,
    pub second: u8,
    name: &'static str,
}

/// What a place of a record stands for.
pub fn meaning(place: usize) -> Meaning {
    let (mut row, second) = (place / 32, (place % 32) as u8);
    for (part, rows, name) in PARTS {
        if row < rows {
            let first = row as u8;
            let (first, second) = match part {
                Part::Users | Part::Areas | Part::Objects => (32 * first + second, 0),
                _ => (first, second),
            };
            return Meaning {
                part,
                first,
                second,
                name,
            };
        }
        row -= rows;
    }
    panic!("{place} is no place of a record");
}

impl Display for Meaning {
    fn fmt(&self, to: &mut Formatter) -> fmt::Result {
        let Meaning {
            first, second, name, ..
        } = self;
        match self.part {
            Part::Users | Part::Areas | Part::Objects => write!(to, "{name} {first}"),
            _ => write!(to, "{name} ({first}, {second})"),
        }
    }
}

pub fn bit(record: &[u8], place: usize) -> u8 {
    record[place / 8] >> (place % 8) & 1
}

pub fn turn(record: &mut [u8], place: usize) {
    record[place / 8] ^= 1 << (place % 8);
}
