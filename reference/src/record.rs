//! "Each state has one record: places that hold nothing have one fixed content."
//! Document 02, point 11: "Keep each relation as rows of bits, one row of 32 for each user, area or object".
//!
//! A row is four bytes, low byte first. A state is written as a set of places, each a bit of a byte, and read row by
//! row.

use crate::state::State;
use std::collections::BTreeSet;

/// Users 4, areas 4, objects 8, owners 128, definitions 256, structure 128, imports 256, exports 256.
pub const RECORD_BYTES: usize = 4 + 4 + 8 + 128 + 256 + 128 + 256 + 256;

/// The byte at which the rows of each list and each relation begin.
const USERS: usize = 0;
const AREAS: usize = 4;
const OBJECTS: usize = 8;
const OWNERS: usize = 16;
const DEFINITIONS: usize = 144;
const STRUCTURE: usize = 400;
const IMPORTS: usize = 528;
const EXPORTS: usize = 784;

/// "one row of 32"
const ROW: u8 = 32;
const ROW_BYTES: usize = 4;

/// What each bit of a byte adds to it, the lowest first.
const WEIGHTS: [u8; 8] = [1, 2, 4, 8, 16, 32, 64, 128];

/// A byte of the record, and which of its bits, 0 for the lowest.
type Place = (usize, usize);

/// The record of the state, whose numbers are in their ranges.
pub fn to_record(state: &State) -> Vec<u8> {
    let mut record = vec![0; RECORD_BYTES];
    for (byte, bit) in places(state) {
        record[byte] += WEIGHTS[bit];
    }
    record
}

/// The places of all that is listed and of all pairs, each once.
fn places(state: &State) -> Vec<Place> {
    let lists = [(USERS, &state.users), (AREAS, &state.areas), (OBJECTS, &state.objects)];
    let relations = [
        (OWNERS, &state.owners),
        (DEFINITIONS, &state.definitions),
        (STRUCTURE, &state.structure),
        (IMPORTS, &state.imports),
        (EXPORTS, &state.exports),
    ];
    let mut places = Vec::new();
    for (start, list) in lists {
        places.extend(list.iter().map(|number| place(start, number / ROW, number % ROW)));
    }
    for (start, pairs) in relations {
        places.extend(pairs.iter().map(|&(first, second)| place(start, first, second)));
    }
    places
}

/// Where a number below 32 stands in a row, counted from the byte at which the rows begin.
fn place(start: usize, row: u8, number: u8) -> Place {
    let [row, number] = [row, number].map(usize::from);
    (start + row * ROW_BYTES + number / 8, number % 8)
}

/// The state of a record; `None` for another length than 1,040. Every byte string of that length is a record.
pub fn from_record(record: &[u8]) -> Option<State> {
    if record.len() != RECORD_BYTES {
        return None;
    }
    Some(State {
        users: list(&record[USERS..AREAS]),
        areas: list(&record[AREAS..OBJECTS]),
        objects: list(&record[OBJECTS..OWNERS]),
        owners: pairs(&record[OWNERS..DEFINITIONS]).collect(),
        definitions: pairs(&record[DEFINITIONS..STRUCTURE]).collect(),
        structure: pairs(&record[STRUCTURE..IMPORTS]).collect(),
        imports: pairs(&record[IMPORTS..EXPORTS]).collect(),
        exports: pairs(&record[EXPORTS..]).collect(),
    })
}

/// The numbers of a list: those of the second row go on from 32.
fn list(rows: &[u8]) -> BTreeSet<u8> {
    pairs(rows).map(|(row, number)| row * ROW + number).collect()
}

/// The pairs of a row and a number in it.
fn pairs(rows: &[u8]) -> impl Iterator<Item = (u8, u8)> + '_ {
    let rows = (0..=u8::MAX).zip(rows.chunks_exact(ROW_BYTES));
    rows.flat_map(|(first, row)| numbers(row).map(move |second| (first, second)))
}

/// The numbers of a row: the binary digits of its first byte, lowest first, are for 0 to 7, those of the next for 8 on.
fn numbers(row: &[u8]) -> impl Iterator<Item = u8> + '_ {
    let digits = row.iter().flat_map(|byte| WEIGHTS.map(|weight| byte / weight % 2));
    (0..ROW).zip(digits).filter(|&(_, digit)| digit == 1).map(|(number, _)| number)
}
