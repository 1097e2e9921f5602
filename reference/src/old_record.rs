//! The record before document 02, point 11: one byte a place, 1 for what is there and 0 for nothing.

use crate::state::State;
use std::collections::BTreeSet;

/// Users 32, areas 32, objects 64, owners 1,024, definitions 2,048, structure 1,024, imports 2,048, exports 2,048.
pub const OLD_RECORD_BYTES: usize = 32 + 32 + 64 + 1024 + 2048 + 1024 + 2048 + 2048;

/// Areas are the second member of every pair, so a row of a relation has as many places as there are areas.
const ROW: usize = State::AREAS as usize;

/// The old record of the state, whose numbers are in their ranges.
pub fn to_old_record(state: &State) -> Vec<u8> {
    let mut record = Vec::with_capacity(OLD_RECORD_BYTES);
    put_list(&mut record, &state.users, 32);
    put_list(&mut record, &state.areas, 32);
    put_list(&mut record, &state.objects, 64);
    put_pairs(&mut record, &state.owners, 32);
    put_pairs(&mut record, &state.definitions, 64);
    put_pairs(&mut record, &state.structure, 32);
    put_pairs(&mut record, &state.imports, 64);
    put_pairs(&mut record, &state.exports, 64);
    record
}

/// Appends the places of one list.
fn put_list(record: &mut Vec<u8>, list: &BTreeSet<u8>, places: usize) {
    let start = record.len();
    record.resize(start + places, 0);
    for &number in list {
        record[start + usize::from(number)] = 1;
    }
}

/// Appends the places of one relation: the place of a pair is first * 32 + second.
fn put_pairs(record: &mut Vec<u8>, pairs: &BTreeSet<(u8, u8)>, rows: usize) {
    let start = record.len();
    record.resize(start + rows * ROW, 0);
    for &(first, second) in pairs {
        record[start + usize::from(first) * ROW + usize::from(second)] = 1;
    }
}

/// The state of an old record; `None` for another length than 8,320, or a byte other than 0 and 1.
pub fn from_old_record(record: &[u8]) -> Option<State> {
    if record.len() != OLD_RECORD_BYTES || record.iter().any(|&byte| byte > 1) {
        return None;
    }
    let mut rest = record;
    Some(State {
        users: take_list(&mut rest, 32),
        areas: take_list(&mut rest, 32),
        objects: take_list(&mut rest, 64),
        owners: take_pairs(&mut rest, 32),
        definitions: take_pairs(&mut rest, 64),
        structure: take_pairs(&mut rest, 32),
        imports: take_pairs(&mut rest, 64),
        exports: take_pairs(&mut rest, 64),
    })
}

/// Takes the places of one list off the front.
fn take_list(rest: &mut &[u8], places: usize) -> BTreeSet<u8> {
    let (front, behind) = rest.split_at(places);
    *rest = behind;
    (0..=u8::MAX)
        .zip(front)
        .filter(|(_, &place)| place == 1)
        .map(|(number, _)| number)
        .collect()
}

/// Takes the places of one relation off the front.
fn take_pairs(rest: &mut &[u8], rows: usize) -> BTreeSet<(u8, u8)> {
    let (front, behind) = rest.split_at(rows * ROW);
    *rest = behind;
    let places = front.iter().enumerate().filter(|(_, &byte)| byte == 1);
    places.map(|(place, _)| ((place / ROW) as u8, (place % ROW) as u8)).collect()
}

/// The places of an old record, which are 0 or 1, eight to a byte: the first of the eight is the lowest bit. It is the
/// record of the same state: document 02, point 11: "old and new records stand for the same sound states one to one".
pub fn eight_to_a_byte(old: &[u8]) -> Vec<u8> {
    let byte = |eight: &[u8]| eight.iter().rev().fold(0, |byte, place| 2 * byte + place);
    old.chunks(8).map(byte).collect()
}
