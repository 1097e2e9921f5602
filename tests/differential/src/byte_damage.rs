//! What can be wrong with the bytes of a site file, a function each. Some files stay right.

#![expect(clippy::ptr_arg, reason = "all of them have one type, and some change the length")]

use crate::draft::{HEADER_BYTES, MOST};
use chance::Chance;

pub type ByteDamage = fn(&mut Vec<u8>, &mut Chance);

pub const BYTE_DAMAGES: [ByteDamage; 13] = [
    version,
    stated_length,
    count,
    offset,
    cut,
    cut_and_stated,
    appended,
    appended_and_stated,
    byte_changed,
    gap,
    header_cut,
    wild,
    very_long,
];

/// Puts a number into a field of the header, if the file has that field.
fn put_field(file: &mut [u8], field: usize, number: u16) {
    if let Some(bytes) = file.get_mut(2 * field..2 * field + 2) {
        bytes.copy_from_slice(&number.to_le_bytes());
    }
}

fn field(file: &[u8], field: usize) -> u16 {
    file.get(2 * field..2 * field + 2)
        .map_or(0, |bytes| u16::from_le_bytes([bytes[0], bytes[1]]))
}

fn state_length(file: &mut [u8]) {
    put_field(file, 1, file.len() as u16);
}

/// One more, one less, with the bytes swapped, or any.
fn other_number(number: u16, chance: &mut Chance) -> u16 {
    let any = chance.below(65536) as u16;
    chance.pick(&[number.wrapping_add(1), number.wrapping_sub(1), number.swap_bytes(), any])
}

fn change_field(file: &mut [u8], place: usize, chance: &mut Chance) {
    put_field(file, place, other_number(field(file, place), chance));
}

fn version(file: &mut Vec<u8>, chance: &mut Chance) {
    change_field(file, 0, chance);
}

fn stated_length(file: &mut Vec<u8>, chance: &mut Chance) {
    change_field(file, 1, chance);
}

/// Also the limit, and one above it, whatever the table holds.
fn count(file: &mut Vec<u8>, chance: &mut Chance) {
    let table = chance.below(6);
    match chance.below(3) {
        0 => put_field(file, 2 + table, MOST[table] as u16),
        1 => put_field(file, 2 + table, MOST[table] as u16 + 1),
        _ => change_field(file, 2 + table, chance),
    }
}

fn offset(file: &mut Vec<u8>, chance: &mut Chance) {
    change_field(file, 8 + chance.below(6), chance);
}

/// A number of bytes: one, an entry of either kind, or any.
fn some_bytes(chance: &mut Chance) -> usize {
    let any = 1 + chance.below(100);
    chance.pick(&[1, 2, 32, any])
}

fn cut(file: &mut Vec<u8>, chance: &mut Chance) {
    file.truncate(file.len().saturating_sub(some_bytes(chance)));
}

fn cut_and_stated(file: &mut Vec<u8>, chance: &mut Chance) {
    cut(file, chance);
    state_length(file);
}

fn appended(file: &mut Vec<u8>, chance: &mut Chance) {
    let bytes = some_bytes(chance);
    file.extend((0..bytes).map(|_| chance.pick(&[0, 1, 255])));
}

fn appended_and_stated(file: &mut Vec<u8>, chance: &mut Chance) {
    appended(file, chance);
    state_length(file);
}

fn byte_changed(file: &mut Vec<u8>, chance: &mut Chance) {
    if !file.is_empty() {
        let (place, any) = (chance.below(file.len()), chance.byte());
        file[place] = chance.pick(&[file[place] ^ 1, file[place].wrapping_add(1), 0, any]);
    }
}

/// Bytes in front of a table, with its offset and all behind it, and the length, moved along.
fn gap(file: &mut Vec<u8>, chance: &mut Chance) {
    let (table, bytes) = (chance.below(6), 1 + chance.below(4));
    let place = usize::from(field(file, 8 + table)).min(file.len());
    file.splice(place..place, vec![0; bytes]);
    for later in table..6 {
        let moved = field(file, 8 + later).wrapping_add(bytes as u16);
        put_field(file, 8 + later, moved);
    }
    state_length(file);
}

fn header_cut(file: &mut Vec<u8>, chance: &mut Chance) {
    let any = chance.below(HEADER_BYTES);
    file.truncate(chance.pick(&[0, 1, 26, 27, 28, any]));
    if chance.once_in(2) {
        state_length(file);
    }
}

/// Any bytes, in half the files behind a header that lets them pass up to 23.
fn wild(file: &mut Vec<u8>, chance: &mut Chance) {
    let length = chance.below(200);
    *file = (0..length).map(|_| chance.byte()).collect();
    if chance.once_in(2) {
        put_field(file, 0, 1);
        state_length(file);
    }
}

/// So long that the length does not fit its field; what stands there is what is left of it in 16 bits.
fn very_long(file: &mut Vec<u8>, chance: &mut Chance) {
    let beyond = chance.pick(&[65535, 65536, 65537, 65536 + file.len()]);
    file.resize(beyond, 0);
    state_length(file);
}
