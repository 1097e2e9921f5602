//! The bytes of a site file as document 01 has them: refusals 21 to 27, which no state decides and both baselines
//! share, and the header as the ideal writer writes it.

use crate::rules::{AREAS, OBJECTS, USERS};
use std::array::from_fn;

pub const HEADER: usize = 28;
pub const LABEL: usize = 32;

/// The most bytes that a file of a sound state has: no area imports what it defines, so it has 1,984 imports at most.
pub const FILE_MOST: usize = HEADER + 2 * (1024 + 64 + 1024 + 1984 + 2048) + 32 * LABEL;

const LIMITS: [usize; 6] = [1024, 64, 1024, 2048, 2048, 32];
const SIZES: [usize; 6] = [2, 2, 2, 2, 2, LABEL];
/// What the first number of a pair is below, for each table of pairs.
const FIRSTS: [usize; 5] = [USERS, OBJECTS, AREAS, OBJECTS, OBJECTS];

pub type Pair = [u8; 2];
pub type Label = [u8; LABEL];

/// The tables of a file: owners, definitions, structure, imports, exports; and the labels.
pub struct Tables<'a> {
    pub pairs: [&'a [Pair]; 5],
    pub labels: &'a [Label],
}

/// The tables, or the refusal from 21 to 27.
pub fn tables(file: &[u8]) -> Result<Tables<'_>, u8> {
    let parts = parts(file)?;
    let pairs: [&[Pair]; 5] = from_fn(|k| parts[k].as_chunks().0);
    let labels: &[Label] = parts[5].as_chunks().0;
    let pairs_fit = (0..5).all(|k| pairs_fit(pairs[k], FIRSTS[k] as u8));
    if !(pairs_fit && labels_fit(labels)) {
        return Err(26);
    }
    if !(labels_ascend(labels) && pairs.iter().all(|table| pairs_ascend(table))) {
        return Err(27);
    }
    Ok(Tables { pairs, labels })
}

/// The header of a file with so many pairs in each table, and so many bytes of labels.
pub fn write_header(header: &mut [u8], counts: [usize; 5], labels: usize) {
    let [a, b, c, d, e] = counts;
    let counts = [a, b, c, d, e, labels / LABEL];
    let mut fields = [1; HEADER / 2];
    let mut at = HEADER;
    for k in 0..6 {
        fields[2 + k] = counts[k];
        fields[8 + k] = at;
        at += counts[k] * SIZES[k];
    }
    fields[1] = at;
    for (bytes, field) in header.as_chunks_mut().0.iter_mut().zip(fields) {
        *bytes = (field as u16).to_le_bytes();
    }
}

/// The six tables as parts of the file, or the refusal from 21 to 25.
fn parts(file: &[u8]) -> Result<[&[u8]; 6], u8> {
    if file.len() < HEADER {
        return Err(21);
    }
    let field = |i: usize| usize::from(u16::from_le_bytes([file[i * 2], file[i * 2 + 1]]));
    if field(0) != 1 {
        return Err(22);
    }
    if field(1) != file.len() {
        return Err(23);
    }
    if (0..6).any(|k| field(2 + k) > LIMITS[k]) {
        return Err(24);
    }
    let mut parts: [&[u8]; 6] = [&[]; 6];
    let mut at = HEADER;
    for (k, part) in parts.iter_mut().enumerate() {
        let end = at + field(2 + k) * SIZES[k];
        if field(8 + k) != at || end > file.len() {
            return Err(25);
        }
        *part = &file[at..end];
        at = end;
    }
    if at == file.len() {
        Ok(parts)
    } else {
        Err(25)
    }
}

/// Is each first number below the limit, and each second that of an area? Both limits are powers of two, so the bits of
/// all pairs together tell.
fn pairs_fit(pairs: &[Pair], limit: u8) -> bool {
    let all = pairs.iter().fold(0, |all, &pair| all | u16::from_ne_bytes(pair));
    let [first, area] = all.to_ne_bytes();
    first < limit && usize::from(area) < AREAS
}

/// By first number, then by second. Without a way out on the first misfit, so that the compiler compares many at once.
fn pairs_ascend(pairs: &[Pair]) -> bool {
    let number = |&pair: &Pair| u16::from_be_bytes(pair);
    let nexts = pairs.get(1..).unwrap_or_default();
    nexts
        .iter()
        .zip(pairs)
        .fold(true, |ascend, (next, pair)| ascend & (number(pair) < number(next)))
}

pub fn labels_fit(labels: &[Label]) -> bool {
    labels.iter().all(label_fits)
}

pub fn labels_ascend(labels: &[Label]) -> bool {
    labels.windows(2).all(|two| two[0][0] < two[1][0])
}

fn label_fits(label: &Label) -> bool {
    let [area, length, text @ ..] = label;
    let length = usize::from(*length);
    let byte_fits = |i: usize| {
        if i < length {
            (32..=126).contains(&text[i])
        } else {
            text[i] == 0
        }
    };
    let text_fits = (0..text.len()).fold(true, |fits, i| fits & byte_fits(i));
    usize::from(*area) < AREAS && (1..=text.len()).contains(&length) && text_fits
}
