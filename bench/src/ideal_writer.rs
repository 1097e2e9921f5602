//! The writer of the ideal baseline: pairs are counted by whole rows, and each byte is written once, where it stands.

use crate::ideal;
use crate::rows::Rows;
use crate::site_file::{self, Label, HEADER};

/// How many pairs the rows have.
fn count(rows: &[u32]) -> usize {
    rows.iter().map(|row| row.count_ones()).sum::<u32>() as usize
}

/// The pairs of the rows, as far as there is room.
fn write_pairs(rows: &[u32], table: &mut [u8]) {
    let mut pairs = table.as_chunks_mut().0.iter_mut();
    for (first, &row) in (0u8..).zip(rows) {
        let mut rest = row;
        while rest != 0 {
            let Some(pair) = pairs.next() else { return };
            *pair = [first, rest.trailing_zeros() as u8];
            rest &= rest - 1;
        }
    }
}

fn labels_are_lawful(s: &Rows, labels: &[u8]) -> bool {
    let (entries, partial): (&[Label], _) = labels.as_chunks();
    let labelled = entries.iter().fold(0, |areas, label| areas | 1 << (label[0] & 31));
    partial.is_empty()
        && site_file::labels_fit(entries)
        && site_file::labels_ascend(entries)
        && labelled & !s.areas == 0
}

/// Writes the file of the state and its labels: its length, or the refusal.
pub fn write(s: &Rows, labels: &[u8], buffer: &mut [u8]) -> Result<usize, u8> {
    if !ideal::is_sound(s) {
        return Err(12);
    }
    if !labels_are_lawful(s, labels) {
        return Err(30);
    }
    let relations: [&[u32]; 5] = [&s.owners, &s.definitions, &s.structure, &s.imports, &s.exports];
    let counts = relations.map(count);
    let length = HEADER + counts.iter().sum::<usize>() * 2 + labels.len();
    let file = buffer.get_mut(..length).ok_or(31)?;
    let (header, mut rest) = file.split_at_mut(HEADER);
    site_file::write_header(header, counts, labels.len());
    for (rows, count) in relations.into_iter().zip(counts) {
        let (table, behind) = rest.split_at_mut(count * 2);
        write_pairs(rows, table);
        rest = behind;
    }
    rest.copy_from_slice(labels);
    Ok(length)
}
