//! The site file of a state, written as document 01 has it.

use crate::record::{cell, Record};
use crate::rules::AREAS;
use crate::site_file::{HEADER, LABEL};

/// The pairs of a relation in ascending order, two bytes each.
fn pairs(cells: &[bool]) -> Vec<u8> {
    let firsts = cells.len() / AREAS;
    let all = (0..firsts).flat_map(|i| (0..AREAS).map(move |j| (i, j)));
    all.filter(|&(i, j)| cells[cell(i, j)])
        .flat_map(|(i, j)| [i as u8, j as u8])
        .collect()
}

/// A label of 1 to 30 letters for each listed area.
pub fn labels(areas: &[bool; AREAS]) -> Vec<u8> {
    let mut table = Vec::new();
    for area in (0..AREAS).filter(|&a| areas[a]) {
        let length = 1 + area % 30;
        let mut label = [0; LABEL];
        label[0] = area as u8;
        label[1] = length as u8;
        label[2..2 + length].fill(b'a');
        table.extend(label);
    }
    table
}

/// The file of a record, with a label for each listed area.
pub fn file(s: &Record) -> Vec<u8> {
    with_labels(s, &labels(&s.areas))
}

/// The file of a record and a label block.
pub fn with_labels(s: &Record, block: &[u8]) -> Vec<u8> {
    let tables = [
        (pairs(&s.owners), 2),
        (pairs(&s.definitions), 2),
        (pairs(&s.structure), 2),
        (pairs(&s.imports), 2),
        (pairs(&s.exports), 2),
        (block.to_vec(), LABEL),
    ];
    let total = HEADER + tables.iter().map(|(bytes, _)| bytes.len()).sum::<usize>();
    let mut fields = vec![1, total];
    fields.extend(tables.iter().map(|(bytes, size)| bytes.len() / size));
    let mut at = HEADER;
    for (bytes, _) in &tables {
        fields.push(at);
        at += bytes.len();
    }
    let header = fields.into_iter().flat_map(|n| (n as u16).to_le_bytes());
    header
        .chain(tables.iter().flat_map(|(bytes, _)| bytes.iter().copied()))
        .collect()
}
