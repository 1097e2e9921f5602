//! The reader of the plain baseline: each pair is looked up in the lists as it is put into the record.

use crate::plain;
use crate::record::{cell, Record};
use crate::site_file::{self, Pair};

/// Adds the pairs of a table to a relation. Each names a number of the one list and an area of the other, or it is 28.
fn add(cells: &mut [bool], pairs: &[Pair], firsts: &[bool], areas: &[bool]) -> Result<(), u8> {
    for pair in pairs {
        let [first, area] = pair.map(usize::from);
        if !(firsts[first] && areas[area]) {
            return Err(28);
        }
        cells[cell(first, area)] = true;
    }
    Ok(())
}

/// The state that the file holds, or its refusal.
pub fn read(file: &[u8]) -> Result<Record, u8> {
    let tables = site_file::tables(file)?;
    let [owners, definitions, structure, imports, exports] = tables.pairs;
    let mut s = Record::empty();
    if owners.is_empty() {
        return Err(28);
    }
    for pair in owners {
        let [user, area] = pair.map(usize::from);
        s.users[user] = true;
        s.areas[area] = true;
        s.owners[cell(user, area)] = true;
    }
    for pair in definitions {
        let [object, area] = pair.map(usize::from);
        if s.objects[object] || !s.areas[area] {
            return Err(28);
        }
        s.objects[object] = true;
        s.definitions[cell(object, area)] = true;
    }
    add(&mut s.structure, structure, &s.areas, &s.areas)?;
    add(&mut s.imports, imports, &s.objects, &s.areas)?;
    add(&mut s.exports, exports, &s.objects, &s.areas)?;
    if !tables.labels.iter().all(|label| s.areas[usize::from(label[0])]) {
        return Err(28);
    }
    if !(plain::is_valid(&s) && plain::borrows_from_others(&s)) {
        return Err(29);
    }
    Ok(s)
}
