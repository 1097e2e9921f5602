//! The reader of the ideal baseline: whole rows are put together, and looked up in the lists as a whole.

use crate::ideal;
use crate::rows::Rows;
use crate::site_file::{self, Pair, Tables};

/// The rows of an ascending table. A row is put together in a register, since its pairs stand side by side.
fn rows<const N: usize>(pairs: &[Pair]) -> [u32; N] {
    let mut rows = [0; N];
    let (mut at, mut row) = (0, 0);
    for &[first, area] in pairs {
        if first != at {
            rows[usize::from(at)] = row;
            at = first;
            row = 0;
        }
        row |= 1 << (area & 31);
    }
    rows[usize::from(at)] = row;
    rows
}

/// The numbers whose row has a pair.
fn firsts(rows: &[u32]) -> u32 {
    rows.iter()
        .enumerate()
        .fold(0, |firsts, (i, &row)| firsts | u32::from(row != 0) << i)
}

fn state(tables: &Tables) -> Rows {
    let owners: [u32; 32] = rows(tables.pairs[0]);
    let definitions: [u32; 64] = rows(tables.pairs[1]);
    Rows {
        users: firsts(&owners),
        areas: owners.iter().fold(0, |areas, row| areas | row),
        objects: [firsts(&definitions[..32]), firsts(&definitions[32..])],
        owners,
        definitions,
        structure: rows(tables.pairs[2]),
        imports: rows(tables.pairs[3]),
        exports: rows(tables.pairs[4]),
    }
}

/// The state that the file holds, or its refusal.
pub fn read(file: &[u8]) -> Result<Rows, u8> {
    let tables = site_file::tables(file)?;
    let s = state(&tables);
    let labelled = tables
        .labels
        .iter()
        .fold(0, |areas, label| areas | 1 << (label[0] & 31));
    if !ideal::is_well_formed(&s) || labelled & !s.areas != 0 {
        return Err(28);
    }
    if !(ideal::borrows_from_others(&s) && ideal::is_valid(&s)) {
        return Err(29);
    }
    Ok(s)
}
