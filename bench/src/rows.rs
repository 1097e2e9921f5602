//! A state as rows of bits, one row of 32 areas for each user, area or object: 1,040 bytes. What the ideal baseline
//! works on.

use crate::record::Record;
use crate::rules::{Place, Site, AREAS};
use std::array::from_fn;

#[derive(Clone, Copy, PartialEq)]
pub struct Rows {
    pub users: u32,
    pub areas: u32,
    pub objects: [u32; 2],
    pub owners: [u32; 32],
    pub definitions: [u32; 64],
    pub structure: [u32; 32],
    pub imports: [u32; 64],
    pub exports: [u32; 64],
}

/// Is the number in the row?
pub fn holds(row: u32, number: usize) -> bool {
    row & 1 << number != 0
}

fn put(row: &mut u32, number: usize, there: bool) {
    *row = *row & !(1 << number) | u32::from(there) << number;
}

/// Bools as rows of 32 bits.
fn rows<const N: usize>(bools: &[bool]) -> [u32; N] {
    from_fn(|i| (0..AREAS).fold(0, |row, j| row | u32::from(bools[i * AREAS + j]) << j))
}

impl Rows {
    pub fn of(s: &Record) -> Rows {
        let ([users], [areas]) = (rows(&s.users), rows(&s.areas));
        Rows {
            users,
            areas,
            objects: rows(&s.objects),
            owners: rows(&s.owners),
            definitions: rows(&s.definitions),
            structure: rows(&s.structure),
            imports: rows(&s.imports),
            exports: rows(&s.exports),
        }
    }
}

impl Site for Rows {
    #[inline(always)]
    fn has(&self, place: Place) -> bool {
        match place {
            Place::User(user) => holds(self.users, user),
            Place::Area(area) => holds(self.areas, area),
            Place::Object(object) => holds(self.objects[object / 32], object % 32),
            Place::Owner(user, area) => holds(self.owners[user], area),
            Place::Definition(object, area) => holds(self.definitions[object], area),
            Place::Structure(inner, outer) => holds(self.structure[inner], outer),
            Place::Import(object, area) => holds(self.imports[object], area),
            Place::Export(object, area) => holds(self.exports[object], area),
        }
    }

    #[inline(always)]
    fn put(&mut self, place: Place, there: bool) {
        match place {
            Place::User(user) => put(&mut self.users, user, there),
            Place::Area(area) => put(&mut self.areas, area, there),
            Place::Object(object) => put(&mut self.objects[object / 32], object % 32, there),
            Place::Owner(user, area) => put(&mut self.owners[user], area, there),
            Place::Definition(object, area) => put(&mut self.definitions[object], area, there),
            Place::Structure(inner, outer) => put(&mut self.structure[inner], outer, there),
            Place::Import(object, area) => put(&mut self.imports[object], area, there),
            Place::Export(object, area) => put(&mut self.exports[object], area, there),
        }
    }
}
