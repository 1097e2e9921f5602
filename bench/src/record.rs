//! A state as bools, one a place, the place of the pair (i, j) at i * 32 + j: what the plain baseline works on, and
//! what the states of the benchmark are written in.

use crate::rules::{Place, Site, AREAS};

#[derive(Clone, PartialEq)]
pub struct Record {
    pub users: [bool; 32],
    pub areas: [bool; 32],
    pub objects: [bool; 64],
    pub owners: [bool; 1024],
    pub definitions: [bool; 2048],
    pub structure: [bool; 1024],
    pub imports: [bool; 2048],
    pub exports: [bool; 2048],
}

/// A record as the C interface has it: the same places in the same order, eight in a byte, the first in its lowest bit.
pub type RecordBytes = [u8; RECORD_BYTES];
pub const RECORD_BYTES: usize = 1040;

/// The place of a pair in its relation.
pub fn cell(first: usize, area: usize) -> usize {
    first * AREAS + area
}

impl Record {
    pub fn empty() -> Record {
        Record {
            users: [false; 32],
            areas: [false; 32],
            objects: [false; 64],
            owners: [false; 1024],
            definitions: [false; 2048],
            structure: [false; 1024],
            imports: [false; 2048],
            exports: [false; 2048],
        }
    }

    /// User 0 owns area 0, and there is nothing else.
    pub fn founding() -> Record {
        let mut s = Record::empty();
        s.users[0] = true;
        s.areas[0] = true;
        s.owners[0] = true;
        s
    }

    /// The lists and relations, in the order of the C interface.
    pub fn parts(&self) -> [&[bool]; 8] {
        [
            &self.users,
            &self.areas,
            &self.objects,
            &self.owners,
            &self.definitions,
            &self.structure,
            &self.imports,
            &self.exports,
        ]
    }

    pub fn bytes(&self) -> RecordBytes {
        let mut bytes = [0; RECORD_BYTES];
        for (place, &there) in self.parts().into_iter().flatten().enumerate() {
            bytes[place / 8] |= u8::from(there) << (place % 8);
        }
        bytes
    }
}

impl Site for Record {
    #[inline(always)]
    fn has(&self, place: Place) -> bool {
        match place {
            Place::User(user) => self.users[user],
            Place::Area(area) => self.areas[area],
            Place::Object(object) => self.objects[object],
            Place::Owner(user, area) => self.owners[cell(user, area)],
            Place::Definition(object, area) => self.definitions[cell(object, area)],
            Place::Structure(inner, outer) => self.structure[cell(inner, outer)],
            Place::Import(object, area) => self.imports[cell(object, area)],
            Place::Export(object, area) => self.exports[cell(object, area)],
        }
    }

    #[inline(always)]
    fn put(&mut self, place: Place, there: bool) {
        match place {
            Place::User(user) => self.users[user] = there,
            Place::Area(area) => self.areas[area] = there,
            Place::Object(object) => self.objects[object] = there,
            Place::Owner(user, area) => self.owners[cell(user, area)] = there,
            Place::Definition(object, area) => self.definitions[cell(object, area)] = there,
            Place::Structure(inner, outer) => self.structure[cell(inner, outer)] = there,
            Place::Import(object, area) => self.imports[cell(object, area)] = there,
            Place::Export(object, area) => self.exports[cell(object, area)] = there,
        }
    }
}
