//! A site file before it is bytes: its six tables, in the file's order, right or wrong.

use crate::numbers::relations;
use chance::Chance;
use reference::{Labels, State};

pub const OWNERS: usize = 0;
pub const DEFINITIONS: usize = 1;
pub const STRUCTURE: usize = 2;
pub const IMPORTS: usize = 3;
pub const EXPORTS: usize = 4;
pub const LABELS: usize = 5;

/// "Counts are at most 1,024, 64, 1,024, 2,048, 2,048 and 32."
pub const MOST: [usize; 6] = [1024, 64, 1024, 2048, 2048, 32];

/// What the first bytes of each table are below.
pub const FIRST_LIMITS: [u8; 6] = [32, 64, 32, 64, 64, 32];

pub const HEADER_BYTES: usize = 28;

/// The entries of each table; those of labels have 32 bytes, the others 2.
#[derive(Clone, Debug)]
pub struct Draft {
    pub tables: [Vec<Vec<u8>>; 6],
}

impl Draft {
    pub fn new(state: &State, labels: &Labels) -> Draft {
        let pairs = relations(state).map(|pairs| pairs.iter().map(|&(first, second)| vec![first, second]).collect());
        let [owners, definitions, structure, imports, exports] = pairs;
        let labels = labels.iter().map(|(&area, text)| label_entry(area, text)).collect();
        Draft {
            tables: [owners, definitions, structure, imports, exports, labels],
        }
    }

    /// Puts an entry where it belongs by the order of the table.
    pub fn insert(&mut self, table: usize, entry: Vec<u8>) {
        let entries = &mut self.tables[table];
        let place = entries.partition_point(|other| *other < entry);
        entries.insert(place, entry);
    }

    /// The same with a pair that may be there already.
    pub fn insert_new(&mut self, table: usize, pair: [u8; 2]) {
        if !self.tables[table].contains(&pair.to_vec()) {
            self.insert(table, pair.to_vec());
        }
    }

    /// The state that the tables stand for.
    pub fn state(&self) -> State {
        let relation = |table: usize| self.tables[table].iter().map(|pair| (pair[0], pair[1])).collect();
        State {
            users: self.tables[OWNERS].iter().map(|pair| pair[0]).collect(),
            areas: self.areas().into_iter().collect(),
            objects: self.objects().into_iter().collect(),
            owners: relation(OWNERS),
            definitions: relation(DEFINITIONS),
            structure: relation(STRUCTURE),
            imports: relation(IMPORTS),
            exports: relation(EXPORTS),
        }
    }

    /// The areas in owner pairs.
    pub fn areas(&self) -> Vec<u8> {
        self.tables[OWNERS].iter().map(|pair| pair[1]).collect()
    }

    /// The objects in definition pairs.
    pub fn objects(&self) -> Vec<u8> {
        self.tables[DEFINITIONS].iter().map(|pair| pair[0]).collect()
    }

    /// The file, with the header that the tables ask for.
    pub fn bytes(&self) -> Vec<u8> {
        let tables: Vec<Vec<u8>> = self.tables.iter().map(|entries| entries.concat()).collect();
        let mut end = HEADER_BYTES;
        let mut offsets = Vec::new();
        for table in &tables {
            offsets.push(end);
            end += table.len();
        }
        let counts = self.tables.iter().map(Vec::len);
        let fields = [1, end].into_iter().chain(counts).chain(offsets);
        let header = fields.flat_map(|field| (field as u16).to_le_bytes());
        header.chain(tables.concat()).collect()
    }
}

pub fn label_entry(area: u8, text: &[u8]) -> Vec<u8> {
    let mut entry = vec![area, text.len() as u8];
    entry.extend(text);
    entry.resize(32, 0);
    entry
}

/// Labels for some of the areas.
pub fn random_labels(state: &State, chance: &mut Chance) -> Labels {
    let once_in = 1 + chance.below(4);
    let labelled = state
        .areas
        .iter()
        .filter(|_| chance.once_in(once_in))
        .copied()
        .collect::<Vec<_>>();
    labelled.into_iter().map(|area| (area, random_text(chance))).collect()
}

/// A text of 1 to 30 bytes from 32 to 126; the borders come often.
pub fn random_text(chance: &mut Chance) -> Vec<u8> {
    let any_length = 1 + chance.below(30);
    let length = chance.pick(&[1, 30, any_length, any_length]);
    (0..length)
        .map(|_| {
            if chance.once_in(8) {
                chance.pick(&[32, 126])
            } else {
                32 + chance.below(95) as u8
            }
        })
        .collect()
}
