//! "The site file": the reader, the file of a state and its labels, and the label finder.

use crate::access::is_valid;
use crate::labels::{a_labelled_area_is_unlisted, labels_are_out_of_range, labels_do_not_ascend};
use crate::labels::{label_entry, labels_of, Labels, LABEL_BYTES};
use crate::soundness::{has_own_import, is_consistent};
use crate::state::{firsts, seconds, State};
use std::collections::BTreeSet;

/// "A header of 28 bytes, all fields 16 bits, low byte first: version (1), file length, six counts, six offsets"
const HEADER_BYTES: usize = 28;

/// "both in the order owners, definitions, structure, imports, exports, labels"
const OWNERS: usize = 0;
const DEFINITIONS: usize = 1;
const STRUCTURE: usize = 2;
const IMPORTS: usize = 3;
const EXPORTS: usize = 4;
const LABELS: usize = 5;

/// "Counts are at most 1,024, 64, 1,024, 2,048, 2,048 and 32."
const MOST: [usize; 6] = [1024, 64, 1024, 2048, 2048, 32];

/// "Pairs are two bytes as written above." "A label entry has 32 bytes".
const ENTRY_BYTES: [usize; 6] = [2, 2, 2, 2, 2, LABEL_BYTES];

/// The most bytes that an accepted file can have, and that the writer writes: 28 for the header, then owners, definitions,
/// structure, imports, exports and labels, 28 + 2 * 1,024 + 2 * 64 + 2 * 1,024 + 2 * 1,984 + 2 * 2,048 + 32 * 32 = 13,340.
/// Each count is at its limit but that of the imports, which lack one of each object. Document 02, point 4: "no area may
/// import an object that it defines".
pub const MOST_FILE_BYTES: usize = 28 + 2 * 1024 + 2 * 64 + 2 * 1024 + 2 * 1984 + 2 * 2048 + 32 * 32;

/// For each table of pairs, how many numbers its first member can be: users, objects, areas, objects, objects.
const FIRST_LIMITS: [u8; 5] = [State::USERS, State::OBJECTS, State::AREAS, State::OBJECTS, State::OBJECTS];

/// A condition of the reader; it is asked only where no condition in front of it holds.
type Condition = fn(&[u8]) -> bool;

/// "Reader refusals, lowest number first over the whole file".
const ORDER_OF_CHECKS: [(u8, Condition); 10] = [
    (21, is_under_a_header),
    (22, version_is_another),
    (23, length_is_another),
    (24, count_is_above_its_limit),
    (25, table_stands_elsewhere),
    (26, byte_is_out_of_range),
    (27, table_is_not_ascending),
    (28, file_is_inconsistent),
    (29, entry_lacks_access),
    (29, import_is_by_the_definer),
];

/// The state and the labels of a file, or the first reader refusal, 21 to 29.
pub fn read_file(file: &[u8]) -> Result<(State, Labels), u8> {
    match ORDER_OF_CHECKS.iter().find(|(_, holds)| holds(file)) {
        Some(&(number, _)) => Err(number),
        None => Ok((state_of(file), labels_of(table_bytes(file, LABELS)))),
    }
}

/// A field of the header: "16 bits, low byte first".
fn field(file: &[u8], place: usize) -> usize {
    usize::from(file[2 * place]) + 256 * usize::from(file[2 * place + 1])
}

/// The stated count of a table.
fn count(file: &[u8], table: usize) -> usize {
    field(file, 2 + table)
}

/// The stated offset of a table.
fn offset(file: &[u8], table: usize) -> usize {
    field(file, 8 + table)
}

/// The bytes of a table; for files that 21 to 25 let pass.
fn table_bytes(file: &[u8], table: usize) -> &[u8] {
    let start = offset(file, table);
    &file[start..start + count(file, table) * ENTRY_BYTES[table]]
}

/// The entries of a table, in the file's order.
fn entries(file: &[u8], table: usize) -> impl Iterator<Item = &[u8]> {
    table_bytes(file, table).chunks_exact(ENTRY_BYTES[table])
}

/// The entries of a table of pairs: "Pairs are two bytes as written above."
fn pairs(file: &[u8], table: usize) -> impl Iterator<Item = (u8, u8)> + '_ {
    entries(file, table).map(|entry| (entry[0], entry[1]))
}

/// "Listed users and areas are those in owner pairs; listed objects those in definition pairs."
fn state_of(file: &[u8]) -> State {
    let relation = |table: usize| -> BTreeSet<(u8, u8)> { pairs(file, table).collect() };
    let (owners, definitions) = (relation(OWNERS), relation(DEFINITIONS));
    State {
        users: firsts(&owners),
        areas: seconds(&owners),
        objects: firsts(&definitions),
        owners,
        definitions,
        structure: relation(STRUCTURE),
        imports: relation(IMPORTS),
        exports: relation(EXPORTS),
    }
}

/// 21: "under 28 bytes"
fn is_under_a_header(file: &[u8]) -> bool {
    file.len() < HEADER_BYTES
}

/// 22: "version not 1"
fn version_is_another(file: &[u8]) -> bool {
    field(file, 0) != 1
}

/// 23: "stated length is not that of the bytes given"
fn length_is_another(file: &[u8]) -> bool {
    field(file, 1) != file.len()
}

/// 24: "a count above its limit"
fn count_is_above_its_limit(file: &[u8]) -> bool {
    (OWNERS..=LABELS).any(|table| count(file, table) > MOST[table])
}

/// 25: "an offset, or the end, elsewhere than stated above": "Tables follow in that order with no gap, the first at 28, and the file
/// ends with the last." "An empty table has the offset where it would stand."
fn table_stands_elsewhere(file: &[u8]) -> bool {
    let mut place = HEADER_BYTES;
    for (table, entry_bytes) in ENTRY_BYTES.into_iter().enumerate() {
        if offset(file, table) != place {
            return true;
        }
        place += count(file, table) * entry_bytes;
    }
    place != file.len()
}

/// 26: "a number, length, text byte or filler byte outside its range"
fn byte_is_out_of_range(file: &[u8]) -> bool {
    let pair_is_out = |table: usize| pairs(file, table).any(|(first, second)| first >= FIRST_LIMITS[table] || second >= State::AREAS);
    (OWNERS..=EXPORTS).any(pair_is_out) || labels_are_out_of_range(table_bytes(file, LABELS))
}

/// 27: "a table not strictly ascending by first byte, then second (labels by area)"
fn table_is_not_ascending(file: &[u8]) -> bool {
    let pairs_ascend = (OWNERS..=EXPORTS).all(|table| pairs(file, table).is_sorted_by(|one, next| one < next));
    !pairs_ascend || labels_do_not_ascend(table_bytes(file, LABELS))
}

/// 28: "no owner pair; an unlisted area or object named; an object defined twice"
fn file_is_inconsistent(file: &[u8]) -> bool {
    let state = state_of(file);
    let no_owner_pair = state.owners.is_empty();
    let label_of_unlisted_area = a_labelled_area_is_unlisted(table_bytes(file, LABELS), &state.areas);
    let defined_twice = state.definitions.len() != state.objects.len();
    no_owner_pair || !is_consistent(&state) || label_of_unlisted_area || defined_twice
}

/// 29: "an import or export pair whose area lacks access"
/// Document 02, point 2: "A file whose import or export needs more gets 29."
fn entry_lacks_access(file: &[u8]) -> bool {
    !is_valid(&state_of(file))
}

/// 29: document 02, point 4: "no area may import an object that it defines", "A file with one gets 29."
fn import_is_by_the_definer(file: &[u8]) -> bool {
    has_own_import(&state_of(file))
}

/// The single file of a sound state and its labels: each text has 1 to 30 bytes of 32 to 126, and each area of a label is listed.
pub fn write_file(state: &State, labels: &Labels) -> Vec<u8> {
    let tables = tables_of(state, labels);
    let length = HEADER_BYTES + tables.concat().len();
    let counts = (OWNERS..=LABELS).map(|table| tables[table].len() / ENTRY_BYTES[table]);
    let offsets = (OWNERS..=LABELS).map(|table| HEADER_BYTES + tables[..table].concat().len());
    let fields = [1, length].into_iter().chain(counts).chain(offsets);
    let mut file: Vec<u8> = fields.flat_map(|field| [(field % 256) as u8, (field / 256) as u8]).collect();
    file.extend(tables.concat());
    file
}

/// The bytes of the six tables, in the file's order; sets and maps are ascending by themselves.
fn tables_of(state: &State, labels: &Labels) -> [Vec<u8>; 6] {
    let pair_table = |pairs: &BTreeSet<(u8, u8)>| pairs.iter().flat_map(|&(first, second)| [first, second]).collect();
    [
        pair_table(&state.owners),
        pair_table(&state.definitions),
        pair_table(&state.structure),
        pair_table(&state.imports),
        pair_table(&state.exports),
        labels.iter().flat_map(|(&area, text)| label_entry(area, text)).collect(),
    ]
}

/// "The label finder takes file bytes and an area number. It hands back the label's text as a part of the caller's file": the part's
/// offset and length. "For a refused file, or an area with no label (any number above 31 too), it is the part of length 0 at the
/// file's front."
pub fn label(file: &[u8], area: u32) -> (usize, usize) {
    if read_file(file).is_err() {
        return (0, 0);
    }
    let found = entries(file, LABELS).enumerate().find(|(_, entry)| u32::from(entry[0]) == area);
    match found {
        Some((place, entry)) => (offset(file, LABELS) + place * ENTRY_BYTES[LABELS] + 2, usize::from(entry[1])),
        None => (0, 0),
    }
}

/// The label block of an accepted file, as the writer takes it: its offset and its length in bytes; for a file with no label the
/// length is 0, and "An empty table has the offset where it would stand." (0, 0) for a refused file.
pub fn label_block(file: &[u8]) -> (usize, usize) {
    match read_file(file) {
        Ok(_) => (offset(file, LABELS), count(file, LABELS) * LABEL_BYTES),
        Err(_) => (0, 0),
    }
}
