//! What can be wrong with a label block, a function each. They change the labels of a draft, and nothing else in it.
//! Some blocks stay right.

use crate::draft::{label_entry, random_text, Draft, LABELS};
use crate::table_damage::{
    any_label, area_labelled_twice, label_area, label_filler, label_of_an_unlisted_area, label_shorter_or_longer,
    label_text, TableDamage,
};
use chance::Chance;

/// All of them; the last two leave entries of other lengths, so that none can come behind them.
pub const BLOCK_DAMAGES: [TableDamage; 14] = [
    label_area,
    length_0,
    length_above_30,
    label_text,
    label_filler,
    label_shorter_or_longer,
    area_labelled_twice,
    entry_twice,
    descending,
    swapped,
    label_of_an_unlisted_area,
    too_many_entries,
    partial_entry,
    random_bytes,
];

/// Those that leave whole entries.
pub const OF_ENTRIES: &[TableDamage] = BLOCK_DAMAGES.split_at(12).0;

/// How many bytes an entry has, and how many entries a block that is too long: those of 2,048 have 65,536 bytes, which
/// would be 0 in 16 bits.
const ENTRY: usize = 32;
const TOO_MANY: [usize; 7] = [33, 33, 33, 34, 64, 2048, 2049];

/// The last entry is cut, or has bytes behind it, or is the front of a further one.
pub fn partial_entry(draft: &mut Draft, chance: &mut Chance) {
    let any = 1 + chance.below(ENTRY - 1);
    let bytes = chance.pick(&[1, 31, any]);
    any_label(draft, chance);
    let entries = &mut draft.tables[LABELS];
    match (chance.below(3), entries.last_mut()) {
        (0, Some(last)) => last.truncate(ENTRY - bytes),
        (1, Some(last)) => last.resize(ENTRY + bytes, 0),
        _ => entries.push(label_entry(31, b"label")[..bytes].to_vec()),
    }
}

/// With the text as it was, or with none.
fn length_0(draft: &mut Draft, chance: &mut Chance) {
    let label = any_label(draft, chance);
    label[1] = 0;
    if chance.once_in(2) {
        label[2..].fill(0);
    }
}

/// With the text as it was, or with one of 30 bytes.
fn length_above_30(draft: &mut Draft, chance: &mut Chance) {
    let label = any_label(draft, chance);
    label[1] = chance.pick(&[31, 31, 32, 32 + label[1], 128 + label[1], 255]);
    if chance.once_in(2) {
        label[2..].fill(b'x');
    }
}

/// Each area has a label, if there were not two already.
fn two_labels(draft: &mut Draft, chance: &mut Chance) {
    if draft.tables[LABELS].len() < 2 {
        let mut areas = draft.areas();
        areas.sort();
        areas.dedup();
        let entries = areas.into_iter().map(|area| label_entry(area, &random_text(chance)));
        draft.tables[LABELS] = entries.collect();
    }
}

fn entry_twice(draft: &mut Draft, chance: &mut Chance) {
    let entry = any_label(draft, chance).clone();
    draft.insert(LABELS, entry);
}

fn descending(draft: &mut Draft, chance: &mut Chance) {
    two_labels(draft, chance);
    draft.tables[LABELS].reverse();
}

/// Two entries, often neighbours.
fn swapped(draft: &mut Draft, chance: &mut Chance) {
    two_labels(draft, chance);
    let entries = &mut draft.tables[LABELS];
    let one = chance.below(entries.len());
    let other = match chance.once_in(2) {
        true => (one + 1) % entries.len(),
        false => chance.below(entries.len()),
    };
    entries.swap(one, other);
}

/// The last entry comes again and again.
fn too_many_entries(draft: &mut Draft, chance: &mut Chance) {
    any_label(draft, chance);
    let entries = &mut draft.tables[LABELS];
    let last = entries[entries.len() - 1].clone();
    entries.resize(chance.pick(&TOO_MANY), last);
}

/// As many bytes as some entries have, or any number of them; in half the blocks each byte is one that an entry often
/// has.
fn random_bytes(draft: &mut Draft, chance: &mut Chance) {
    let (entries, any) = (1 + chance.below(4), 1 + chance.below(200));
    let length = chance.pick(&[ENTRY, ENTRY * entries, any]);
    let likely = chance.once_in(2);
    let mut byte = || {
        if likely {
            chance.pick(&[0, 1, 2, 32, 65])
        } else {
            chance.byte()
        }
    };
    draft.tables[LABELS] = vec![(0..length).map(|_| byte()).collect()];
}
