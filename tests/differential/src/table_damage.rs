//! What can be wrong with the tables of a site file, a function each. The header fits the tables all the same, so it is
//! 24, 26, 27, 28 or 29 that finds it. Some files stay right.

use crate::chains::{entries_at, MOST_STEPS};
use crate::draft::{
    label_entry, random_text, Draft, DEFINITIONS, EXPORTS, FIRST_LIMITS, IMPORTS, LABELS, MOST, OWNERS, STRUCTURE,
};
use crate::numbers::free;
use chance::Chance;

pub type TableDamage = fn(&mut Draft, &mut Chance);

pub const TABLE_DAMAGES: [TableDamage; 26] = [
    number_beyond_its_limit,
    entries_swapped,
    neighbours_swapped,
    entry_twice,
    owner_dropped,
    owners_dropped,
    definition_dropped,
    object_defined_twice,
    unlisted_area_named,
    unlisted_object_named,
    structure_dropped,
    structure_turned,
    entry_dropped,
    entry_added,
    entry_too_far,
    own_import,
    areas_vouch,
    label_of_an_unlisted_area,
    label_area,
    label_length,
    label_text,
    label_filler,
    label_shorter_or_longer,
    area_labelled_twice,
    one_entry_too_many,
    table_filled_up,
];

/// The table if it has entries, else some table that has.
fn filled(draft: &Draft, table: usize) -> Option<usize> {
    (0..6)
        .map(|place| (table + place) % 6)
        .find(|&table| !draft.tables[table].is_empty())
}

/// One of the entries of some table, with the number of the table.
fn any_entry<'a>(draft: &'a mut Draft, chance: &mut Chance) -> Option<(usize, &'a mut Vec<u8>)> {
    let table = filled(draft, chance.below(6))?;
    let place = chance.below(draft.tables[table].len());
    Some((table, &mut draft.tables[table][place]))
}

pub fn any_label<'a>(draft: &'a mut Draft, chance: &mut Chance) -> &'a mut Vec<u8> {
    if draft.tables[LABELS].is_empty() {
        let area = chance.pick(&[draft.areas(), vec![0]].concat());
        draft.insert(LABELS, label_entry(area, &random_text(chance)));
    }
    let place = chance.below(draft.tables[LABELS].len());
    &mut draft.tables[LABELS][place]
}

/// The limit itself, or a number beyond it.
fn beyond(limit: u8, chance: &mut Chance) -> u8 {
    let above = limit + chance.below(256 - usize::from(limit)) as u8;
    chance.pick(&[limit, limit, above, 255])
}

fn number_beyond_its_limit(draft: &mut Draft, chance: &mut Chance) {
    let first = chance.once_in(2);
    match any_entry(draft, chance) {
        Some((table, entry)) if first || table == LABELS => entry[0] = beyond(FIRST_LIMITS[table], chance),
        Some((_, entry)) => entry[1] = beyond(32, chance),
        None => {}
    }
}

fn entries_swapped(draft: &mut Draft, chance: &mut Chance) {
    let Some(table) = filled(draft, chance.below(6)) else {
        return;
    };
    let entries = &mut draft.tables[table];
    let (one, other) = (chance.below(entries.len()), chance.below(entries.len()));
    entries.swap(one, other);
}

fn neighbours_swapped(draft: &mut Draft, chance: &mut Chance) {
    let Some(table) = filled(draft, chance.below(6)) else {
        return;
    };
    let entries = &mut draft.tables[table];
    let place = chance.below(entries.len());
    let next = (place + 1).min(entries.len() - 1);
    entries.swap(place, next);
}

fn entry_twice(draft: &mut Draft, chance: &mut Chance) {
    let Some(table) = filled(draft, chance.below(6)) else {
        return;
    };
    let place = chance.below(draft.tables[table].len());
    let entry = draft.tables[table][place].clone();
    draft.tables[table].insert(place, entry);
}

fn drop_one(draft: &mut Draft, table: usize, chance: &mut Chance) {
    let entries = &mut draft.tables[table];
    if !entries.is_empty() {
        entries.remove(chance.below(entries.len()));
    }
}

fn owner_dropped(draft: &mut Draft, chance: &mut Chance) {
    drop_one(draft, OWNERS, chance);
}

/// In half the files with all else that names an area, so that "no owner pair" stands alone.
fn owners_dropped(draft: &mut Draft, chance: &mut Chance) {
    draft.tables[OWNERS].clear();
    if chance.once_in(2) {
        draft.tables = Default::default();
    }
}

fn definition_dropped(draft: &mut Draft, chance: &mut Chance) {
    drop_one(draft, DEFINITIONS, chance);
}

fn object_defined_twice(draft: &mut Draft, chance: &mut Chance) {
    let (objects, areas) = (draft.objects(), draft.areas());
    if !objects.is_empty() && !areas.is_empty() {
        draft.insert(DEFINITIONS, vec![chance.pick(&objects), chance.pick(&areas)]);
    }
}

/// A number below the limit that is not in the list, if there is one.
fn unlisted(list: &[u8], limit: usize, chance: &mut Chance) -> u8 {
    let free = free(list, limit);
    chance.pick(if free.is_empty() { list } else { &free })
}

fn unlisted_area_named(draft: &mut Draft, chance: &mut Chance) {
    let (areas, objects) = (draft.areas(), draft.objects());
    let area = unlisted(&areas, 32, chance);
    let other = chance.pick(&[areas, vec![area]].concat());
    let object = chance.pick(&[objects, vec![0]].concat());
    match chance.below(5) {
        0 => draft.insert(STRUCTURE, vec![area, other]),
        1 => draft.insert(STRUCTURE, vec![other, area]),
        2 => draft.insert(DEFINITIONS, vec![unlisted(&draft.objects(), 64, chance), area]),
        3 => draft.insert(IMPORTS, vec![object, area]),
        _ => draft.insert(EXPORTS, vec![object, area]),
    }
}

fn unlisted_object_named(draft: &mut Draft, chance: &mut Chance) {
    let object = unlisted(&draft.objects(), 64, chance);
    let area = chance.pick(&[draft.areas(), vec![0]].concat());
    draft.insert(chance.pick(&[IMPORTS, EXPORTS]), vec![object, area]);
}

fn structure_dropped(draft: &mut Draft, chance: &mut Chance) {
    drop_one(draft, STRUCTURE, chance);
}

fn structure_turned(draft: &mut Draft, chance: &mut Chance) {
    let entries = &mut draft.tables[STRUCTURE];
    if !entries.is_empty() {
        let place = chance.below(entries.len());
        entries[place].reverse();
        entries.sort();
        entries.dedup();
    }
}

fn entry_dropped(draft: &mut Draft, chance: &mut Chance) {
    drop_one(draft, chance.pick(&[IMPORTS, EXPORTS]), chance);
}

/// An import or export pair of listed numbers.
fn entry_added(draft: &mut Draft, chance: &mut Chance) {
    let (objects, areas) = (draft.objects(), draft.areas());
    if objects.is_empty() || areas.is_empty() {
        return;
    }
    let table = chance.pick(&[IMPORTS, EXPORTS]);
    draft.insert_new(table, [chance.pick(&objects), chance.pick(&areas)]);
}

/// An import or export pair at 9 steps, if there is room for one.
pub fn entry_too_far(draft: &mut Draft, chance: &mut Chance) {
    let objects = draft.objects();
    if objects.is_empty() {
        return;
    }
    let object = chance.pick(&objects);
    let entries = entries_at(&draft.state(), object, MOST_STEPS + 1);
    if !entries.is_empty() {
        let (code, area) = chance.pick(&entries);
        let table = if code == 9 { IMPORTS } else { EXPORTS };
        draft.insert(table, vec![object, area]);
    }
}

/// An import by the definer of an object, if one is defined.
pub fn own_import(draft: &mut Draft, chance: &mut Chance) {
    let definitions = &draft.tables[DEFINITIONS];
    if !definitions.is_empty() {
        let pair = &definitions[chance.below(definitions.len())];
        draft.insert_new(IMPORTS, [pair[0], pair[1]]);
    }
}

/// Two areas in a cycle that both import an object, whether a chain leads to them or not.
fn areas_vouch(draft: &mut Draft, chance: &mut Chance) {
    let (objects, areas) = (draft.objects(), draft.areas());
    if objects.is_empty() || areas.is_empty() {
        return;
    }
    let (one, other, object) = (chance.pick(&areas), chance.pick(&areas), chance.pick(&objects));
    for (inner, outer) in [(one, other), (other, one)] {
        draft.insert_new(STRUCTURE, [inner, outer]);
        draft.insert_new(IMPORTS, [object, inner]);
    }
}

pub fn label_of_an_unlisted_area(draft: &mut Draft, chance: &mut Chance) {
    let area = unlisted(&draft.areas(), 32, chance);
    draft.insert(LABELS, label_entry(area, &random_text(chance)));
}

pub fn label_area(draft: &mut Draft, chance: &mut Chance) {
    any_label(draft, chance)[0] = beyond(32, chance);
}

fn label_length(draft: &mut Draft, chance: &mut Chance) {
    any_label(draft, chance)[1] = chance.pick(&[0, 31, 31, 32, 255]);
}

pub fn label_text(draft: &mut Draft, chance: &mut Chance) {
    let label = any_label(draft, chance);
    let length = usize::from(label[1]).clamp(1, 30);
    let any = chance.below(length);
    let place = chance.pick(&[0, length - 1, any]);
    label[2 + place] = chance.pick(&[0, 10, 31, 127, 128, 255]);
}

pub fn label_filler(draft: &mut Draft, chance: &mut Chance) {
    let label = any_label(draft, chance);
    let length = label[1].min(29);
    label[1] = length.max(1);
    let first = 2 + usize::from(label[1]);
    label[first..].fill(0);
    let any = first + chance.below(32 - first);
    let place = chance.pick(&[first, 31, any]);
    label[place] = chance.pick(&[1, 32, 65, 255]);
}

/// The text stays, so that it is filler, or zeros are text.
pub fn label_shorter_or_longer(draft: &mut Draft, chance: &mut Chance) {
    let label = any_label(draft, chance);
    label[1] = chance.pick(&[label[1].saturating_sub(1), label[1].saturating_add(1)]);
}

/// With another text, so that the entries are not the same.
pub fn area_labelled_twice(draft: &mut Draft, chance: &mut Chance) {
    let area = any_label(draft, chance)[0];
    draft.insert(LABELS, label_entry(area, &random_text(chance)));
}

/// Entries are repeated, or made up, until the table is above its limit.
fn one_entry_too_many(draft: &mut Draft, chance: &mut Chance) {
    let any = chance.below(6);
    let table = chance.pick(&[DEFINITIONS, LABELS, any]);
    let entry = match draft.tables[table].first() {
        Some(entry) => entry.clone(),
        None if table == LABELS => label_entry(0, b"label"),
        None => vec![0, 0],
    };
    draft.tables[table].resize(MOST[table] + 1, entry);
}

/// The table of owners or structure with every pair there is, that of labels with every area there is.
fn table_filled_up(draft: &mut Draft, chance: &mut Chance) {
    let table = chance.pick(&[OWNERS, STRUCTURE, LABELS]);
    let every_pair = || (0..32).flat_map(|first| (0..32).map(move |second| vec![first, second]));
    draft.tables[OWNERS] = every_pair().collect();
    match table {
        STRUCTURE => draft.tables[STRUCTURE] = every_pair().collect(),
        LABELS => draft.tables[LABELS] = (0..32).map(|area| label_entry(area, &random_text(chance))).collect(),
        _ => {}
    }
}
