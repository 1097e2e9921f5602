//! Site files, right and damaged, and the labels in them. Each accepted file is written again.

use crate::answer::Answer;
use crate::borders::{entry_lengths, is_one_step_too_far, is_small};
use crate::byte_damage::BYTE_DAMAGES;
use crate::case::Case;
use crate::chains::MOST_STEPS;
use crate::draft::{random_labels, random_text, Draft, IMPORTS};
use crate::library;
use crate::numbers::{widened, Pairs};
use crate::own_imports::{has_own, is_only_own};
use crate::seen::Seen;
use crate::shards::Plan;
use crate::site::{Site, OTHER_LENGTHS};
use crate::states::{sound_state, Shape};
use crate::table_damage::{entry_too_far, own_import, TABLE_DAMAGES};
use chance::Chance;
use reference::{Labels, State, RECORD_BYTES};

/// How many states a shard has, and how many files are made of each.
const STATES: usize = 1250;
const FILES: usize = 10;

/// How many of a shard's files are the largest that there is, or nearly; how many are made for an entry at 9 steps, and
/// how many for an own import.
const LARGEST: usize = 6;
const TOO_FAR: usize = 150;
const OWN: usize = 150;

/// With 1,024 owner pairs, 64 definitions, 1,024 structure pairs, 1,984 imports, 2,048 exports and 32 labels.
const LARGEST_BYTES: usize = 13_340;

pub fn run(plan: &Plan) -> (String, Seen) {
    let mut seen = plan.run("files", |_, chance, seen| {
        for _ in 0..STATES {
            let shape = shape(chance);
            let state = sound_state(shape, chance);
            let labels = random_labels(&state, chance);
            (0..FILES).for_each(|_| one_file(&state, &labels, chance, seen));
        }
        let (state, labels) = largest(chance);
        (0..LARGEST).for_each(|_| one_file(&state, &labels, chance, seen));
        about_the_largest(&Draft::new(&state, &labels), chance, seen);
        (0..TOO_FAR).for_each(|_| file_too_far(chance, seen));
        (0..OWN).for_each(|_| file_with_own_import(chance, seen));
    });
    require(&mut seen);
    (line(&seen), seen)
}

fn require(seen: &mut Seen) {
    seen.require("read", [0], 5000);
    seen.require("read", 21..=29, 200);
    seen.require("read", [31], 200);
    seen.require("table damage", 0..TABLE_DAMAGES.len() as u32, 200);
    seen.require("byte damage", 0..BYTE_DAMAGES.len() as u32, 200);
    seen.require("file with an entry at 8 steps", [0], 1000);
    seen.require("file with an entry too far", [29], 300);
    seen.require("file with an own import", [29], 500);
    seen.require("file with an own import", [26, 27, 28], 100);
    seen.require("labelled but for an own import", [0], 200);
    seen.require("largest file", [0, 29, 24], 8);
    seen.require("label above 255", [0], 5000);
    seen.require("labelled but for 256 or more", [0], 2000);
    seen.require("label block, entries", [0, 1, 2, 32], 200);
    seen.require("labels", [0], 20_000);
    seen.demand(
        seen.total("round trip") == seen.times("read", 0),
        "every accepted file makes the round trip",
    );
}

fn line(seen: &Seen) -> String {
    format!(
        "{} files, answers 0, 21 to 29, 31: {:?}; accepted with an entry at 8 steps: {}, with nothing wrong but an \
         entry at 9 steps: {}, but an own import: {}, with an own import and 26, 27, 28: {:?}; \
         about the largest, answers 0, 29, 24: {:?}; \
         {} labels asked for, {} found, {} for an area above 255, {} of areas with one in files with an own import; \
         label blocks of 0, 1, 2, 32 entries: {:?}, none in a refused file: {}; round trips: {}",
        seen.total("read"),
        seen.each("read", [0].into_iter().chain(21..=29).chain([31])),
        seen.times("file with an entry at 8 steps", 0),
        seen.times("file with an entry too far", 29),
        seen.times("file with an own import", 29),
        seen.each("file with an own import", [26, 27, 28]),
        seen.each("largest file", [0, 29, 24]),
        seen.total("label"),
        seen.total("label") - seen.times("label", 0),
        seen.total("label above 255"),
        seen.times("labelled but for an own import", 0),
        seen.each("label block, entries", [0, 1, 2, 32]),
        seen.times("labels", 0),
        seen.total("round trip"),
    )
}

fn shape(chance: &mut Chance) -> Shape {
    match chance.below(100) {
        0..60 => Shape::Sparse,
        60..68 => Shape::Medium,
        68..84 => Shape::Chain,
        84..99 => Shape::Ring,
        _ => Shape::Dense,
    }
}

fn every_pair(firsts: u8) -> Pairs {
    let row = |first: u8| (0..32).map(move |second| (first, second));
    (0..firsts).flat_map(row).collect()
}

/// Every pair that a relation can have, but for own imports; only what is defined where is left to choose.
pub fn largest(chance: &mut Chance) -> (State, Labels) {
    let mut state = State {
        users: (0..32).collect(),
        areas: (0..32).collect(),
        objects: (0..64).collect(),
        owners: every_pair(32),
        definitions: (0..64).map(|object| (object, chance.below(32) as u8)).collect(),
        structure: every_pair(32),
        imports: every_pair(64),
        exports: every_pair(64),
    };
    state.imports.retain(|pair| !state.definitions.contains(pair));
    let labels = (0..32).map(|area| (area, random_text(chance))).collect();
    (state, labels)
}

/// The largest file; with one own import, with all 64 of them, and with one import more than may be stated.
fn about_the_largest(largest: &Draft, chance: &mut Chance, seen: &mut Seen) {
    seen.demand(largest.bytes().len() == LARGEST_BYTES, "the length of the largest file");
    let (mut one_own, mut every, mut too_many) = (largest.clone(), largest.clone(), largest.clone());
    own_import(&mut one_own, chance);
    every.tables[IMPORTS] = every_pair(64)
        .into_iter()
        .map(|(object, area)| vec![object, area])
        .collect();
    too_many.tables[IMPORTS].resize(2049, vec![63, 31]);
    for (draft, expected) in [(largest, 0), (&one_own, 29), (&every, 29), (&too_many, 24)] {
        if let Some(number) = compare_read(&draft.bytes(), seen) {
            seen.demand(number == expected, "the answers to the largest file and those about it");
            seen.count("largest file", number);
        }
    }
}

fn one_file(state: &State, labels: &Labels, chance: &mut Chance, seen: &mut Seen) {
    let mut draft = Draft::new(state, labels);
    for _ in 0..chance.pick(&[0, 0, 1, 1, 1, 2]) {
        let damage = chance.below(TABLE_DAMAGES.len());
        TABLE_DAMAGES[damage](&mut draft, chance);
        seen.count("table damage", damage as u32);
    }
    let mut file = draft.bytes();
    let byte_damages = chance.pick(&[0, 0, 0, 0, 1, 1, 2]);
    for _ in 0..byte_damages {
        let damage = chance.below(BYTE_DAMAGES.len());
        BYTE_DAMAGES[damage](&mut file, chance);
        seen.count("byte damage", damage as u32);
    }
    if chance.once_in(40) {
        seen.compare(&Case::read(&file, chance.pick(&OTHER_LENGTHS)));
    }
    let read = compare_file(&file, labels, chance, seen);
    if let (Some(answer), 0) = (read, byte_damages) {
        count_file(&draft.state(), answer, seen);
    }
}

/// The file of areas in a row or in a circle, with nothing wrong but an entry at 9 steps, if there is room for one.
fn file_too_far(chance: &mut Chance, seen: &mut Seen) {
    let state = sound_state(chance.pick(&[Shape::Chain, Shape::Ring]), chance);
    let labels = random_labels(&state, chance);
    let mut draft = Draft::new(&state, &labels);
    entry_too_far(&mut draft, chance);
    if let Some(answer) = compare_file(&draft.bytes(), &labels, chance, seen) {
        count_file(&draft.state(), answer, seen);
    }
}

/// A file with an import by the definer; in half of them something else may be wrong.
fn file_with_own_import(chance: &mut Chance, seen: &mut Seen) {
    let state = sound_state(shape(chance), chance);
    let labels = random_labels(&state, chance);
    let mut draft = Draft::new(&state, &labels);
    own_import(&mut draft, chance);
    if chance.once_in(2) {
        chance.pick(&TABLE_DAMAGES)(&mut draft, chance);
    }
    let file = draft.bytes();
    let Some(answer) = compare_file(&file, &labels, chance, seen) else {
        return;
    };
    let state = draft.state();
    count_file(&state, answer, seen);
    let would_be_found = answer == 29 && is_only_own(&state);
    if let (Some(&area), true) = (labels.keys().next(), would_be_found) {
        if let Some(label) = seen.compare(&Case::label(&file, area.into())) {
            seen.count("labelled but for an own import", label.number);
        }
    }
}

/// Counts a file that is as drafted for this state.
fn count_file(state: &State, answer: u32, seen: &mut Seen) {
    if !is_small(state) {
        count_about_the_limit(state, answer, seen);
    }
    if has_own(state) && (answer != 29 || is_only_own(state)) {
        seen.count("file with an own import", answer);
    }
}

/// Accepted with an entry at 8 steps, or refused for nothing but entries at 9?
fn count_about_the_limit(state: &State, answer: u32, seen: &mut Seen) {
    let at_8_steps = || {
        entry_lengths(state)
            .into_values()
            .any(|steps| steps == Some(MOST_STEPS))
    };
    if answer == 0 && at_8_steps() {
        seen.count("file with an entry at 8 steps", answer);
    }
    if answer == 29 && is_one_step_too_far(state) {
        seen.count("file with an entry too far", answer);
    }
}

/// The reader, whose answer it gives, and where the label block stands. An accepted file is written again.
fn compare_read(file: &[u8], seen: &mut Seen) -> Option<u32> {
    let read = seen.compare(&Case::read(file, RECORD_BYTES));
    let labels = seen.compare(&Case::labels(file));
    let (read, labels) = (read?, labels?);
    if read.number == 0 {
        seen.count("label block, entries", labels.bytes.len() as u32 / 32);
        write_again(file, &read.bytes, &labels.bytes, seen);
    }
    Some(read.number)
}

/// The record and the label block that the library has given for the file: from both it writes the file.
fn write_again(file: &[u8], record: &[u8], block: &[u8], seen: &mut Seen) {
    let again = reference::read_file(file).map(|(state, labels)| reference::write_file(&state, &labels));
    seen.demand(
        again.as_deref() == Ok(file),
        "an accepted file is the one that the reference writes",
    );
    let site = Site::of_bytes(record.to_vec());
    let case = Case::write(&site, block, file.len());
    let library = library::write_file(record, block, file.len());
    let the_file = Answer::new(file.len() as u32, file.to_vec());
    if seen.compare_answers(&case, library, the_file).is_some() {
        seen.count("round trip", 0);
    }
}

/// The reader, whose answer it gives, and the label finder: for every area in some files, for two in the others; and
/// for an area above 255.
fn compare_file(file: &[u8], labels: &Labels, chance: &mut Chance, seen: &mut Seen) -> Option<u32> {
    let read = compare_read(file, seen);
    let labelled: Vec<u8> = labels.keys().copied().chain([255]).collect();
    let areas: Vec<u32> = match chance.once_in(12) {
        true => (0..=33).chain([255]).collect(),
        false => vec![chance.below(33) as u32, chance.pick(&labelled).into()],
    };
    for area in areas {
        seen.compare(&Case::label(file, area));
    }
    compare_label_above(file, widened(chance.pick(&labelled), 1, chance), seen);
    read
}

/// The label finder for an area above 255.
fn compare_label_above(file: &[u8], area: u32, seen: &mut Seen) {
    if let Some(answer) = seen.compare(&Case::label(file, area)) {
        seen.count("label above 255", answer.number);
        if reference::label(file, area % 256) != (0, 0) {
            seen.count("labelled but for 256 or more", answer.number);
        }
    }
}
