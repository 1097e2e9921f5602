//! Demand 3, executed: lists of instructions of any four bytes, run over the library while the owners of an area stay
//! silent. Each accepted add is taken back besides, and the list goes on as if it were not.

use crate::answer::Answer;
use crate::borders::{is_small, pairs_at};
use crate::case::Case;
use crate::chains::Lengths;
use crate::instructions::{any_bytes, instruction, Domain};
use crate::library;
use crate::numbers::{firsts_with, members, STEP_ANSWERS};
use crate::own_imports;
use crate::seen::Seen;
use crate::shards::Plan;
use crate::site::Site;
use crate::states::{sound_state, Shape};
use crate::taking_back;
use chance::Chance;
use reference::State;

/// For each shape, how many lists a shard has.
const LISTS: [(Shape, usize); 6] = [
    (Shape::Sparse, 800),
    (Shape::Ring, 600),
    (Shape::BothWays, 200),
    (Shape::Chain, 450),
    (Shape::Medium, 250),
    (Shape::Dense, 3),
];

const LONGEST_LIST: usize = 30;

/// So many refusals as 15 are own imports that were tried again and again.
const AGAIN_AND_AGAIN: u32 = 5;

pub fn run(plan: &Plan) -> (String, Seen) {
    let mut seen = plan.run("lending", |_, chance, seen| {
        for (shape, lists) in LISTS {
            (0..lists).for_each(|_| one_list(shape, chance, seen));
        }
    });
    seen.require("silent area", [0], 5000);
    seen.require("silent area with entries", [0], 5000);
    seen.require("changed", [0], 5000);
    seen.require("instruction", STEP_ANSWERS, 500);
    seen.require("silent at", 7..=9, 500);
    seen.require("silent and moved from", 7..=9, 150);
    seen.require("own imports again and again", [0], 400);
    taking_back::require(&mut seen, 300, 200);
    let line = format!(
        "{} lists, {} of them with a change; instructions, answers 0 to 7, 15, 8 to 11: {:?}; \
         areas with no owner among the activators: {}, {} of them with imports or exports; \
         imports or exports of theirs at 7, 8 steps, and objects at 9: {:?}, at another number after the list: {:?}; \
         with a change and {AGAIN_AND_AGAIN} refusals as 15 or more: {}; {}",
        seen.total("list"),
        seen.times("changed", 0),
        seen.each("instruction", STEP_ANSWERS),
        seen.times("silent area", 0),
        seen.times("silent area with entries", 0),
        seen.each("silent at", 7..=9),
        seen.each("silent and moved from", 7..=9),
        seen.times("own imports again and again", 0),
        taking_back::text(&seen),
    );
    (line, seen)
}

fn one_list(shape: Shape, chance: &mut Chance, seen: &mut Seen) {
    let (start, area) = start(shape, chance);
    let list = list_without(&start, area, chance, seen);
    let acts = |area: u8| list.iter().any(|bytes| start.owners.contains(&(bytes[1], area)));
    let silent: Vec<u8> = start.areas.iter().copied().filter(|&area| !acts(area)).collect();
    for &area in &silent {
        seen.count("silent area", 0);
        if entries(&start).any(|entry| entry.1 == area) {
            seen.count("silent area with entries", 0);
        }
    }
    let site = Site::of_state(&start);
    let Some(answer) = seen.compare(&Case::list(&site, &list)) else {
        return;
    };
    if answer.bytes != site.record {
        seen.count("changed", 0);
    }
    if let Some(end) = reference::from_record(&answer.bytes) {
        count_about_the_limit(&start, &silent, &end, seen);
    }
}

/// Counts what silent areas import or export at 7 or 8 steps, and the objects that are at 9 steps from them.
fn count_about_the_limit(start: &State, silent: &[u8], end: &State, seen: &mut Seen) {
    for &object in start.objects.iter().filter(|_| !is_small(start)) {
        let (before, after) = (Lengths::new(start, object), Lengths::new(end, object));
        for &area in silent {
            let has_entry = entries(start).any(|&entry| entry == (object, area));
            if let (Some(steps @ 7..=8), true) | (Some(steps @ 9), false) = (before.to(area), has_entry) {
                seen.count("silent at", steps.into());
                if after.to(area) != Some(steps) {
                    seen.count("silent and moved from", steps.into());
                }
            }
        }
    }
}

fn entries(state: &State) -> impl Iterator<Item = &(u8, u8)> {
    state.imports.iter().chain(&state.exports)
}

/// A sound state, and the area whose owners are to be silent: mostly one with imports or exports, often one at 7 to 9
/// steps, and mostly with a user who does not own it.
pub fn start(shape: Shape, chance: &mut Chance) -> (State, u8) {
    loop {
        let state = sound_state(shape, chance);
        let all = members(&state.areas);
        let with_entries: Vec<u8> = entries(&state).map(|entry| entry.1).collect();
        let far: Vec<u8> = pairs_at(&state, 7..=9).iter().map(|pair| pair.1).collect();
        let areas = match chance.below(5) {
            1..3 if !far.is_empty() => &far,
            1..5 if !with_entries.is_empty() => &with_entries,
            _ => &all,
        };
        let area = chance.pick(areas);
        let owned_by_all = state.users.iter().all(|&user| state.owners.contains(&(user, area)));
        if !owned_by_all || chance.once_in(20) {
            return (state, area);
        }
    }
}

/// A list, perhaps empty, in which no owner of the area activates anything. Most of it fits the state where it stands.
/// One list in six insists on own imports.
fn list_without(start: &State, silent: u8, chance: &mut Chance, seen: &mut Seen) -> Vec<[u8; 4]> {
    let owners = firsts_with(&start.owners, silent);
    let insists = chance.once_in(6);
    let mut list = Vec::new();
    let mut state = start.clone();
    let mut refused_as_15 = 0;
    for _ in 0..chance.below(LONGEST_LIST + 1) {
        let mut others = members(&state.users);
        others.retain(|user| !owners.contains(user));
        let own_import = match insists && !others.is_empty() && chance.once_in(2) {
            true => own_imports::instruction(&state, &others, chance),
            false => None,
        };
        let bytes = own_import.unwrap_or_else(|| bytes_without(&state, &owners, &others, chance));
        list.push(bytes);
        let answer = match reference::step(&state, bytes) {
            Ok(next) => {
                taking_back::count(&state, bytes, seen);
                state = next;
                0
            }
            Err(refusal) => refusal.into(),
        };
        seen.count("instruction", answer);
        refused_as_15 += u32::from(answer == 15);
    }
    if refused_as_15 >= AGAIN_AND_AGAIN && state != *start {
        seen.count("own imports again and again", 0);
    }
    list
}

/// Any four bytes, or an instruction of another user, or one that fits the silent owners in another's name.
pub fn bytes_without(state: &State, silent: &[u8], others: &[u8], chance: &mut Chance) -> [u8; 4] {
    let mut bytes = match chance.below(10) {
        0 => any_bytes(chance),
        1..4 => instruction(state, &Domain::whole(silent), chance),
        _ if others.is_empty() => any_bytes(chance),
        _ => instruction(state, &Domain::whole(others), chance),
    };
    if silent.contains(&bytes[1]) || chance.once_in(10) {
        let anyone: Vec<u8> = (0..=255).filter(|user| !silent.contains(user)).collect();
        let any = others.is_empty() || chance.once_in(4);
        bytes[1] = chance.pick(if any { &anyone } else { others });
    }
    bytes
}

/// The list over the library: the record at its end, and a complaint if demand 3 does not hold of it, or if an add is
/// not taken back.
pub fn run_by_library(site: &Site, list: &[[u8; 4]]) -> Answer {
    let mut now = Answer::new(0_u32, site.record.clone());
    let mut complaints = Vec::new();
    for &instruction in list {
        let before = now.bytes;
        now = library::step(&before, instruction);
        complaints.push(now.complaint.clone());
        if now.number == 0 {
            complaints.extend(wrong_with_one(&before, instruction, &now));
        }
    }
    if !library::is_sound(&now.bytes) {
        complaints.push("the library calls the state after the list unsound".to_string());
    }
    if let (Some(start), Some(end)) = (&site.state, reference::from_record(&now.bytes)) {
        complaints.extend(broken_promises(start, list, &end));
    }
    Answer::new(0_u32, now.bytes).complaining(complaints)
}

/// What is wrong with an accepted instruction, by the records before and after it.
fn wrong_with_one(before: &[u8], instruction: [u8; 4], now: &Answer) -> Vec<String> {
    let mut wrong = Vec::new();
    if !library::is_sound(&now.bytes) {
        wrong.push(format!(
            "the library accepts {instruction:?} and calls the state after it unsound"
        ));
    }
    if own_imports::are_in_record(&now.bytes) {
        wrong.push(format!("after {instruction:?} an area imports what it defines"));
    }
    wrong.extend(taking_back::remove(before, instruction, now).map(|back| back.complaint));
    wrong
}

/// What demand 3 says and is not so, of a sound state at the start.
pub fn broken_promises(start: &State, list: &[[u8; 4]], end: &State) -> Vec<String> {
    let lost = |&area: &u8| reference::lending_guarantee(start, list, end, area).err();
    let mut broken: Vec<String> = start.areas.iter().filter_map(lost).collect();
    if !end.is_sound() {
        broken.push("the reference calls the state after the list unsound".to_string());
    }
    broken
}
