//! Why an instruction is refused: removals of all that is there, above all, which pairs they would lose, and
//! instructions that are refused otherwise or accepted.

use crate::answer::Answer;
use crate::case::Case;
use crate::instructions::instruction_of_anyone;
use crate::library;
use crate::numbers::{firsts_with, free, members, some, STEP_ANSWERS};
use crate::seen::Seen;
use crate::shards::Plan;
use crate::site::Site;
use crate::states::{sound_state, Shape};
use crate::unsound::spoilt;
use crate::wanted;
use chance::Chance;
use reference::{Entry, Lost, State};
use std::collections::BTreeSet;

/// For each shape, how many states a shard has.
const STATES: [(Shape, usize); 7] = [
    (Shape::Layers, 60),
    (Shape::Sparse, 100),
    (Shape::Medium, 15),
    (Shape::Chain, 40),
    (Shape::Ring, 40),
    (Shape::BothWays, 10),
    (Shape::Dense, 1),
];

/// So many removals of each code are tried in a state.
const REMOVALS: usize = 10;

/// The codes that can be refused as 11.
const CODES: [u32; 4] = [6, 8, 10, 12];

/// What is counted by the code where an import, and where an export is named.
const NAMED: [&str; 2] = ["import named, by code", "export named, by code"];

const LOSING: u32 = 11;
const UNSOUND: u32 = 12;

pub fn run(plan: &Plan) -> (String, Seen) {
    let mut seen = plan.run("reasons", |_, chance, seen| {
        for (shape, states) in STATES {
            for _ in 0..states {
                let state = sound_state(shape, chance);
                match chance.once_in(2) {
                    true => one_state(&without_spare_imports(state), chance, seen),
                    false => one_state(&state, chance, seen),
                }
            }
        }
    });
    require(&mut seen, 500);
    require_more(&mut seen);
    let line = format!("{}; {}", text(&seen), more(&seen));
    (line, seen)
}

/// It is a failure if a number that a sound state gives came less often than this.
pub fn require(seen: &mut Seen, least: u64) {
    seen.require("reason, number", STEP_ANSWERS, least);
}

pub fn text(seen: &Seen) -> String {
    let [imports, exports] = NAMED.map(|named| seen.each(named, CODES));
    format!(
        "{} reasons, answers 0 to 7, 15, 8 to 11, 12: {:?}; imports named, by codes 6, 8, 10, 12: {imports:?}, \
         exports: {exports:?}",
        seen.total("reason"),
        seen.each("reason, number", STEP_ANSWERS.into_iter().chain([UNSOUND])),
    )
}

fn require_more(seen: &mut Seen) {
    seen.require("reason, number", [UNSOUND], 500);
    for named in NAMED {
        seen.demand(seen.total(named) >= 5000, "5000 pairs of each kind are the least");
        seen.require(named, CODES, 300);
    }
    seen.require("imports and exports lost", [0], 2000);
    seen.require("several objects lost", [0], 1000);
    seen.require("another by the object first", [0], 100);
    seen.require("another by the area first", [0], 200);
    seen.require("away from the cut", [0], 1000);
}

fn more(seen: &Seen) -> String {
    format!(
        "imports and exports lost: {}; pairs of several objects: {}; another pair if objects came before kinds: {}, if \
         areas came before objects: {}; named by code 6 at neither area of the pair: {}",
        seen.times("imports and exports lost", 0),
        seen.times("several objects lost", 0),
        seen.times("another by the object first", 0),
        seen.times("another by the area first", 0),
        seen.times("away from the cut", 0),
    )
}

/// The library's reason, and a complaint if it is not the true one.
pub fn by_library(site: &Site, instruction: [u8; 4]) -> Answer {
    let answer = library::explain_step(&site.record, instruction);
    let is_true = |state: &State, answer: &Answer| is_true(state, instruction, answer.number);
    answer.judged(site.state.as_ref(), is_true)
}

/// "the named pair is lost and no earlier one is"; "For an instruction not refused as 11 .. no pair."
fn is_true(state: &State, instruction: [u8; 4], answer: u32) -> bool {
    let [_, kind, object, area] = answer.to_le_bytes();
    let entry = match kind {
        1 => Entry::Import,
        2 => Entry::Export,
        _ => return answer < 256 && answer != LOSING,
    };
    reference::is_first_lost(state, instruction, &Lost { entry, object, area })
}

/// Without those imports of the lowest object that can be taken out, so that more often it loses nothing but exports,
/// and another object an import.
fn without_spare_imports(mut state: State) -> State {
    let lowest = state.objects.first().copied();
    let imports: Vec<(u8, u8)> = state.imports.iter().copied().collect();
    for (object, area) in imports.into_iter().filter(|pair| Some(pair.0) == lowest) {
        let owner = firsts_with(&state.owners, area)[0];
        if let Ok(next) = reference::step(&state, [10, owner, area, object]) {
            state = next;
        }
    }
    state
}

fn one_state(state: &State, chance: &mut Chance, seen: &mut Seen) {
    let site = Site::of_state(state);
    for instruction in removals(state, chance) {
        put(&site, instruction, seen);
    }
    let any = instruction_of_anyone(state, chance);
    put(&spoilt(state, chance), any, seen);
    let users = members(&state.users);
    let user = chance.pick(&users);
    let refused = wanted::NUMBERS.map(|number| wanted::refusal(number, state, user, chance));
    let stranger = some(&free(&users, 32), chance).map(|stranger| [any[0], stranger, any[2], any[3]]);
    for instruction in refused.into_iter().chain([Some(any), stranger]).flatten() {
        put(&site, instruction, seen);
    }
}

/// Some removals of each code, of pairs that are there and by someone who may.
fn removals(state: &State, chance: &mut Chance) -> Vec<[u8; 4]> {
    let turned = |pairs: &BTreeSet<(u8, u8)>| pairs.iter().map(|&(object, area)| (area, object)).collect();
    let of_codes: [(u8, Vec<(u8, u8)>); 4] = [
        (6, state.structure.iter().copied().collect()),
        (8, turned(&state.definitions)),
        (10, turned(&state.imports)),
        (12, turned(&state.exports)),
    ];
    let mut removals = Vec::new();
    for (code, mut pairs) in of_codes {
        while pairs.len() > REMOVALS {
            pairs.swap_remove(chance.below(pairs.len()));
        }
        for (a, b) in pairs {
            let owner = chance.pick(&firsts_with(&state.owners, a));
            removals.push([code, owner, a, b]);
        }
    }
    removals
}

/// Puts the instruction to both sides, and counts what they say.
pub fn put(site: &Site, instruction: [u8; 4], seen: &mut Seen) {
    let Some(answer) = seen.compare(&Case::reason(site, instruction)) else {
        return;
    };
    let [number, ..] = answer.number.to_le_bytes();
    seen.count("reason, number", number.into());
    if let (LOSING, Some(state)) = (number.into(), &site.state) {
        count_lost(&reference::lost_pairs(state, instruction), instruction, seen);
    }
}

fn count_lost(lost: &BTreeSet<Lost>, [code, _, a, b]: [u8; 4], seen: &mut Seen) {
    let Some(first) = lost.first() else { return };
    seen.count(NAMED[first.entry as usize], code.into());
    let by_object = lost.iter().min_by_key(|pair| (pair.object, pair.entry, pair.area));
    let by_area = lost.iter().min_by_key(|pair| (pair.entry, pair.area, pair.object));
    seen.count_met(&[
        (
            "imports and exports lost",
            lost.iter().any(|pair| pair.entry != first.entry),
        ),
        (
            "several objects lost",
            lost.iter().any(|pair| pair.object != first.object),
        ),
        ("another by the object first", by_object != Some(first)),
        ("another by the area first", by_area != Some(first)),
        ("away from the cut", code == 6 && ![a, b].contains(&first.area)),
    ]);
}
