//! Recipes over the small states of `exhaustive`: each of one instruction, and of two out of a set.

use crate::answer::Answer;
use crate::case::Case;
use crate::exhaustive::{state_of, with_own_import, PLACES};
use crate::expected;
use crate::numbers::STEP_ANSWERS;
use crate::seen::Seen;
use crate::shards::Plan;
use crate::site::Site;
use crate::templates::{fixed, operand};
use chance::Chance;
use reference::Call;

/// Every instruction with these as activator, a and b is a recipe of one, and so is each of those beyond.
const SMALL: [u8; 2] = [0, 1];
const BEYOND: [[u8; 4]; 10] = [
    [1, 0, 2, 0],
    [1, 0, 32, 0],
    [7, 0, 0, 63],
    [7, 0, 0, 64],
    [3, 0, 0, 2],
    [3, 0, 0, 32],
    [1, 2, 1, 0],
    [1, 32, 1, 0],
    [0, 0, 0, 0],
    [13, 0, 0, 0],
];

/// Code, a and b of the instructions for recipes of two: each add and its remove, an own import, and user 0 gone.
const PAIRED: [[u8; 3]; 14] = [
    [1, 1, 0],
    [2, 1, 0],
    [3, 0, 1],
    [4, 0, 1],
    [5, 1, 0],
    [6, 1, 0],
    [7, 0, 0],
    [8, 0, 0],
    [9, 1, 0],
    [10, 1, 0],
    [11, 1, 0],
    [12, 1, 0],
    [9, 0, 0],
    [4, 0, 0],
];

/// Each number comes twice, so that it can be a fixed number and two parameters.
const PARAMETERS: [u8; 4] = [0, 1, 0, 1];
const CALL: Call = Call {
    activator: 0,
    parameters: PARAMETERS,
};

/// One in so many of the records over the small numbers, sound or not, is put.
const SKIPPED: usize = 97;

/// What it is put with: a recipe, and one that is 14.
const RECIPE: [u8; 5] = [7, 0, 0, 1, 1];
const NO_RECIPE: [u8; 5] = [7, 0, 0, 2, 1];

pub fn run(plan: &Plan) -> (String, Seen) {
    let sites: Vec<Site> = reference::small_states().iter().map(Site::of_state).collect();
    let own: Vec<Site> = sites.iter().filter_map(with_own_import).collect();
    let mut seen = plan.run("small recipes", |shard, chance, seen| {
        for site in sites.iter().skip(shard).step_by(plan.shards()) {
            every_single(site, seen);
            every_pair(site, chance, seen);
        }
        let first = (shard * SKIPPED) as u32;
        let records = (first..1 << PLACES).step_by(plan.shards() * SKIPPED);
        let any = records.map(|places| Site::of_state(&state_of(places)));
        let own = own.iter().skip(shard).step_by(plan.shards()).cloned();
        any.chain(own).for_each(|site| both(&site, seen));
    });
    seen.require("small recipe of one", STEP_ANSWERS, 500);
    seen.require("small recipe of two, place", 0..=2, 5000);
    let of_the_set = STEP_ANSWERS.into_iter().filter(|&number| number > 2);
    seen.require("small recipe of two, number", of_the_set, 500);
    seen.require("small recipe, unsound", [12], 5000);
    (text(&seen), seen)
}

fn text(seen: &Seen) -> String {
    format!(
        "over small states {} of one instruction, each what its step is, answers 0 to 7, 15, 8 to 11: {:?}; \
         {} of two, places 0 to 2: {:?}, answers 0 to 7, 15, 8 to 11: {:?}; {} in unsound ones",
        seen.total("small recipe of one"),
        seen.each("small recipe of one", STEP_ANSWERS),
        seen.total("small recipe of two, place"),
        seen.each("small recipe of two, place", 0..=2),
        seen.each("small recipe of two, number", STEP_ANSWERS),
        seen.total("small recipe, unsound"),
    )
}

fn every_single(site: &Site, seen: &mut Seen) {
    for code in 1..=12 {
        for (activator, a) in SMALL.into_iter().flat_map(|user| SMALL.map(|area| (user, area))) {
            SMALL.iter().for_each(|&b| single(site, [code, activator, a, b], seen));
        }
    }
    BEYOND.iter().for_each(|&instruction| single(site, instruction, seen));
}

/// A recipe of one instruction with fixed numbers is what the reference's step is, at place 1 if it is refused.
fn single(site: &Site, instruction: [u8; 4], seen: &mut Seen) {
    let bytes = fixed(instruction);
    let call = Call {
        activator: instruction[1],
        parameters: [255; 4],
    };
    let case = Case::recipe(site, &bytes, call);
    let step = expected::step(site, instruction);
    seen.count("small recipe of one", step.number);
    let number = match step.number {
        0 => 0,
        refusal => 256 + refusal,
    };
    seen.compare_answers(&case, case.by_library(), Answer { number, ..step });
}

/// Each instruction of the set that is accepted, with each behind it; and each that is refused, with one behind it.
fn every_pair(site: &Site, chance: &mut Chance, seen: &mut Seen) {
    let Some(state) = &site.state else { return };
    for first in PAIRED {
        let [code, a, b] = first;
        match reference::step(state, [code, 0, a, b]) {
            Ok(_) => PAIRED
                .iter()
                .for_each(|&second| pair(site, [first, second], chance, seen)),
            Err(_) => pair(site, [first, chance.pick(&PAIRED)], chance, seen),
        }
    }
}

fn pair(site: &Site, instructions: [[u8; 3]; 2], chance: &mut Chance, seen: &mut Seen) {
    let mut bytes = Vec::with_capacity(10);
    for [code, a, b] in instructions {
        bytes.push(code);
        bytes.extend(operand(a, &PARAMETERS, chance));
        bytes.extend(operand(b, &PARAMETERS, chance));
    }
    if let Some(answer) = seen.compare(&Case::recipe(site, &bytes, CALL)) {
        seen.count("small recipe of two, place", answer.number >> 8);
        seen.count("small recipe of two, number", answer.number & 0xff);
    }
}

/// One record with both.
fn both(site: &Site, seen: &mut Seen) {
    let sound = site.state.as_ref().is_some_and(|state| state.is_sound());
    for bytes in [RECIPE, NO_RECIPE] {
        if let (Some(answer), false) = (seen.compare(&Case::recipe(site, &bytes, CALL)), sound) {
            seen.count("small recipe, unsound", answer.number);
        }
    }
}
