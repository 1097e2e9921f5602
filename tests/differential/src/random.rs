//! Random steps over random states, each accepted add taken back, and states that are not sound.

use crate::aimed;
use crate::borders;
use crate::case::Case;
use crate::instructions::instruction_of_anyone;
use crate::numbers::{free, members, seconds_with, some, widened, STEP_ANSWERS};
use crate::own_imports;
use crate::seen::Seen;
use crate::shards::Plan;
use crate::site::Site;
use crate::states::{sound_state, Shape};
use crate::taking_back;
use crate::unsound::{one_step_too_far, turned};
use chance::Chance;
use reference::State;

/// For each shape, how many walks a shard has, and how many steps each of them. Dense states are dear in the reference.
const WALKS: [(Shape, usize, usize); 6] = [
    (Shape::Sparse, 500, 40),
    (Shape::Medium, 200, 40),
    (Shape::Chain, 250, 25),
    (Shape::Ring, 250, 35),
    (Shape::BothWays, 50, 25),
    (Shape::Dense, 16, 25),
];

/// How many states a shard has for instructions about the limit on steps, and how many of these are tried in each.
const AIMED: usize = 300;
const AIMED_STEPS: usize = 8;

/// For each shape, how many states a shard has that the access question is asked of for every area and object.
const QUESTIONED: [(Shape, usize); 4] = [
    (Shape::Sparse, 45),
    (Shape::Ring, 10),
    (Shape::Chain, 6),
    (Shape::Medium, 6),
];

/// How many states a shard has for adds that are tried and taken back, and how many of each kind are tried in each.
const TRIED: usize = 200;
const TRIED_STEPS: usize = 3;

/// How many listed areas and objects are asked about at the end of a walk.
const QUESTIONS: usize = 4;

/// How many definitions of a shard go from one area to another.
const MOVED: usize = 60;

/// How many records a shard has with some places turned, with an entry at 9 steps, and with an own import.
const TURNED: usize = 2000;
const TOO_FAR: usize = 200;
const OWN: usize = 60;

const UNSOUND: u32 = 12;

/// The answers to code 9 by an area that has defined the object before: it is unlisted now, or another area defines it.
const DEFINER_OF_BEFORE: [u32; 3] = [4, 0, 10];

/// The answers that each code can have, but for 12, 1 and 2.
const ANSWERS: [(u32, &[u32]); 12] = [
    (1, &[0, 3, 6]),
    (2, &[0, 3, 4, 5, 8, 9]),
    (3, &[0, 3, 4, 5, 6]),
    (4, &[0, 3, 4, 5, 7, 8]),
    (5, &[0, 3, 4, 5, 6]),
    (6, &[0, 3, 4, 5, 7, 11]),
    (7, &[0, 3, 4, 5, 6]),
    (8, &[0, 3, 4, 5, 7, 11]),
    (9, &[0, 3, 4, 5, 6, 15, 10]),
    (10, &[0, 3, 4, 5, 7, 11]),
    (11, &[0, 3, 4, 5, 6, 10]),
    (12, &[0, 3, 4, 5, 7, 11]),
];

pub fn run(plan: &Plan) -> (String, Seen) {
    let mut seen = plan.run("random", |_, chance, seen| {
        for (shape, walks, steps) in WALKS {
            (0..walks).for_each(|_| walk(&sound_state(shape, chance), steps, chance, seen));
        }
        (0..AIMED).for_each(|_| aimed_steps(chance, seen));
        (0..MOVED).for_each(|_| moved_definition(chance, seen));
        (0..TURNED).for_each(|_| turned_record(chance, seen));
        (0..TOO_FAR).for_each(|_| too_far_record(chance, seen));
        (0..OWN).for_each(|_| own_imports::one_record(chance, seen));
        for (shape, states) in QUESTIONED {
            (0..states).for_each(|_| every_question(&sound_state(shape, chance), seen));
        }
        (0..TRIED).for_each(|_| tried_adds(chance, seen));
    });
    require(&mut seen);
    let line = format!(
        "{}; {}; {}; {}",
        answers(&seen),
        taking_back::text(&seen),
        about_the_limit(&seen),
        about_own_imports(&seen)
    );
    (line, seen)
}

fn require(seen: &mut Seen) {
    seen.require("step", STEP_ANSWERS.into_iter().chain([UNSOUND]), 500);
    seen.require("access", (0..=8).chain([255, 258, 260, 268]), 300);
    seen.require("listed but for 256 or more", [258], 500);
    seen.require("question above 255", [258, 268], 500);
    seen.require("questioned states", [0], 500);
    for (code, answers) in ANSWERS {
        seen.require("code and answer", answers.iter().map(|answer| code * 100 + answer), 100);
    }
    seen.require("question, steps and answer", [7007, 8008, 9255], 300);
    seen.require("import, steps and answer", [800, 910], 300);
    seen.require("export, steps and answer", [800, 910], 300);
    seen.require("removal leaves 8 steps", [6, 10, 12], 100);
    seen.require("removal would leave 9 steps", [6, 10, 12], 100);
    seen.require("removal would leave more than 9 steps", [6, 10, 12], 100);
    seen.require("removal would leave one area too far", [6, 10, 12], 100);
    seen.require("one step too far", [12, 268], 300);
    own_imports::require_steps(seen, 300);
    own_imports::require_records(seen, 300);
    seen.require("import by the definer of before", DEFINER_OF_BEFORE, 80);
    taking_back::require(seen, 2000, 1000);
}

fn answers(seen: &Seen) -> String {
    format!(
        "{} steps, answers 0 to 7, 15, 8 to 11, 12: {:?}; {} access questions, all there are for {} states, \
         answers 0 to 8: {:?}, no access: {}, refused 2, 4, 12: {:?}; {} with a number above 255",
        seen.total("step"),
        seen.each("step", STEP_ANSWERS.into_iter().chain([UNSOUND])),
        seen.total("access"),
        seen.total("questioned states"),
        seen.each("access", 0..=8),
        seen.times("access", 255),
        seen.each("access", [258, 260, 268]),
        seen.total("question above 255"),
    )
}

fn about_the_limit(seen: &Seen) -> String {
    let by_code = |what: &'static str| seen.each(what, [6, 10, 12]);
    format!(
        "areas at 7, 8, 9 steps asked about: {:?}; imports at 8, 9 steps: {:?}, exports: {:?}; \
         removals by codes 6, 10, 12 that leave 8 steps: {:?}, that would leave 9: {:?}, more: {:?}, \
         and one area too far: {:?}; records and questions with nothing wrong but an entry at 9 steps: {:?}",
        seen.each("question, steps and answer", [7007, 8008, 9255]),
        seen.each("import, steps and answer", [800, 910]),
        seen.each("export, steps and answer", [800, 910]),
        by_code("removal leaves 8 steps"),
        by_code("removal would leave 9 steps"),
        by_code("removal would leave more than 9 steps"),
        by_code("removal would leave one area too far"),
        seen.each("one step too far", [12, 268]),
    )
}

fn about_own_imports(seen: &Seen) -> String {
    format!(
        "{}; imports by the definer of before, answers 4, 0, 10: {:?}; {}",
        own_imports::steps_text(seen),
        seen.each("import by the definer of before", DEFINER_OF_BEFORE),
        own_imports::records_text(seen),
    )
}

/// Steps one after the other, each in the state that the one before it left, and access questions at the end.
fn walk(start: &State, steps: usize, chance: &mut Chance, seen: &mut Seen) {
    let mut site = Site::of_state(start);
    for _ in 0..steps {
        let Some(state) = &site.state else { return };
        let instruction = instruction_of_anyone(state, chance);
        if step_on(&mut site, instruction, seen).is_none() {
            return;
        }
    }
    (0..QUESTIONS).for_each(|_| one_question(&site, chance, seen));
}

/// One step of a walk, to the state that it leaves. Gives the answer, if both sides give the same.
fn step_on(site: &mut Site, instruction: [u8; 4], seen: &mut Seen) -> Option<u32> {
    let answer = taking_back::step(site, instruction, seen)?;
    let state = site.state.as_ref()?;
    seen.demand(
        answer.number != UNSOUND,
        "every walk goes from one sound state to the next",
    );
    seen.count("code and answer", u32::from(instruction[0]) * 100 + answer.number);
    borders::count_step(state, instruction, answer.number, seen);
    own_imports::count_step(state, instruction, answer.number, seen);
    if answer.number == 0 {
        *site = Site::of_bytes(answer.bytes);
    }
    Some(answer.number)
}

/// An object goes from one area of a user to another of his, and at each stage both areas try to import it.
fn moved_definition(chance: &mut Chance, seen: &mut Seen) {
    let state = sound_state(chance.pick(&[Shape::Sparse, Shape::Ring]), chance);
    let user = chance.pick(&members(&state.users));
    let mut areas = seconds_with(&state.owners, user);
    let one = areas.swap_remove(chance.below(areas.len()));
    let Some(other) = some(&areas, chance) else { return };
    let object = chance.pick(&free(&members(&state.objects), 64));
    let mut site = Site::of_state(&state);
    for (code, area) in [(7, one), (9, other), (9, one), (10, other), (8, one)] {
        step_on(&mut site, [code, user, area, object], seen);
    }
    for (code, area) in [(9, one), (7, other), (9, other), (11, other), (9, one)] {
        let answer = step_on(&mut site, [code, user, area, object], seen);
        if let (9, Some(answer), true) = (code, answer, area == one) {
            seen.count("import by the definer of before", answer);
        }
    }
}

/// Instructions about the limit on steps, each in the same state.
fn aimed_steps(chance: &mut Chance, seen: &mut Seen) {
    let state = sound_state(chance.pick(&[Shape::Chain, Shape::BothWays]), chance);
    let users = members(&state.users);
    let site = Site::of_state(&state);
    for _ in 0..AIMED_STEPS {
        let Some(instruction) = aimed::instruction(&state, &users, chance) else {
            continue;
        };
        if let Some(answer) = taking_back::step(&site, instruction, seen) {
            borders::count_step(&state, instruction, answer.number, seen);
        }
    }
}

/// "Engineers try a lending, look, and take it back": imports and exports by which an area gets access, and owners who
/// were listed before, each in the same state.
fn tried_adds(chance: &mut Chance, seen: &mut Seen) {
    let shape = chance.pick(&[Shape::Sparse, Shape::Medium, Shape::Chain, Shape::Ring]);
    let state = sound_state(shape, chance);
    let site = Site::of_state(&state);
    for _ in 0..TRIED_STEPS {
        let lendings = [9, 11].map(|code| taking_back::lending(&state, code, chance));
        let owner = taking_back::listed_owner(&state, chance);
        for add in lendings.into_iter().chain([owner]).flatten() {
            taking_back::step(&site, add, seen);
        }
    }
}

/// About a listed area and a listed object, often at 7 to 9 steps, and about two numbers that differ from them above
/// the low byte.
fn one_question(site: &Site, chance: &mut Chance, seen: &mut Seen) {
    let Some(state) = &site.state else { return };
    let (areas, objects) = (members(&state.areas), members(&state.objects));
    if !areas.is_empty() && !objects.is_empty() {
        let far = borders::pairs_at(state, 7..=9);
        let (object, area) = match far.is_empty() || chance.once_in(2) {
            true => (chance.pick(&objects), chance.pick(&areas)),
            false => chance.pick(&far),
        };
        question(site, area.into(), object.into(), seen);
        question(site, widened(area, 2, chance), widened(object, 2, chance), seen);
    }
}

/// One instruction and one access question about the same numbers, at times put above 255.
fn step_and_question(site: &Site, instruction: [u8; 4], chance: &mut Chance, seen: &mut Seen) {
    taking_back::step(site, instruction, seen);
    let [_, _, area, object] = instruction;
    question(site, widened(area, 8, chance), widened(object, 8, chance), seen);
}

fn question(site: &Site, area: u32, object: u32, seen: &mut Seen) {
    let Some(answer) = seen.compare(&Case::access(site, area, object)) else {
        return;
    };
    let answer = answer.number;
    if area > 255 || object > 255 {
        seen.count("question above 255", answer);
        if are_listed(site, area as u8, object as u8) {
            seen.count("listed but for 256 or more", answer);
        }
    }
    if let (Some(state), 0..256) = (&site.state, answer) {
        borders::count_question(state, area as u8, object as u8, answer, seen);
    }
}

/// Are both numbers listed?
fn are_listed(site: &Site, area: u8, object: u8) -> bool {
    let listed = |state: &State| state.areas.contains(&area) && state.objects.contains(&object);
    site.state.as_ref().is_some_and(listed)
}

/// A state that is mostly unsound.
fn turned_record(chance: &mut Chance, seen: &mut Seen) {
    let shape = match chance.below(100) {
        0..60 => Shape::Sparse,
        60..75 => Shape::Ring,
        75..87 => Shape::Chain,
        87..99 => Shape::Medium,
        _ => Shape::Dense,
    };
    let state = turned(&sound_state(shape, chance), chance);
    let instruction = instruction_of_anyone(&state, chance);
    step_and_question(&Site::of_state(&state), instruction, chance, seen);
}

/// A state with nothing wrong but an import or export at 9 steps, in a step and in a question.
fn too_far_record(chance: &mut Chance, seen: &mut Seen) {
    let state = sound_state(chance.pick(&[Shape::Chain, Shape::Ring]), chance);
    let Some(state) = one_step_too_far(&state, chance) else {
        return;
    };
    let is_too_far = borders::is_one_step_too_far(&state);
    let [code, user, area, object] = instruction_of_anyone(&state, chance);
    let site = Site::of_state(&state);
    let step = taking_back::step(&site, [code, user, area, object], seen);
    let question = seen.compare(&Case::access(&site, area.into(), object.into()));
    for answer in [step, question].into_iter().flatten().filter(|_| is_too_far) {
        seen.count("one step too far", answer.number);
    }
}

/// The access question for every area and object, and the first number beyond the limits.
fn every_question(state: &State, seen: &mut Seen) {
    let site = Site::of_state(state);
    seen.count("questioned states", 0);
    for area in 0..=32 {
        for object in 0..=64 {
            question(&site, area, object, seen);
        }
    }
}
