//! Records that differ from a sound one in one bit: each of the 8,320, for some states. The reference reads the old
//! record with the same place turned. Mostly what is asked is about what the bit stands for.

use crate::asked::{self, Asked};
use crate::instructions::instruction_of_anyone;
use crate::numbers::{firsts_with, members, pick_or, seconds_with, some, Pairs};
use crate::places::{meaning, turn, Meaning, Part, PLACES};
use crate::seen::Seen;
use crate::shards::Plan;
use crate::site::Site;
use crate::states::{list_all, sound_state, Shape};
use chance::Chance;
use reference::State;

/// The shapes of the states, one after the other, and how many a shard has. In each second one all numbers are listed,
/// so that more bits lead to a sound state again.
const SHAPES: [Shape; 4] = [Shape::Sparse, Shape::Ring, Shape::Chain, Shape::Medium];
const STATES: usize = 2;

/// The parts of a record in which one bit can lead from a sound state to another.
const FREE: [Part; 4] = [Part::Owners, Part::Structure, Part::Imports, Part::Exports];

const UNSOUND: u32 = 12;

pub fn run(plan: &Plan) -> (String, Seen) {
    let mut seen = plan.run("one bit", |shard, chance, seen| {
        for round in 0..STATES {
            let mut state = sound_state(SHAPES[(shard + round) % SHAPES.len()], chance);
            if round % 2 == 1 {
                list_all(&mut state, chance);
            }
            bits(&state, 0..PLACES, chance, seen);
        }
        bits(&open_to_all(), (shard..PLACES).step_by(plan.shards()), chance, seen);
    });
    let records = seen.total("one bit");
    seen.demand(records >= 100_000, "100000 records with one bit turned are the least");
    let free = || FREE.into_iter().map(|part| part as u32);
    let sound = seen.each("one bit, sound", free());
    seen.demand(
        sound.iter().sum::<u64>() == seen.total("one bit, sound"),
        "with a bit of a list or of a definition turned no state is sound",
    );
    seen.require("one bit, sound", free(), 2000);
    seen.require("one bit, sound, and answered otherwise", 0..3, 1000);
    asked::require(&mut seen, 10);
    let line = format!(
        "{records} that differ from a sound one in one bit, each bit of {} states; \
         sound by a bit of owners, structure, imports, exports: {sound:?} of {:?}; \
         where sound, steps, recipes, questions that are answered otherwise than before: {:?}; {}",
        records / PLACES as u64,
        seen.each("one bit", free()),
        seen.each("one bit, sound, and answered otherwise", 0..3),
        asked::text(&seen),
    );
    (line, seen)
}

/// Each area lies in each, and exports what it defines, so that all have access to all: most bits of the four relations
/// lead to a sound state.
fn open_to_all() -> State {
    let all = 0..32;
    let definitions: Pairs = (0..64).map(|object| (object, object * 5 % 32)).collect();
    State {
        users: all.clone().collect(),
        areas: all.clone().collect(),
        objects: (0..64).collect(),
        owners: all.clone().map(|user| (user, 31 - user)).collect(),
        structure: all
            .clone()
            .flat_map(|inner| all.clone().map(move |outer| (inner, outer)))
            .collect(),
        imports: Pairs::new(),
        exports: definitions.clone(),
        definitions,
    }
}

/// The record of the state with each of the places turned in turn.
fn bits(state: &State, places: impl Iterator<Item = usize>, chance: &mut Chance, seen: &mut Seen) {
    let before = Site::of_state(state);
    let old_before = reference::to_old_record(state);
    for place in places {
        let mut site = before.clone();
        turn(&mut site.record, place);
        let mut old = old_before.clone();
        old[place] = 1 - old[place];
        site.state = reference::from_old_record(&old);
        seen.demand(
            reference::from_record(&site.record) == site.state,
            "a bit of the new record stands for what the place of the old one does",
        );
        one_bit(&before, &site, &meaning(place), chance, seen);
    }
}

fn one_bit(before: &Site, site: &Site, turned: &Meaning, chance: &mut Chance, seen: &mut Seen) {
    let Some(state) = &before.state else { return };
    let mut asked = Asked::new(state, instruction_about(state, turned, chance), chance);
    asked.aim_question(question_about(state, turned, chance));
    let Some(answers) = asked.put(site, seen) else { return };
    seen.count("one bit", turned.part as u32);
    if answers[0] == UNSOUND {
        return;
    }
    seen.count("one bit, sound", turned.part as u32);
    for (kind, (answer, earlier)) in (0..).zip(answers.into_iter().zip(asked.by_reference(before))) {
        if answer != earlier {
            seen.count("one bit, sound, and answered otherwise", kind);
        }
    }
}

/// An add or a remove of what the bit stands for, mostly by someone who may.
fn instruction_about(state: &State, turned: &Meaning, chance: &mut Chance) -> [u8; 4] {
    let Meaning {
        part, first, second, ..
    } = *turned;
    let any_area = pick_or(&members(&state.areas), 32, 16, chance);
    let [add, a, b] = match part {
        _ if chance.once_in(4) => return instruction_of_anyone(state, chance),
        Part::Owners => return about_owner(state, first, second, chance),
        Part::Users => [3, any_area, first],
        Part::Areas => [1, first, 0],
        Part::Objects => [7, any_area, first],
        Part::Definitions => [7, second, first],
        Part::Structure => [5, first, second],
        Part::Imports => [9, second, first],
        Part::Exports => [11, second, first],
    };
    let activator = pick_or(&firsts_with(&state.owners, a), 32, 16, chance);
    [add + chance.below(2) as u8, activator, a, b]
}

/// By an owner about the user, by the user about an owner, or by an owner about himself, who may be the last.
fn about_owner(state: &State, user: u8, area: u8, chance: &mut Chance) -> [u8; 4] {
    let mut others = firsts_with(&state.owners, area);
    others.retain(|&owner| owner != user);
    let owner = pick_or(&others, 32, 16, chance);
    let (activator, b) = chance.pick(&[(owner, user), (user, owner), (owner, owner)]);
    [chance.pick(&[3, 4]), activator, area, b]
}

/// An area and an object whose access may hang on the bit.
fn question_about(state: &State, turned: &Meaning, chance: &mut Chance) -> [Option<u8>; 2] {
    let Meaning {
        part, first, second, ..
    } = *turned;
    match part {
        Part::Users | Part::Owners => [None, None],
        Part::Areas => [Some(first), None],
        Part::Objects => [None, Some(first)],
        Part::Definitions | Part::Imports => [Some(second), Some(first)],
        Part::Exports => [some(&seconds_with(&state.structure, second), chance), Some(first)],
        Part::Structure if chance.once_in(2) => [Some(first), some(&firsts_with(&state.imports, first), chance)],
        Part::Structure => [Some(second), some(&firsts_with(&state.exports, first), chance)],
    }
}
