//! Why an area has access to an object, or why not: where many shortest chains are equally long, where there is none,
//! and where something is wrong, into buffers of each kind of length.

use crate::answer::Answer;
use crate::case::Case;
use crate::chains::MOST_STEPS;
use crate::expected::{EXPLAIN_COUNTS, EXPLAIN_REFUSED};
use crate::library;
use crate::numbers::{free, members, some, widened};
use crate::seen::Seen;
use crate::shards::Plan;
use crate::shortest::Shortest;
use crate::site::Site;
use crate::states::{sound_state, Shape};
use crate::unsound::spoilt;
use chance::Chance;
use panelrights::sys::EXPLAIN_BYTES;
use reference::State;
use std::ops::RangeInclusive;

/// For each shape, how many states a shard has.
const STATES: [(Shape, usize); 7] = [
    (Shape::Layers, 130),
    (Shape::Sparse, 60),
    (Shape::Medium, 10),
    (Shape::Chain, 20),
    (Shape::Ring, 30),
    (Shape::BothWays, 10),
    (Shape::Dense, 1),
];

/// So many objects of a state are asked about. Dense ones are dear in the reference.
const OBJECTS: usize = 4;

/// A buffer that is long enough is at most so much longer than it must be.
const MOST_LONGER: usize = 40;

/// Buffers of each length up to this are tried.
const LAST_LENGTH: usize = 40;

const COUNTS: u32 = EXPLAIN_COUNTS + 32;

/// The refusals in the order of their checks.
const REFUSALS: [u32; 4] = [31, 12, 2, 4];

pub fn run(plan: &Plan) -> (String, Seen) {
    let mut seen = plan.run("explaining", |_, chance, seen| {
        for (shape, states) in STATES {
            (0..states).for_each(|_| one_state(&sound_state(shape, chance), chance, seen));
        }
    });
    require(&mut seen, 1..=9, 500);
    require_more(&mut seen);
    let line = format!("{}; {}", text(&seen), more(&seen));
    (line, seen)
}

/// It is a failure if chains of so many areas, or counts, or a refusal that a sound state can have, came less often
/// than this.
pub fn require(seen: &mut Seen, chains: RangeInclusive<u32>, least: u64) {
    seen.require("explain", chains, least);
    seen.require("explain", [COUNTS], least);
    seen.require("explain", [31, 2, 4].map(|refusal| EXPLAIN_REFUSED + refusal), least);
}

pub fn text(seen: &Seen) -> String {
    format!(
        "{} explanations, chains of 1 to 9 areas: {:?}, counts: {}, refused as 31, 12, 2, 4: {:?}",
        seen.total("explain"),
        seen.each("explain", 1..=9),
        seen.times("explain", COUNTS),
        seen.each("explain", refusals()),
    )
}

fn refusals() -> [u32; 4] {
    REFUSALS.map(|refusal| EXPLAIN_REFUSED + refusal)
}

fn require_more(seen: &mut Seen) {
    seen.require("explain", [COUNTS], 5000);
    seen.require("explain", refusals(), 500);
    seen.require("chain of two steps or more", [0], 20_000);
    seen.require("one of several chains", [0], 5000);
    seen.require("another chain from the back", [0], 2000);
    seen.require("past a lower area", [0], 2000);
    seen.require("counts with an area at", [8, 9], 2000);
    seen.require("faults", 0..16, 500);
    seen.require("buffer of", 0..=LAST_LENGTH as u32, 200);
}

fn more(seen: &Seen) -> String {
    format!(
        "chains of two steps or more: {}, one of several as short: {}, another if compared from the back: {}, \
         past a lower area that does not lead on: {}; counts with an area at 8, 9 steps: {:?}; with a short \
         buffer (1), a wrong record (2), a number out of range (4), one that is not listed (8), by the sum of them: \
         {:?}; into buffers of each length from 0 to {LAST_LENGTH}: {}",
        seen.times("chain of two steps or more", 0),
        seen.times("one of several chains", 0),
        seen.times("another chain from the back", 0),
        seen.times("past a lower area", 0),
        seen.each("counts with an area at", [8, 9]),
        seen.each("faults", 0..16),
        seen.times("buffer of", LAST_LENGTH as u32),
    )
}

/// The library's explanation, and a complaint if it is not the true one.
pub fn by_library(site: &Site, area: u32, object: u32, buffer_len: usize) -> Answer {
    let answer = library::explain(&site.record, area, object, buffer_len);
    let is_true = |state: &State, answer: &Answer| is_true(state, area as u8, object as u8, answer);
    answer.judged(site.state.as_ref(), is_true)
}

/// "The reason must be the true one: the chain is there, the counts are the least", and by them the area has no access.
fn is_true(state: &State, area: u8, object: u8, answer: &Answer) -> bool {
    let written = |count: u32| answer.bytes.get(..count as usize).unwrap_or_default();
    match answer.number {
        EXPLAIN_COUNTS.. => {
            let counts = written(answer.number - EXPLAIN_COUNTS);
            counts.get(usize::from(area)) == Some(&255) && reference::are_least_counts(state, object, counts)
        }
        EXPLAIN_REFUSED.. => true,
        count => reference::is_first_chain(state, area, object, written(count)),
    }
}

fn one_state(state: &State, chance: &mut Chance, seen: &mut Seen) {
    let site = Site::of_state(state);
    let mut objects = members(&state.objects);
    while objects.len() > OBJECTS {
        objects.swap_remove(chance.below(objects.len()));
    }
    for object in objects {
        every_area(&site, state, object, chance, seen);
    }
    each_fault(state, chance, seen);
    if chance.once_in(4) {
        each_length(&site, state, chance, seen);
    }
}

fn enough(chance: &mut Chance) -> usize {
    EXPLAIN_BYTES + chance.below(MOST_LONGER + 1)
}

/// Every listed area with the object.
fn every_area(site: &Site, state: &State, object: u8, chance: &mut Chance, seen: &mut Seen) {
    let shortest = Shortest::new(state, object);
    for &area in &state.areas {
        let case = Case::explain(site, area.into(), object.into(), enough(chance));
        match seen.compare(&case) {
            Some(answer) if answer.number == COUNTS => count_counts(state, &shortest, seen),
            Some(answer) => count_chain(&shortest, &answer.bytes[..answer.number as usize], seen),
            None => {}
        }
    }
}

fn count_counts(state: &State, shortest: &Shortest, seen: &mut Seen) {
    for steps in [MOST_STEPS, MOST_STEPS + 1] {
        if state.areas.iter().any(|&area| shortest.lengths.to(area) == Some(steps)) {
            seen.count("counts with an area at", steps.into());
        }
    }
}

fn count_chain(shortest: &Shortest, chain: &[u8], seen: &mut Seen) {
    let [.., _, _, area] = chain else { return };
    seen.count_met(&[
        ("chain of two steps or more", true),
        ("one of several chains", shortest.has_other(chain)),
        ("another chain from the back", shortest.lowest_from_back(*area) != chain),
        ("past a lower area", shortest.passes_lower(chain)),
    ]);
}

/// A short buffer (1), a wrong record (2), a number out of range (4) and one that is not listed (8), in every
/// combination: "a buffer under 32 bytes gets 31 before them", "Refusals 12, 2, 4 apply in that order".
fn each_fault(state: &State, chance: &mut Chance, seen: &mut Seen) {
    for faults in 0..16 {
        let [buffer, record, range, list] = [1, 2, 4, 8].map(|fault| faults & fault != 0);
        let Some([area, object]) = numbers(state, range, list, chance) else {
            continue;
        };
        let site = match record {
            true => spoilt(state, chance),
            false => Site::of_state(state),
        };
        let buffer_len = match buffer {
            true => chance.below(EXPLAIN_BYTES),
            false => enough(chance),
        };
        let Some(answer) = seen.compare(&Case::explain(&site, area, object, buffer_len)) else {
            continue;
        };
        let first = [buffer, record, range, list].into_iter().position(|fault| fault);
        let as_it_should = match first {
            Some(place) => answer.number == refusals()[place],
            None => answer.number < EXPLAIN_REFUSED || answer.number == COUNTS,
        };
        seen.demand(as_it_should, "31, then 12, then 2, then 4");
        seen.count("faults", faults);
    }
}

/// An area and an object: one of them not listed, and the other out of range, if it is to be so. None if the state has
/// no object, or if everything is listed and is not to be.
fn numbers(state: &State, range: bool, list: bool, chance: &mut Chance) -> Option<[u32; 2]> {
    let (areas, objects) = (members(&state.areas), members(&state.objects));
    let mut numbers = [some(&areas, chance)?, some(&objects, chance)?];
    let unlisted = [free(&areas, 32), free(&objects, 64)];
    let place = match unlisted[0].is_empty() {
        true => 1,
        false => chance.below(2),
    };
    if list {
        numbers[place] = some(&unlisted[place], chance)?;
    }
    let mut numbers = numbers.map(u32::from);
    if range {
        let (number, limit) = (&mut numbers[1 - place], [32, 64][1 - place]);
        *number = match chance.below(3) {
            0 => limit,
            1 => limit + chance.below(256 - limit as usize) as u32,
            _ => widened(*number as u8, 1, chance),
        };
    }
    Some(numbers)
}

/// One question, with a buffer of each length.
fn each_length(site: &Site, state: &State, chance: &mut Chance, seen: &mut Seen) {
    let Some([area, object]) = numbers(state, false, false, chance) else {
        return;
    };
    for buffer_len in 0..=LAST_LENGTH {
        if seen.compare(&Case::explain(site, area, object, buffer_len)).is_some() {
            seen.count("buffer of", buffer_len as u32);
        }
    }
}
