//! Every sound state over users 0 and 1, areas 0 and 1 and object 0, with every instruction and access question over
//! those numbers, the first number beyond them and the first beyond the limits; questions over those plus 256 too. Each
//! accepted add is taken back, and all are explained. And every such state with an own import besides.

use crate::case::Case;
use crate::numbers::STEP_ANSWERS;
use crate::seen::Seen;
use crate::shards::Plan;
use crate::site::Site;
use crate::{explaining, library, reasons, taking_back};
use reference::State;
use std::collections::BTreeSet;
use std::sync::Mutex;

/// Two users, two areas, one object; four owner pairs, two definitions, four structure pairs, two imports, two exports.
pub const PLACES: u32 = 19;

const AREA_PAIRS: [(u8, u8); 4] = [(0, 0), (0, 1), (1, 0), (1, 1)];
const OBJECT_PAIRS: [(u8, u8); 2] = [(0, 0), (0, 1)];

pub fn run(plan: &Plan) -> (String, Seen) {
    let small = reference::small_states();
    let (accepted, mut seen) = sound_by_library(plan);
    seen.demand(accepted == small, &not_the_same(&accepted, &small));
    let sites: Vec<Site> = small.iter().map(Site::of_state).collect();
    let asked = plan.run("exhaustive", |shard, _, seen| {
        for site in sites.iter().skip(shard).step_by(plan.shards()) {
            every_instruction(site, seen);
            every_question(site, seen);
        }
    });
    let (about_own_imports, own) = with_own_imports(plan, &sites);
    let line = format!(
        "of {} records {} sound by the library, {} by the reference; \
         {} steps, answers 0 to 7, 15, 8 to 11: {:?}; {}; {}; {} access questions; {}; {about_own_imports}",
        1 << PLACES,
        accepted.len(),
        sites.len(),
        asked.total("step"),
        asked.each("step", STEP_ANSWERS),
        taking_back::text(&asked),
        reasons::text(&asked),
        asked.total("access"),
        explaining::text(&asked),
    );
    seen.add(asked);
    seen.add(own);
    seen.require("step", STEP_ANSWERS, 500);
    taking_back::require(&mut seen, 500, 100);
    reasons::require(&mut seen, 500);
    explaining::require(&mut seen, 1..=2, 500);
    (line, seen)
}

/// Each of the sites whose object is defined, with an own import besides: all that is asked of it is refused as 12.
fn with_own_imports(plan: &Plan, sites: &[Site]) -> (String, Seen) {
    let sites: Vec<Site> = sites.iter().filter_map(with_own_import).collect();
    let mut seen = plan.run("own imports", |shard, _, seen| {
        let of_shard = sites.iter().skip(shard).step_by(plan.shards());
        of_shard.for_each(|site| own_import(site, seen));
    });
    let answers_of_12 = [("step", 12), ("reason", 12), ("access", 268), ("explain", 268)];
    let asked = answers_of_12.map(|(what, _)| seen.total(what));
    let refused = answers_of_12.map(|(what, number)| seen.times(what, number));
    seen.demand(refused == asked, "an own import is refused as 12");
    let line = format!(
        "{} with an own import besides, steps, their reasons, questions, explanations: {asked:?}, \
         refused as 12: {refused:?}",
        sites.len()
    );
    (line, seen)
}

/// Each of the records, put to the library: the states that it does not answer 12 for.
fn sound_by_library(plan: &Plan) -> (BTreeSet<State>, Seen) {
    let accepted: Mutex<BTreeSet<State>> = Mutex::default();
    let seen = plan.run("records", |shard, _, seen| {
        for places in (shard as u32..1 << PLACES).step_by(plan.shards()) {
            let site = Site::of_state(&state_of(places));
            seen.compare(&Case::step(&site, library::NO_INSTRUCTION));
            if library::is_sound(&site.record) {
                accepted.lock().expect("no shard has failed").extend(site.state);
            }
        }
    });
    (accepted.into_inner().expect("no shard has failed"), seen)
}

/// The state with what the marked places stand for, the lowest bit first.
pub fn state_of(mut places: u32) -> State {
    State {
        users: take(&mut places, &[0, 1]),
        areas: take(&mut places, &[0, 1]),
        objects: take(&mut places, &[0]),
        owners: take(&mut places, &AREA_PAIRS),
        definitions: take(&mut places, &OBJECT_PAIRS),
        structure: take(&mut places, &AREA_PAIRS),
        imports: take(&mut places, &OBJECT_PAIRS),
        exports: take(&mut places, &OBJECT_PAIRS),
    }
}

/// The items whose places are marked; their places are taken off.
fn take<T: Copy + Ord>(places: &mut u32, items: &[T]) -> BTreeSet<T> {
    let marks = *places;
    *places >>= items.len();
    items
        .iter()
        .enumerate()
        .filter(|(place, _)| marks >> place & 1 == 1)
        .map(|(_, &item)| item)
        .collect()
}

fn not_the_same(by_library: &BTreeSet<State>, by_reference: &BTreeSet<State>) -> String {
    let only = |one: &BTreeSet<State>, other: &BTreeSet<State>| one.difference(other).count();
    format!(
        "sound small states: {} by the library alone, {} by the reference's list alone",
        only(by_library, by_reference),
        only(by_reference, by_library)
    )
}

fn every_instruction(site: &Site, seen: &mut Seen) {
    for code in 0..=13 {
        for activator in [0, 1, 2, 32] {
            for a in [0, 1, 2, 32] {
                for b in [0, 1, 2, 32, 64] {
                    taking_back::step(site, [code, activator, a, b], seen);
                    reasons::put(site, [code, activator, a, b], seen);
                }
            }
        }
    }
}

/// The state with an import by the area that defines the object, if one does.
pub fn with_own_import(site: &Site) -> Option<Site> {
    let mut state = site.state.clone()?;
    state.imports.insert(*state.definitions.first()?);
    Some(Site::of_state(&state))
}

/// Every instruction and question over the numbers that can be listed.
fn own_import(site: &Site, seen: &mut Seen) {
    for code in 1..=12 {
        for (activator, a) in AREA_PAIRS {
            for b in [0, 1] {
                seen.compare(&Case::step(site, [code, activator, a, b]));
                seen.compare(&Case::reason(site, [code, activator, a, b]));
            }
        }
    }
    for area in [0, 1] {
        seen.compare(&Case::access(site, area, 0));
        seen.compare(&Case::explain(site, area, 0, 32));
    }
}

fn every_question(site: &Site, seen: &mut Seen) {
    for area in [0, 1, 2, 3, 32, 256, 257] {
        for object in [0, 1, 64, 256] {
            seen.compare(&Case::access(site, area, object));
            for buffer_len in [0, 31, 32, 33] {
                seen.compare(&Case::explain(site, area, object, buffer_len));
            }
        }
    }
}
