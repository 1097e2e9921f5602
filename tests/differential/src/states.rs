//! Random sound states of several shapes.

use crate::chains::MOST_STEPS;
use crate::numbers::{free, members, some_of, Pairs};
use chance::Chance;
use reference::State;
use std::collections::VecDeque;

const AREAS: usize = 32;

#[derive(Clone, Copy, Debug)]
pub enum Shape {
    /// Few areas, few pairs.
    Sparse,
    Medium,
    /// Most areas and objects, and most pairs that they can have.
    Dense,
    /// Areas in a row, often all 32, and objects that go from one to the next.
    Chain,
    /// Areas in a circle, some in themselves.
    Ring,
    /// A circle, and objects that go both ways round it, so that a cut leaves a way that is longer.
    BothWays,
    /// Areas in layers, and objects that go from each to the next over several areas, so that many shortest chains are
    /// equally long.
    Layers,
}

/// How large a state is to be, and how full.
struct Size {
    users: usize,
    areas: usize,
    objects: usize,
    /// Of a hundred pairs (user, area): how many are there beside the one owner that each area has.
    owners: usize,
    /// Of a hundred chances to lend an object on: how many are taken.
    lending: usize,
    /// Of a hundred imports or exports that areas with access can do without: how many are there.
    spare: usize,
}

impl Size {
    fn new(shape: Shape, chance: &mut Chance) -> Size {
        let bounds = match shape {
            Shape::Sparse => [(1, 4), (1, 5), (0, 4), (0, 40), (20, 90), (17, 17)],
            Shape::Medium => [(2, 10), (6, 14), (2, 9), (0, 30), (30, 100), (17, 17)],
            Shape::Dense => [(8, 32), (16, 32), (16, 64), (20, 100), (70, 100), (17, 17)],
            Shape::Chain if chance.once_in(2) => [(1, 6), (32, 32), (1, 3), (0, 60), (100, 100), (0, 30)],
            Shape::Chain => [(1, 6), (2, 31), (1, 3), (0, 60), (100, 100), (0, 30)],
            Shape::Ring if chance.once_in(3) => [(1, 5), (9, 32), (1, 4), (0, 50), (90, 100), (0, 100)],
            Shape::Ring => [(1, 5), (1, 9), (1, 4), (0, 50), (60, 100), (17, 17)],
            Shape::BothWays => [(1, 5), (9, 17), (1, 2), (0, 50), (100, 100), (90, 100)],
            Shape::Layers => {
                let spare = chance.pick(&[(0, 0), (2, 12), (30, 100)]);
                [(1, 5), (12, 32), (1, 4), (0, 50), (100, 100), spare]
            }
        };
        let [users, areas, objects, owners, lending, spare] =
            bounds.map(|(least, most)| least + chance.below(most - least + 1));
        Size {
            users,
            areas,
            objects,
            owners,
            lending,
            spare,
        }
    }
}

pub fn sound_state(shape: Shape, chance: &mut Chance) -> State {
    let size = Size::new(shape, chance);
    let areas = some_of(AREAS, size.areas, chance);
    let mut state = State {
        structure: structure(shape, &areas, chance),
        ..owned_areas(&size, &areas, chance)
    };
    for object in some_of(64, size.objects, chance) {
        state.objects.insert(object);
        let definer = match shape {
            Shape::Chain if chance.once_in(4) => areas[0],
            Shape::Layers if !chance.once_in(4) => areas[0],
            _ => chance.pick(&areas),
        };
        state.definitions.insert((object, definer));
        let with_access = lend(&mut state, object, definer, size.lending, chance);
        let borrowers = &with_access[1..];
        state
            .imports
            .extend(random_pairs(&[object], borrowers, size.spare, chance));
        state
            .exports
            .extend(random_pairs(&[object], &with_access, size.spare, chance));
    }
    state
}

/// Lists every user, area and object that is not, each with one pair that it needs. A sound state stays sound.
pub fn list_all(state: &mut State, chance: &mut Chance) {
    let (users, areas) = (members(&state.users), members(&state.areas));
    for area in free(&areas, AREAS) {
        state.areas.insert(area);
        state.owners.insert((chance.pick(&users), area));
    }
    for user in free(&users, 32) {
        state.users.insert(user);
        state.owners.insert((user, chance.below(AREAS) as u8));
    }
    for object in free(&members(&state.objects), 64) {
        state.objects.insert(object);
        state.definitions.insert((object, chance.below(AREAS) as u8));
    }
}

/// The areas and their owners, and nothing else.
fn owned_areas(size: &Size, areas: &[u8], chance: &mut Chance) -> State {
    let users = some_of(32, size.users, chance);
    let mut owners: Pairs = areas.iter().map(|&area| (chance.pick(&users), area)).collect();
    owners.extend(random_pairs(&users, areas, size.owners, chance));
    State {
        users: owners.iter().map(|pair| pair.0).collect(),
        areas: areas.iter().copied().collect(),
        owners,
        ..State::founding()
    }
}

fn structure(shape: Shape, areas: &[u8], chance: &mut Chance) -> Pairs {
    let mut pairs = match shape {
        Shape::Sparse => random_pairs(areas, areas, 30, chance),
        Shape::Medium => random_pairs(areas, areas, chance.pick(&[5, 10, 20]), chance),
        Shape::Dense => random_pairs(areas, areas, chance.pick(&[30, 60, 90, 100]), chance),
        Shape::Chain | Shape::Ring | Shape::BothWays => row(areas, chance),
        Shape::Layers => layers(areas, chance),
    };
    if let Shape::Ring | Shape::BothWays = shape {
        pairs.insert(either_way((areas[areas.len() - 1], areas[0]), chance));
        pairs.extend(areas.iter().filter(|_| chance.once_in(4)).map(|&area| (area, area)));
    }
    pairs
}

/// Of a hundred pairs so many.
fn random_pairs(firsts: &[u8], seconds: &[u8], percent: usize, chance: &mut Chance) -> Pairs {
    let with_seconds = |&first: &u8| seconds.iter().map(move |&second| (first, second));
    let all = firsts.iter().flat_map(with_seconds);
    all.filter(|_| chance.below(100) < percent).collect()
}

/// Each area in the next, or the next in it: all the same way, by turns, or any way.
fn row(areas: &[u8], chance: &mut Chance) -> Pairs {
    let kind = chance.below(3);
    let pairs = areas.windows(2).map(|two| (two[0], two[1])).enumerate();
    pairs
        .map(|(place, (one, other))| match kind {
            0 => (one, other),
            1 if place % 2 == 0 => (one, other),
            1 => (other, one),
            _ => either_way((one, other), chance),
        })
        .collect()
}

/// Behind the first area layers of a few. Each area lies in most of those of the layer before, or they in it: all the
/// same way, or any way. At times a few pairs besides.
fn layers(areas: &[u8], chance: &mut Chance) -> Pairs {
    let (kind, widest) = (chance.below(3), 2 + chance.below(4));
    let mut pairs = random_pairs(areas, areas, chance.pick(&[0, 0, 1]), chance);
    let (mut before, mut rest) = areas.split_at(1);
    while !rest.is_empty() {
        let width = (1 + chance.below(widest)).min(rest.len());
        let (layer, behind) = rest.split_at(width);
        for &area in layer {
            let one_at_least = chance.pick(before);
            for &other in before {
                if other == one_at_least || !chance.once_in(3) {
                    pairs.insert(match kind {
                        0 => (other, area),
                        1 => (area, other),
                        _ => either_way((other, area), chance),
                    });
                }
            }
        }
        (before, rest) = (layer, behind);
    }
    pairs
}

fn either_way((one, other): (u8, u8), chance: &mut Chance) -> (u8, u8) {
    chance.pick(&[(one, other), (other, one)])
}

/// Lends the object on from its definer, to the nearest areas first and across 8 steps at most. Most areas at 8 steps
/// export as well, and the areas they lie in get no access by that. Gives the areas with access, the definer first.
fn lend(state: &mut State, object: u8, definer: u8, percent: usize, chance: &mut Chance) -> Vec<u8> {
    let mut with_access = vec![definer];
    let mut waiting = VecDeque::from([(definer, 0)]);
    while let Some((lender, steps)) = waiting.pop_front() {
        let lies_in_one = state.structure.iter().any(|pair| pair.0 == lender);
        let exporting = if steps == MOST_STEPS { 70 } else { percent };
        let exports = lies_in_one && chance.below(100) < exporting;
        if exports {
            state.exports.insert((object, lender));
        }
        for &(inner, outer) in state.structure.iter().filter(|_| steps < MOST_STEPS) {
            if inner == lender && exports && !with_access.contains(&outer) {
                with_access.push(outer);
                waiting.push_back((outer, steps + 1));
            }
            if outer == lender && !with_access.contains(&inner) && chance.below(100) < percent {
                state.imports.insert((object, inner));
                with_access.push(inner);
                waiting.push_back((inner, steps + 1));
            }
        }
    }
    with_access
}
