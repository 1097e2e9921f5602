//! Instructions of one activator, each accepted in the state that those before it give: what an accepted recipe has.
//! The reference says what is accepted.

use crate::instructions::{instruction, Domain};
use crate::numbers::{firsts_with, free, members, seconds_with, some};
use crate::templates::MOST;
use crate::wanted;
use chance::Chance;
use reference::State;

/// So many instructions are tried before one that is sure to be accepted.
const TRIES: usize = 3;

pub struct Course {
    pub activator: u8,
    pub instructions: Vec<[u8; 4]>,
    /// The state before each instruction, and the one after the last.
    pub states: Vec<State>,
}

impl Course {
    /// With no instruction yet.
    pub fn at(start: State, activator: u8) -> Course {
        Course {
            activator,
            instructions: Vec::new(),
            states: vec![start],
        }
    }

    /// So many instructions of a listed user.
    pub fn new(start: State, activator: u8, most: usize, chance: &mut Chance) -> Course {
        let mut course = Course::at(start, activator);
        course.go_on(most, |_| true, chance);
        course
    }

    /// So many instructions, and with the last of them the activator gives up his only area and is unlisted. None if
    /// the state has no room for him.
    pub fn leaving(mut start: State, instructions: usize, chance: &mut Chance) -> Option<Course> {
        let activator = some(&free(&members(&start.users), 32), chance)?;
        let area = some(&members(&start.areas), chance)?;
        start.users.insert(activator);
        start.owners.insert((activator, area));
        let mut course = Course::at(start, activator);
        // He gets no other area, and the other owner stays.
        course.go_on(instructions - 1, |code| code != 1 && code != 4, chance);
        let left = course.push([4, activator, area, activator]);
        (left && course.instructions.len() == instructions).then_some(course)
    }

    pub fn last_state(&self) -> &State {
        &self.states[self.instructions.len()]
    }

    /// One more instruction, if it is accepted.
    pub fn push(&mut self, bytes: [u8; 4]) -> bool {
        match reference::step(self.last_state(), bytes) {
            Ok(next) => self.go_to(bytes, next),
            Err(_) => return false,
        }
        true
    }

    fn go_to(&mut self, bytes: [u8; 4], next: State) {
        self.instructions.push(bytes);
        self.states.push(next);
    }

    /// Up to so many instructions in all, of codes that are allowed.
    pub fn go_on(&mut self, most: usize, allowed: impl Fn(u8) -> bool, chance: &mut Chance) {
        while self.instructions.len() < most {
            let tried = (0..TRIES).find_map(|_| self.one_more(&allowed, chance));
            let sure = || self.sure(chance);
            match tried.or_else(sure) {
                Some((bytes, next)) => self.go_to(bytes, next),
                None => return,
            }
        }
    }

    /// An instruction that is allowed, and accepted, and leaves the activator listed.
    fn one_more(&self, allowed: impl Fn(u8) -> bool, chance: &mut Chance) -> Option<([u8; 4], State)> {
        let bytes = instruction(self.last_state(), &Domain::whole(&[self.activator]), chance);
        let next = reference::step(self.last_state(), bytes)
            .ok()
            .filter(|_| allowed(bytes[0]))?;
        next.users.contains(&self.activator).then_some((bytes, next))
    }

    /// A new object or another owner for an own area, or an owner less. Where the activator is listed there is one.
    fn sure(&self, chance: &mut Chance) -> Option<([u8; 4], State)> {
        let state = self.last_state();
        let area = some(&seconds_with(&state.owners, self.activator), chance)?;
        let mut owners = firsts_with(&state.owners, area);
        let users = free(&owners, 32);
        owners.retain(|&owner| owner != self.activator);
        let (code, b) = match some(&free(&members(&state.objects), 64), chance) {
            Some(object) => (7, object),
            None if users.is_empty() => (4, some(&owners, chance)?),
            None => (3, chance.pick(&users)),
        };
        let bytes = [code, self.activator, area, b];
        Some((bytes, reference::step(state, bytes).ok()?))
    }

    /// The instructions up to this place, counted from 0, then one that is refused with the number. Perhaps more
    /// follow: those that were left out, or some of the list again. None if no such refusal was found.
    pub fn refused(&self, place: usize, number: u8, chance: &mut Chance) -> Option<Vec<[u8; 4]>> {
        let refused = wanted::refusal(number, self.states.get(place)?, self.activator, chance)?;
        let mut list = self.instructions[..place].to_vec();
        list.push(refused);
        let room = MOST - list.len();
        let more = match chance.below(3) {
            0 => 0,
            1 => room,
            _ => chance.below(room + 1),
        };
        if chance.once_in(2) {
            let left_out = self.instructions[place..].iter();
            list.extend(left_out.take(more));
        } else {
            list.extend((0..more).map(|_| chance.pick(&list)).collect::<Vec<_>>());
        }
        Some(list)
    }
}
