//! Inputs of PanelRights: sessions of lines that fit, and every kind of line that is unreadable.

use crate::borders;
use crate::instructions::{instruction, Domain};
use crate::numbers::members;
use crate::own_imports;
use crate::seen::Seen;
use chance::Chance;
use reference::State;

/// Makes the four numbers of a line into a line that is unreadable; its byte 10 is not with it.
type Spoil = fn([String; 4], &mut Chance) -> Vec<u8>;

pub const UNREADABLE: [(&str, Spoil); 17] = [
    ("empty", |_, _| Vec::new()),
    ("carriage return", |numbers, _| {
        [joined(numbers), b"\r".to_vec()].concat()
    }),
    ("tab", |numbers, chance| with_separator(numbers, "\t", chance)),
    ("two spaces", |numbers, chance| with_separator(numbers, "  ", chance)),
    ("leading space", |numbers, _| [b" ".to_vec(), joined(numbers)].concat()),
    ("trailing space", |numbers, _| [joined(numbers), b" ".to_vec()].concat()),
    ("sign", |numbers, chance| {
        let sign = chance.pick(&["+", "-"]);
        with_number(numbers, |number| format!("{sign}{number}"), chance)
    }),
    ("00", |numbers, chance| {
        with_number(numbers, |_| "00".to_string(), chance)
    }),
    ("leading zero", |numbers, chance| {
        with_number(numbers, |number| format!("0{number}"), chance)
    }),
    ("256 to 999", |numbers, chance| {
        let above = chance.below(744);
        let number = chance.pick(&[256, 257, 256 + above]);
        with_number(numbers, |_| number.to_string(), chance)
    }),
    ("many digits", |numbers, chance| {
        let digits = many_digits(chance);
        with_number(numbers, |_| digits.clone(), chance)
    }),
    ("three numbers", |numbers, _| numbers[..3].join(" ").into_bytes()),
    ("five numbers", |numbers, chance| {
        let fifth = chance.byte();
        format!("{} {fifth}", numbers.join(" ")).into_bytes()
    }),
    ("letter", |numbers, chance| with_byte(numbers, b"axOle", chance)),
    ("byte 0", |numbers, chance| with_byte(numbers, &[0], chance)),
    ("high byte", |numbers, chance| {
        let byte = 128 + chance.below(128) as u8;
        with_byte(numbers, &[byte], chance)
    }),
    ("other byte", |numbers, chance| {
        with_byte(numbers, &[b'/', b':', b'.', b',', b'\'', 11, 12, 127], chance)
    }),
];

fn joined(numbers: [String; 4]) -> Vec<u8> {
    numbers.join(" ").into_bytes()
}

/// Another separator in one of the three places.
fn with_separator(numbers: [String; 4], separator: &str, chance: &mut Chance) -> Vec<u8> {
    let place = chance.below(3);
    let mut separators = [" ", " ", " ", ""];
    separators[place] = separator;
    numbers
        .iter()
        .zip(separators)
        .map(|(number, separator)| format!("{number}{separator}"))
        .collect::<String>()
        .into_bytes()
}

/// One of the numbers written in another way.
fn with_number(mut numbers: [String; 4], write: impl Fn(&str) -> String, chance: &mut Chance) -> Vec<u8> {
    let place = chance.below(4);
    numbers[place] = write(&numbers[place]);
    joined(numbers)
}

/// One of the bytes put in somewhere.
fn with_byte(numbers: [String; 4], bytes: &[u8], chance: &mut Chance) -> Vec<u8> {
    let mut line = joined(numbers);
    line.insert(chance.below(line.len() + 1), chance.pick(bytes));
    line
}

/// A run of digits; some are a small number when they are cut to 8, 16, 32 or 64 bits.
fn many_digits(chance: &mut Chance) -> String {
    let small = chance.below(3) as u128;
    let long = "9".repeat(4 + chance.below(400));
    match chance.below(5) {
        0 => long,
        place => ((1_u128 << [10, 16, 32, 64][place - 1]) + small).to_string(),
    }
}

/// An input in the making, and the state that its lines have led to.
pub struct Session {
    pub input: Vec<u8>,
    state: State,
}

impl Session {
    pub fn new() -> Session {
        Session {
            input: Vec::new(),
            state: State::founding(),
        }
    }

    fn numbers(&self, chance: &mut Chance) -> [u8; 4] {
        let domain = Domain {
            activators: &members(&self.state.users),
            users: 5,
            areas: 7,
            objects: 8,
        };
        let mut bytes = instruction(&self.state, &domain, chance);
        if chance.once_in(12) {
            bytes[1] = chance.below(6) as u8;
        }
        bytes
    }

    /// Areas 0 to 11, each in the next, and an object that is lent on from one end up to an area at 9 steps.
    pub fn add_row(&mut self, chance: &mut Chance, seen: &mut Seen) {
        (1..=11).for_each(|area| self.add([1, 0, area, 0], seen));
        (0..11).for_each(|area| self.add([5, 0, area, area + 1], seen));
        if chance.once_in(2) {
            self.add([7, 0, 0, 0], seen);
            (0..10).for_each(|area| self.add([11, 0, area, 0], seen));
        } else {
            self.add([7, 0, 11, 0], seen);
            (2..11).rev().for_each(|area| self.add([9, 0, area, 0], seen));
        }
    }

    /// A line with an instruction that mostly fits.
    pub fn add_instruction(&mut self, chance: &mut Chance, seen: &mut Seen) {
        self.add(self.numbers(chance), seen);
    }

    fn add(&mut self, bytes: [u8; 4], seen: &mut Seen) {
        let next = reference::step(&self.state, bytes);
        let answer = next.as_ref().err().map_or(0, |&refusal| refusal.into());
        borders::count_step(&self.state, bytes, answer, seen);
        own_imports::count_step(&self.state, bytes, answer, seen);
        if let Ok(next) = next {
            self.state = next;
        }
        self.add_line(&joined(bytes.map(|number| number.to_string())));
    }

    pub fn add_unreadable(&mut self, kind: usize, chance: &mut Chance) {
        let numbers = self.numbers(chance).map(|number| number.to_string());
        let (_, spoil) = UNREADABLE[kind];
        self.add_line(&spoil(numbers, chance));
    }

    fn add_line(&mut self, line: &[u8]) {
        self.input.extend(line);
        self.input.push(b'\n');
    }

    /// One line of digits that brings the input to so many bytes, which are more than it has.
    pub fn fill_up(&mut self, length: usize) {
        self.add_line(&vec![b'7'; length - self.input.len() - 1]);
    }
}

/// Numbers of any size with spaces and line ends between them, and now and then another byte.
pub fn noise(chance: &mut Chance) -> Vec<u8> {
    let mut input = Vec::new();
    for _ in 0..chance.below(400) {
        match chance.below(12) {
            0 => input.push(chance.byte()),
            1..3 => input.extend(chance.below(400).to_string().bytes()),
            _ => input.extend(chance.below(13).to_string().bytes()),
        }
        input.push(if chance.once_in(4) { b'\n' } else { b' ' });
    }
    input
}
