//! The comparison on explanations, and how often each answer was seen.

use crate::agree::{demand, tell};
use crate::borders;
use crate::explanation::{COUNTS, EXPORT, ROOM};
use crate::random::{self, Span};
use crate::record::{cell, Record};
use crate::rows::Rows;
use crate::rules::{self, Bytes, Instruction, AREAS, MOST_STEPS, OBJECTS, REFUSED, USERS};
use crate::states::States;
use crate::{ideal_explanation, library, plain, plain_explanation};
use chance::Chance;

/// The longest buffer that is lent.
const MOST_ROOM: usize = ROOM + 8;

/// A byte that is no area and no count: what is left as it was is seen.
const LEFT: u8 = 0xa5;

/// The answer, and the buffer after it; for a buffer of so many bytes.
pub fn explain(s: &Record, area: u32, object: u32, room: usize) -> (u16, [u8; MOST_ROOM]) {
    let [mut by_library, mut by_plain, mut by_ideal] = [[LEFT; MOST_ROOM]; 3];
    let answer = plain_explanation::explain(s, area, object, &mut by_plain[..room]);
    let answers = [
        library::explain(&s.bytes(), area, object, &mut by_library[..room]),
        answer,
        ideal_explanation::explain(&Rows::of(s), area, object, &mut by_ideal[..room]),
    ];
    let alike = [by_library == by_plain, by_ideal == by_plain];
    demand(answers, alike, || {
        format!(
            "Area {area}, object {object} and {room} bytes: the buffers are {by_library:?}, {by_plain:?}, {by_ideal:?} \
             in the state of {}",
            tell(s)
        )
    });
    (answer, by_plain)
}

/// The answer on an instruction.
pub fn explain_step(s: &Record, bytes: Bytes) -> u32 {
    let answer = plain_explanation::explain_step(s, bytes);
    let mut rows = Rows::of(s);
    let answers = [
        library::explain_step(&s.bytes(), bytes),
        answer,
        ideal_explanation::explain_step(&mut rows, bytes),
    ];
    demand(answers, [true, rows == Rows::of(s)], || {
        format!("The reason for {bytes:?} in the state of {}", tell(s))
    });
    answer
}

/// Is the chain another one than a walk back from its end, by the lowest numbers, would give?
fn is_told_by_its_front(s: &Record, object: usize, chain: &[u8]) -> bool {
    let lengths = borders::lengths(s, object);
    let mut steps = chain.iter().rev().map(|&area| usize::from(area));
    let mut at = steps.next().expect("a chain has an area");
    steps.any(|before| {
        let is_before = |&from: &usize| lengths[from] + 1 == lengths[at] && plain::moves(s, object, from, at);
        let lowest = (0..AREAS).find(is_before);
        at = before;
        lowest != Some(before)
    })
}

/// Would the removal cost an area its access to an object below this one that it exports?
fn loses_export_below(s: &Record, bytes: Bytes, object: usize) -> bool {
    let mut next = s.clone();
    rules::obey(&mut next, Instruction::of(bytes).expect("it was refused as 11"));
    next.exports[object * AREAS..].fill(false);
    next.imports[object * AREAS..].fill(false);
    !plain::is_valid(&next)
}

#[derive(Default)]
struct Seen {
    /// Chains, by the number of steps.
    chains: [u32; MOST_STEPS as usize + 1],
    /// Chains that a walk back would not give.
    by_front: u32,
    /// Counts, and refusals 31, 12, 2, 4.
    others: [u32; 5],
    /// Short buffers with unsound states, refused as 31.
    both: u32,
    /// By refusal: 0 to 12, and 15 behind them.
    steps: [u32; 14],
    /// Refused as 11, by code (6, 8, 10, 12) and by the named pair (import, export).
    lost: [[u32; 2]; 4],
    /// Imports named where an export of a lower object is lost as well.
    past_export: u32,
}

impl Seen {
    fn question(&mut self, s: &Record, [area, object]: [u32; 2], room: usize) {
        const OTHERS: [u16; 5] = [COUNTS + 32, REFUSED + 31, REFUSED + 12, REFUSED + 2, REFUSED + 4];
        let (answer, buffer) = explain(s, area, object, room);
        if let Some(kind) = OTHERS.iter().position(|&other| other == answer) {
            self.others[kind] += 1;
            self.both += u32::from(answer == REFUSED + 31 && !plain::is_sound(s));
        } else {
            let chain = &buffer[..usize::from(answer)];
            self.chains[chain.len() - 1] += 1;
            self.by_front += u32::from(is_told_by_its_front(s, object as usize, chain));
        }
    }

    fn step(&mut self, s: &Record, bytes: Bytes) {
        let [number, kind, object, _] = explain_step(s, bytes).to_le_bytes();
        self.steps[usize::from(number.min(13))] += 1;
        if number == 11 {
            let export = u32::from(kind) == EXPORT;
            self.lost[usize::from(bytes[0]) / 2 - 3][usize::from(export)] += 1;
            self.past_export += u32::from(!export && loses_export_below(s, bytes, object.into()));
        }
    }

    /// An instruction and a question, at times out of all range; and a buffer, at times a short one.
    fn state(&mut self, chance: &mut Chance, s: &Record, mut bytes: Bytes, [_, areas, objects]: Span) {
        let mut question = [chance.below(areas) as u8, chance.below(objects) as u8];
        if chance.once_in(16) {
            question = random::wild(chance, question);
        }
        if chance.once_in(16) {
            bytes = random::wild(chance, bytes);
        }
        let short = chance.below(ROOM);
        let room = chance.pick(&[ROOM, ROOM, ROOM + 1, MOST_ROOM, ROOM - 1, short]);
        self.question(s, question.map(u32::from), room);
        self.step(s, bytes);
    }

    /// Every question, and every removal by the first owner of each area.
    fn whole(&mut self, s: &Record) {
        for area in 0..AREAS as u8 {
            let owner = (0..USERS).find(|&user| s.owners[cell(user, area.into())]);
            let owner = owner.unwrap_or(0) as u8;
            (0..AREAS as u8).for_each(|other| self.step(s, [6, owner, area, other]));
            for object in 0..OBJECTS as u8 {
                self.question(s, [area, object].map(u32::from), ROOM);
                [8, 10, 12]
                    .into_iter()
                    .for_each(|code| self.step(s, [code, owner, area, object]));
            }
        }
    }

    fn lines(&self) -> [String; 3] {
        let Seen {
            chains,
            by_front,
            others,
            both,
            steps,
            lost,
            past_export,
        } = self;
        let every = [
            &chains[..],
            others,
            steps,
            lost.as_flattened(),
            &[*by_front, *both, *past_export],
        ]
        .concat();
        let lines = [
            format!("agree: chains of 0 to 8 steps: {chains:?}; told by the front, and not by a walk back: {by_front}"),
            format!("agree: explanations by counts, 31, 12, 2, 4: {others:?}; as 31 before 12: {both}"),
            format!(
                "agree: reasons 0 to 12, 15: {steps:?}; lost imports and exports for codes 6, 8, 10, 12: {lost:?}; \
                 imports behind a lower lost export: {past_export}"
            ),
        ];
        assert!(!every.contains(&0), "an answer was never seen: {lines:#?}");
        lines
    }
}

/// Walks of random instructions from the founding state, over few numbers and over all; on the way damaged records.
/// Then the states that are timed, and circles of areas. Gives lines on what was seen.
pub fn compare(count: u32, states: &States) -> [String; 3] {
    let mut chance = Chance::new(7);
    let mut seen = Seen::default();
    let mut s = Record::founding();
    for i in 0..count {
        let span = random::SPANS[(i / 2_000) as usize % random::SPANS.len()];
        if i % 2_000 == 0 {
            s = Record::founding();
        }
        let bytes = random::instruction(&mut chance, &s, span);
        seen.state(&mut chance, &s, bytes, span);
        if chance.once_in(16) {
            let damaged = random::damaged(&mut chance, &s, span);
            seen.state(&mut chance, &damaged, bytes, span);
        }
        s = plain::step(&s, bytes).unwrap_or(s);
    }
    let timed = [&states.dense, &states.chain, &states.random, &states.small];
    timed.into_iter().for_each(|s| seen.whole(s));
    (9..=24).for_each(|areas| seen.whole(&borders::circle(areas)));
    seen.lines()
}
