//! Compares the library with the two baselines. Where they differ the run stops, and says in what.

use crate::borders::{self, Borders};
use crate::random::{self, Span};
use crate::recipe::Call;
use crate::record::{cell, Record};
use crate::rows::Rows;
use crate::rules::{Bytes, NO_ACCESS, REFUSED};
use crate::site_file::FILE_MOST;
use crate::{files, ideal, ideal_reader, ideal_writer, library, plain, plain_reader, plain_writer};
use chance::Chance;
use std::fmt::Display;

/// Demands one answer, and the state of the plain baseline from the other two as well.
pub fn demand<N: PartialEq + Display>(answers: [N; 3], states: [bool; 2], asked: impl FnOnce() -> String) {
    let [library, plain, ideal] = answers;
    assert!(
        library == plain && plain == ideal && states == [true, true],
        "The library answers {library}, plain Rust {plain}, ideal Rust {ideal}; \
         the state of the library is that of plain Rust: {}, that of ideal Rust: {}. {}",
        states[0],
        states[1],
        asked()
    );
}

/// The refusal, 0 for none, and the state after the instruction.
pub fn step(s: &Record, bytes: Bytes) -> (u8, Record) {
    let mut state = s.bytes();
    let by_library = library::step(&mut state, bytes);
    let mut rows = Rows::of(s);
    let by_ideal = ideal::step(&mut rows, bytes);
    let (refusal, after) = match plain::step(s, bytes) {
        Ok(next) => (0, next),
        Err(refusal) => (refusal, s.clone()),
    };
    let alike = [state == after.bytes(), rows == Rows::of(&after)];
    let asked = || format!("The instruction {bytes:?} in the state of {}", tell(s));
    demand([by_library, refusal, by_ideal].map(u16::from), alike, asked);
    (refusal, after)
}

/// The answer to the recipe, and the state after it.
pub fn recipe(s: &Record, call: &Call) -> (u16, Record) {
    let mut state = s.bytes();
    let by_library = library::recipe(&mut state, call);
    let mut rows = Rows::of(s);
    let by_ideal = ideal::recipe(&mut rows, call);
    let by_plain = plain::recipe(s, call);
    let asked = || format!("The {call:?} in the state of {}", tell(s));
    let same = plain::recipe_asking_once(s, call) == by_plain;
    assert!(same, "Plain Rust answers otherwise if it asks once. {}", asked());
    let (answer, after) = match by_plain {
        Ok(next) => (0, next),
        Err(answer) => (answer, s.clone()),
    };
    let alike = [state == after.bytes(), rows == Rows::of(&after)];
    demand([by_library, answer, by_ideal], alike, asked);
    (answer, after)
}

/// The answer to the access question.
pub fn access(s: &Record, area: u32, object: u32) -> u16 {
    let answer = plain::access(s, area, object);
    let answers = [
        library::access(&s.bytes(), area, object),
        answer,
        ideal::access(&Rows::of(s), area, object),
    ];
    demand(answers, [true, true], || {
        format!("Area {area} and object {object} in the state of {}", tell(s))
    });
    answer
}

/// The refusal of the file, 0 for none.
pub fn read(file: &[u8]) -> u8 {
    let founding = Record::founding();
    let (by_ideal, rows) = match ideal_reader::read(file) {
        Ok(rows) => (0, rows),
        Err(refusal) => (refusal, Rows::of(&founding)),
    };
    let (refusal, s) = match plain_reader::read(file) {
        Ok(s) => (0, s),
        Err(refusal) => (refusal, founding),
    };
    let expected = s.bytes();
    // Each bit is another than it should become, so that whatever the library leaves as it was is seen.
    let mut state = expected.map(|byte| !byte);
    let by_library = library::read(file, &mut state);
    let alike = [state == expected, rows == Rows::of(&s)];
    demand([by_library, refusal, by_ideal].map(u16::from), alike, || {
        format!("The file {file:?}")
    });
    refusal
}

/// The length of the file that is written, or the refusal; for a buffer of so many bytes.
pub fn write(s: &Record, labels: &[u8], room: usize) -> Result<usize, u8> {
    // A byte that no file of letters and small numbers has: what is left as it was is seen.
    let buffers = [[0xa5; FILE_MOST + 1]; 3];
    let [mut by_library, mut by_plain, mut by_ideal] = buffers;
    let number = library::write(&s.bytes(), labels, &mut by_library[..room]);
    let length = plain_writer::write(s, labels, &mut by_plain[..room]);
    let answers = [length, ideal_writer::write(&Rows::of(s), labels, &mut by_ideal[..room])];
    let [plain, ideal] = answers.map(|answer| answer.map_or_else(|refusal| 65_536 + u32::from(refusal), |n| n as u32));
    let alike = [by_library == by_plain, by_ideal == by_plain];
    demand([number, plain, ideal], alike, || {
        format!("The labels {labels:?} and {room} bytes for the state of {}", tell(s))
    });
    length
}

/// The place of the lowest mark.
pub fn lowest_mark(marks: u8) -> u8 {
    let place = plain::lowest_mark(marks);
    let answers = [library::lowest_mark(marks), place, ideal::lowest_mark(marks)];
    demand(answers.map(u16::from), [true, true], || {
        format!("The marks {marks:08b}")
    });
    place
}

/// The record by its numbers and pairs.
pub fn tell(s: &Record) -> String {
    let members = |list: &[bool]| -> Vec<usize> { (0..list.len()).filter(|&i| list[i]).collect() };
    let pairs = |list: &[bool]| -> Vec<(usize, usize)> { members(list).iter().map(|&at| (at / 32, at % 32)).collect() };
    format!(
        "users {:?}, areas {:?}, objects {:?}, owners {:?}, definitions {:?}, structure {:?}, imports {:?}, \
         exports {:?}",
        members(&s.users),
        members(&s.areas),
        members(&s.objects),
        pairs(&s.owners),
        pairs(&s.definitions),
        pairs(&s.structure),
        pairs(&s.imports),
        pairs(&s.exports)
    )
}

/// How often each answer was seen.
#[derive(Default)]
struct Seen {
    /// By refusal: 0 to 12, and 15 behind them.
    steps: [u32; 14],
    /// A number of steps, no access, refusal 12, 2, 4.
    questions: [u32; 5],
    /// By refusal: 0, 21 to 29.
    files: [u32; 10],
    /// By refusal: 0, 12, 30, 31.
    writings: [u32; 4],
    borders: Borders,
    /// States with an import or export at 9 steps, refused as 12 and as 29.
    too_far: u32,
    /// States with nothing wrong but an own import, refused as 12 in a step and in a question, and as 29.
    own_imports: u32,
}

impl Seen {
    fn step(&mut self, s: &Record, bytes: Bytes) -> Record {
        let (refusal, after) = step(s, bytes);
        self.steps[usize::from(refusal.min(13))] += 1;
        if let 0 | 10 | 11 = refusal {
            if let Some(too_far) = self.borders.step(s, bytes) {
                let refusals = [step(&too_far, bytes).0, read(&files::file(&too_far))];
                self.too_far += u32::from(refusals == [12, 29]);
            }
        }
        if refusal == 15 {
            self.own_import(s, bytes);
        }
        after
    }

    /// The state that the refused import would give: a step that would take it out again, a question, and the file.
    fn own_import(&mut self, s: &Record, [_, activator, area, object]: Bytes) {
        let mut own = s.clone();
        own.imports[cell(object.into(), area.into())] = true;
        let refused = step(&own, [10, activator, area, object]).0 == 12
            && access(&own, area.into(), object.into()) == REFUSED + 12
            && read(&files::file(&own)) == 29;
        self.own_imports += u32::from(refused);
    }

    fn question(&mut self, s: &Record, [area, object]: [u32; 2]) {
        const OTHERS: [u16; 4] = [NO_ACCESS as u16, REFUSED + 12, REFUSED + 2, REFUSED + 4];
        let answer = access(s, area, object);
        let kind = OTHERS.iter().position(|&other| other == answer).map_or(0, |i| i + 1);
        self.questions[kind] += 1;
        if let 0 | 1 = kind {
            self.borders.question(s, area, object);
        }
    }

    fn file(&mut self, file: &[u8]) {
        let refusal = read(file);
        self.files[usize::from(refusal.saturating_sub(20))] += 1;
    }

    /// The file of the state, with a label for each listed area; at times the labels are damaged, or the buffer has
    /// another length than the file.
    fn writing(&mut self, chance: &mut Chance, s: &Record) {
        let mut labels = files::labels(&s.areas);
        let length = files::with_labels(s, &labels).len();
        if chance.once_in(2) && !labels.is_empty() {
            labels = random::damaged_block(chance, labels);
        }
        let any = chance.below(length);
        let room = chance.pick(&[length, length, length - 1, length + 1, any, FILE_MOST]);
        let kind = match write(s, &labels, room.min(FILE_MOST + 1)) {
            Ok(_) => 0,
            Err(12) => 1,
            Err(30) => 2,
            Err(_) => 3,
        };
        self.writings[kind] += 1;
    }

    fn lines(&self) -> [String; 6] {
        let Seen {
            steps,
            questions,
            files,
            writings,
            borders,
            too_far,
            own_imports,
        } = self;
        let at_borders = [borders.questions, borders.adds, borders.removals];
        let unsound = [*too_far, *own_imports];
        let every = [
            &steps[..],
            questions,
            files,
            writings,
            &unsound,
            at_borders.as_flattened(),
        ]
        .concat();
        let lines = [
            format!("agree: instructions answered 0 to 12, 15: {steps:?}"),
            format!("agree: questions answered by steps, no access, 12, 2, 4: {questions:?}"),
            format!("agree: files answered 0, 21 to 29: {files:?}"),
            format!("agree: writings answered 0, 12, 30, 31: {writings:?}"),
            format!(
                "agree: at 8 and 9 steps: questions {:?}, imports and exports {:?}, removes {:?}; \
                 states refused for 9: {too_far}",
                borders.questions, borders.adds, borders.removals
            ),
            format!("agree: states refused for an own import: {own_imports}"),
        ];
        assert!(!every.contains(&0), "an answer was never seen: {lines:#?}");
        lines
    }

    /// A question within the span, at times one out of all range; at times the state's file, and that file damaged.
    fn state(&mut self, chance: &mut Chance, s: &Record, [_, areas, objects]: Span) {
        let mut question = [chance.below(areas) as u8, chance.below(objects) as u8];
        if chance.once_in(16) {
            question = random::wild(chance, question);
        }
        self.question(s, question.map(u32::from));
        if chance.once_in(4) {
            let file = files::file(s);
            self.file(&file);
            self.file(&random::damaged_file(chance, file));
            self.writing(chance, s);
        }
    }

    /// Circles of areas: every cut, every import and export and the removal of each, every question, and the file.
    fn circles(&mut self) {
        for areas in 9..=24 {
            let s = borders::circle(areas.into());
            self.file(&files::file(&s));
            for area in 0..areas {
                self.step(&s, [6, 0, area, (area + 1) % areas]);
                for object in 0..2 {
                    self.question(&s, [area.into(), object.into()]);
                    for code in 9..=12 {
                        self.step(&s, [code, 0, area, object]);
                    }
                }
            }
        }
    }
}

/// Walks of random instructions from the founding state, over few numbers and over all; on the way damaged records, the
/// access question and files, read and written. Then the circles. Gives lines on what was seen.
pub fn compare(count: u32) -> [String; 6] {
    let mut chance = Chance::new(2);
    let mut seen = Seen::default();
    let mut s = Record::founding();
    for i in 0..count {
        let span = random::SPANS[(i / 2_000) as usize % random::SPANS.len()];
        if i % 2_000 == 0 {
            s = Record::founding();
        }
        let mut bytes = random::instruction(&mut chance, &s, span);
        if chance.once_in(16) {
            bytes = random::wild(&mut chance, bytes);
        }
        if chance.once_in(16) {
            let damaged = random::damaged(&mut chance, &s, span);
            seen.step(&damaged, bytes);
            seen.state(&mut chance, &damaged, span);
        }
        s = seen.step(&s, bytes);
        seen.state(&mut chance, &s, span);
    }
    seen.circles();
    seen.lines()
}
