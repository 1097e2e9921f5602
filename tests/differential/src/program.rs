//! PanelRights on inputs that a reader of lines could get wrong, beside the reference's transcript.

use crate::answer::Answer;
use crate::case::Case;
use crate::lines::{noise, Session, UNREADABLE};
use crate::own_imports;
use crate::seen::Seen;
use crate::shards::Plan;
use chance::Chance;
use std::io::Write;
use std::process::{Child, Command, Stdio};
use std::thread;

/// Seen from the root of the repository.
const PROGRAM: &str = "target/bin/panelrights";

/// How many short sessions a shard has, and how many inputs of numbers in disorder.
const SESSIONS: usize = 40;
const NOISES: usize = 16;

/// The longest input that is read.
const LONGEST: usize = 65_536;

/// Lengths of the inputs about the longest, and of one far beyond.
const LENGTHS: [u32; 5] = [65_535, 65_536, 65_537, 65_538, 200_000];

const SHORTEST_INPUTS: [&str; 6] = ["", "\n", "\n\n", "1 0 1 0", " ", "\0"];

pub fn run(plan: &Plan) -> (String, Seen) {
    let mut seen = plan.run("program", |_, chance, seen| {
        (0..SESSIONS).for_each(|_| short_session(chance, seen));
        (0..NOISES).for_each(|_| compare(&noise(chance), seen));
        (0..UNREADABLE.len()).for_each(|kind| unreadable_line_alone(kind, chance, seen));
        long_session(LONGEST - 1 + chance.below(2), chance, seen);
    });
    for input in SHORTEST_INPUTS {
        compare(input.as_bytes(), &mut seen);
    }
    for length in LENGTHS {
        long_inputs(length as usize, &mut seen);
    }
    seen.require("unreadable", 0..UNREADABLE.len() as u32, 100);
    seen.require("last line without byte 10", [0], 50);
    seen.require("length", LENGTHS, 3);
    seen.require("import, steps and answer", [800, 910], 20);
    seen.require("export, steps and answer", [800, 910], 20);
    own_imports::require_steps(&mut seen, 20);
    let times = |(kind, (name, _))| format!("{name} {}", seen.times("unreadable", kind));
    let kinds: Vec<String> = (0..).zip(UNREADABLE).map(times).collect();
    let line = format!(
        "{} inputs, {} lines; unreadable: {}; last lines without byte 10: {}; inputs of {LENGTHS:?} bytes: {:?}; \
         imports at 8, 9 steps: {:?}, exports: {:?}; {}",
        seen.total("program"),
        seen.total("line"),
        kinds.join(", "),
        seen.total("last line without byte 10"),
        seen.each("length", LENGTHS),
        seen.each("import, steps and answer", [800, 910]),
        seen.each("export, steps and answer", [800, 910]),
        own_imports::steps_text(&seen),
    );
    (line, seen)
}

fn compare(input: &[u8], seen: &mut Seen) {
    for _ in input.split_inclusive(|&byte| byte == b'\n') {
        seen.count("line", 0);
    }
    if input.last().is_some_and(|&byte| byte != b'\n') {
        seen.count("last line without byte 10", 0);
    }
    seen.count("length", input.len() as u32);
    seen.compare(&Case::program(input));
}

/// Up to 200 lines, some unreadable; once in four times the last lacks its byte 10. In some there is a row of areas in
/// front.
fn short_session(chance: &mut Chance, seen: &mut Seen) {
    let mut session = Session::new();
    if chance.once_in(3) {
        session.add_row(chance, seen);
    }
    for _ in 0..chance.below(200) {
        if chance.once_in(8) {
            let kind = chance.below(UNREADABLE.len());
            session.add_unreadable(kind, chance);
            seen.count("unreadable", kind as u32);
        } else {
            session.add_instruction(chance, seen);
        }
    }
    if chance.once_in(4) {
        session.input.pop();
    }
    compare(&session.input, seen);
}

/// Behind one other line; the transcript must have a 13 for it.
fn unreadable_line_alone(kind: usize, chance: &mut Chance, seen: &mut Seen) {
    let mut session = Session::new();
    session.add_instruction(chance, seen);
    session.add_unreadable(kind, chance);
    seen.count("unreadable", kind as u32);
    let printed = reference::transcript(&session.input);
    seen.demand(
        printed.windows(6).any(|bytes| bytes == b"\n2 13\n"),
        "every spoilt line is unreadable",
    );
    compare(&session.input, seen);
}

/// Thousands of lines, and just so many bytes.
fn long_session(length: usize, chance: &mut Chance, seen: &mut Seen) {
    let mut session = Session::new();
    while session.input.len() < length - 100 {
        session.add_instruction(chance, seen);
    }
    session.fill_up(length);
    compare(&session.input, seen);
}

/// So many bytes of one line, of lines that fit, and of empty lines.
fn long_inputs(length: usize, seen: &mut Seen) {
    for line in ["7", "1 0 1 0\n", "\n"] {
        let input: Vec<u8> = line.bytes().cycle().take(length).collect();
        compare(&input, seen);
    }
}

/// What the program prints for the input; the number is its exit code.
pub fn run_program(input: &[u8]) -> Answer {
    let program = Command::new(PROGRAM)
        .stdin(Stdio::piped())
        .stdout(Stdio::piped())
        .stderr(Stdio::piped())
        .spawn();
    match program {
        Ok(child) => answer_of(child, input),
        Err(error) => Answer {
            complaint: format!("{PROGRAM}: {error}"),
            ..Answer::new(1_u32, Vec::new())
        },
    }
}

fn answer_of(mut child: Child, input: &[u8]) -> Answer {
    let mut to = child.stdin.take().expect("standard input is a pipe");
    let output = thread::scope(|scope| {
        // It may end before it has read all of a long input; what it printed says whether that was right.
        scope.spawn(move || to.write_all(input).ok());
        child.wait_with_output().expect("the program can be waited for")
    });
    let code = output.status.code().map_or(u32::MAX, |code| code as u32);
    let mut answer = Answer::new(code, output.stdout);
    if !output.stderr.is_empty() {
        answer.complaint = String::from_utf8_lossy(&output.stderr).into_owned();
    }
    answer
}
