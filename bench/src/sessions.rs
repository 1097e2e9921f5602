//! Sessions for the program, as large as it takes, and what it should print for them: a transcript in plain Rust over
//! the plain step.

use crate::plain;
use crate::record::Record;
use crate::rules::Bytes;
use std::fmt::Write;

/// The most bytes of an input.
const MOST: usize = 65_536;

/// The lines, then two others by turns, as many as fit.
fn filled(mut lines: String, turns: [&str; 2]) -> String {
    let mut turn = 0;
    while lines.len() + turns[turn].len() <= MOST {
        lines += turns[turn];
        turn = 1 - turn;
    }
    lines
}

/// 8,192 lines, all accepted.
pub fn accepted() -> String {
    filled(String::new(), ["5 0 0 0\n", "6 0 0 0\n"])
}

/// A site is built up with every structure pair, and ten areas that export every object, and import it if they don't
/// define it; then a structure pair comes and goes. All is accepted.
pub fn dense() -> String {
    let mut lines = String::new();
    for area in 1..32 {
        writeln!(lines, "1 0 {area} 0").unwrap();
    }
    for inner in 0..32 {
        for outer in 0..32 {
            writeln!(lines, "5 0 {inner} {outer}").unwrap();
        }
    }
    for object in 0..64 {
        let definer = object % 10;
        writeln!(lines, "7 0 {definer} {object}\n11 0 {definer} {object}").unwrap();
        for k in 1..10 {
            let area = (definer + k) % 10;
            writeln!(lines, "11 0 {area} {object}\n9 0 {area} {object}").unwrap();
        }
    }
    filled(lines, ["6 0 0 0\n", "5 0 0 0\n"])
}

/// 65,536 lines, all unreadable.
pub fn empty_lines() -> String {
    "\n".repeat(MOST)
}

fn number(word: &str) -> Option<u8> {
    let value = word.parse().ok()?;
    (word == u8::to_string(&value)).then_some(value)
}

fn instruction(line: &str) -> Option<Bytes> {
    let mut words = line.split(' ').map(number);
    let bytes = [words.next()??, words.next()??, words.next()??, words.next()??];
    words.next().is_none().then_some(bytes)
}

/// What the program prints for an input of whole lines that is not too long.
pub fn transcript(input: &str) -> String {
    let mut s = Record::founding();
    let mut text = String::new();
    for (i, line) in input.split_terminator('\n').enumerate() {
        let result = match instruction(line).map(|bytes| plain::step(&s, bytes)) {
            None => 13,
            Some(Err(refusal)) => refusal,
            Some(Ok(next)) => {
                s = next;
                0
            }
        };
        writeln!(text, "{} {result}", i + 1).unwrap();
    }
    let sets: [&[bool]; 7] = [
        &s.users,
        &s.areas,
        &s.objects,
        &s.owners,
        &s.structure,
        &s.imports,
        &s.exports,
    ];
    text += "state";
    for set in sets {
        write!(text, " {}", set.iter().filter(|&&there| there).count()).unwrap();
    }
    text + "\n"
}
