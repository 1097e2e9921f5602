//! "The program PanelRights": what it prints for the bytes of standard input.

use crate::instructions::step;
use crate::state::State;

/// "Input above 65,536 bytes yields the line `too long` alone."
const LONGEST_INPUT: usize = 65_536;

/// "each line ended by byte 10"
const LINE_END: u8 = 10;

/// "unreadable line"
const UNREADABLE: u8 = 13;

/// All that PanelRights prints for these bytes of standard input.
///
/// "It begins in F. For each line it prints the line's number from 1, a space, and 0 or the refusal. Last it prints `state` and the
/// counts ... Each printed line ends with byte 10."
pub fn transcript(input: &[u8]) -> Vec<u8> {
    if input.len() > LONGEST_INPUT {
        return b"too long\n".to_vec();
    }
    let mut state = State::founding();
    let mut output = String::new();
    for (place, line) in lines(input).into_iter().enumerate() {
        let reply = obey(&mut state, line);
        output.push_str(&format!("{} {}\n", place + 1, reply));
    }
    output.push_str(&last_line(&state));
    output.into_bytes()
}

/// The lines, each with its byte 10 where it has one. "Empty input has no line"; input that ends in byte 10 has no further line.
fn lines(input: &[u8]) -> Vec<&[u8]> {
    input.split_inclusive(|&byte| byte == LINE_END).collect()
}

/// One line: 0, or the refusal. "13 belongs to the program alone, before the others." "The state after a refusal is the state given."
fn obey(state: &mut State, line: &[u8]) -> u8 {
    let Some(instruction) = instruction_of(line) else {
        return UNREADABLE;
    };
    match step(state, instruction) {
        Ok(next) => {
            *state = next;
            0
        }
        Err(refusal) => refusal,
    }
}

/// "lines of four decimal numbers 0 to 255, without leading zeros, one space between, each line ended by byte 10; a last line lacking
/// that is unreadable"
fn instruction_of(line: &[u8]) -> Option<[u8; 4]> {
    let text = line.strip_suffix(&[LINE_END])?;
    let numbers: Option<Vec<u8>> = text.split(|&byte| byte == b' ').map(number_of).collect();
    numbers?.try_into().ok()
}

/// "decimal numbers 0 to 255, without leading zeros"
fn number_of(digits: &[u8]) -> Option<u8> {
    let leading_zero = digits.len() > 1 && digits[0] == b'0';
    if digits.is_empty() || digits.len() > 3 || leading_zero || !digits.iter().all(u8::is_ascii_digit) {
        return None;
    }
    let value = digits.iter().fold(0_u16, |value, digit| value * 10 + u16::from(digit - b'0'));
    u8::try_from(value).ok()
}

/// "Last it prints `state` and the counts of users, areas, objects, owner, structure, import and export pairs."
fn last_line(state: &State) -> String {
    let lists = format!("{} {} {}", state.users.len(), state.areas.len(), state.objects.len());
    let pairs = format!(
        "{} {} {} {}",
        state.owners.len(),
        state.structure.len(),
        state.imports.len(),
        state.exports.len()
    );
    format!("state {lists} {pairs}\n")
}
