//! Two answers to one case, put side by side for a reader.

use crate::answer::Answer;
use crate::case::Case;
use crate::expected::{EXPLAIN_COUNTS, EXPLAIN_REFUSED, WRITE_REFUSED};
use crate::places::{bit, meaning, PLACES};
use crate::text::{bytes_text, state_text};
use reference::RECORD_BYTES;
use std::fmt::Display;

/// So many differing places are named.
const NAMED: usize = 8;

pub fn difference_text(case: &Case, library: &Answer, reference: &Answer) -> String {
    let mut text = format!("  tests/differential.sh replay '{case}'\n");
    text += &format!("  library: {}\n", answer_text(case, library));
    text += &format!("  reference: {}", answer_text(case, reference));
    if library.bytes != reference.bytes {
        let differing = bytes_difference(case, &library.bytes, &reference.bytes);
        text += &format!("\n  library and reference: {differing}");
    }
    text
}

/// The number, in the words of the case's kind, and the complaint.
pub fn answer_text(case: &Case, answer: &Answer) -> String {
    let number = answer.number;
    let mut text = match case {
        Case::Label { .. } | Case::Labels { .. } => format!("offset {}, length {}", number >> 16, number & 0xffff),
        Case::Write { .. } if number >= WRITE_REFUSED => format!("refused with {}", number - WRITE_REFUSED),
        Case::Write { .. } => format!("a file of {number} bytes"),
        Case::Recipe { .. } => format!("{} at place {}", number & 0xff, number >> 8),
        Case::Explain { .. } => explanation_text(number),
        Case::Reason { .. } => reason_text(number),
        _ => number.to_string(),
    };
    if !answer.complaint.is_empty() {
        text.push_str(&format!(" ({})", answer.complaint));
    }
    text
}

fn explanation_text(number: u32) -> String {
    match number {
        EXPLAIN_COUNTS.. => format!("counts of {} bytes", number - EXPLAIN_COUNTS),
        EXPLAIN_REFUSED.. => format!("refused with {}", number - EXPLAIN_REFUSED),
        _ => format!("a chain of {number} bytes"),
    }
}

fn reason_text(number: u32) -> String {
    let [number, kind, object, area] = number.to_le_bytes();
    let kind = match kind {
        0 if [object, area] == [0, 0] => return format!("{number} and no pair"),
        1 => "an import",
        2 => "an export",
        _ => "a pair of no kind",
    };
    format!("{number} and {kind}, object {object}, area {area}")
}

/// The whole content: a state by its sets, a buffer in hexadecimal, other bytes as text.
pub fn content_text(case: &Case, answer: &Answer) -> String {
    match case {
        Case::Program { .. } | Case::Label { .. } => String::from_utf8_lossy(&answer.bytes).into_owned(),
        _ if is_buffer(case) => bytes_text(&answer.bytes),
        _ => match reference::from_record(&answer.bytes) {
            Some(state) => state_text(&state),
            None => format!("{} bytes, no record", answer.bytes.len()),
        },
    }
}

/// Are the bytes of its answers something else than a record, and no text?
fn is_buffer(case: &Case) -> bool {
    matches!(case, Case::Labels { .. } | Case::Write { .. } | Case::Explain { .. })
}

fn bytes_difference(case: &Case, library: &[u8], reference: &[u8]) -> String {
    if let Case::Program { input } = case {
        return line_difference(input, library, reference);
    }
    if library.len() != reference.len() {
        return format!("{} bytes and {} bytes", library.len(), reference.len());
    }
    let is_record = library.len() == RECORD_BYTES && !is_buffer(case);
    let named: Vec<String> = match library.len() {
        _ if is_record => {
            let of_both = |place: usize| [bit(library, place), bit(reference, place)];
            let differing = differing(PLACES, of_both);
            differing.map(|(place, both)| text(meaning(place), both)).collect()
        }
        length => {
            let differing = differing(length, |byte| [library[byte], reference[byte]]);
            differing
                .map(|(byte, both)| text(format!("byte {byte}"), both))
                .collect()
        }
    };
    named.join("; ")
}

/// The first places below the limit where what both sides have is not the same, and what they have.
fn differing(limit: usize, of_both: impl Fn(usize) -> [u8; 2]) -> impl Iterator<Item = (usize, [u8; 2])> {
    let places = (0..limit).map(move |place| (place, of_both(place)));
    places.filter(|(_, [one, other])| one != other).take(NAMED)
}

fn text(name: impl Display, [library, reference]: [u8; 2]) -> String {
    format!("{name}: {library} and {reference}")
}

/// The first line that differs, and the line of the input with the same number.
fn line_difference(input: &[u8], library: &[u8], reference: &[u8]) -> String {
    let line = |text: &[u8], number: usize| match text.split(|&byte| byte == b'\n').nth(number) {
        Some(line) => line.escape_ascii().to_string(),
        None => "nothing".to_string(),
    };
    let same = library.iter().zip(reference).take_while(|(one, other)| one == other);
    let number = same.filter(|(&byte, _)| byte == b'\n').count();
    format!(
        "line {:?}: {:?} and {:?}",
        line(input, number),
        line(library, number),
        line(reference, number)
    )
}
