//! What the reference says a caller of panelrights.h gets.

use crate::answer::Answer;
use crate::library::{before_writing, UNWRITTEN};
use crate::site::Site;
use reference::{Call, Command, State, RECORD_BYTES};

/// "the state buffer has another length than panelrights_state_bytes()"
const STATE_LENGTH: u32 = 31;
const NO_ACCESS: u32 = 255;
const ACCESS_REFUSED: u32 = 256;

/// What an explanation adds to a refusal, and to the number of bytes where it is counts.
pub const EXPLAIN_REFUSED: u32 = 256;
pub const EXPLAIN_COUNTS: u32 = 512;

/// What the writer adds to a refusal, so that it is no length.
pub const WRITE_REFUSED: u32 = 65536;

fn founding_record() -> Vec<u8> {
    reference::to_record(&State::founding())
}

pub fn founding(buffer_len: usize) -> Answer {
    match buffer_len {
        RECORD_BYTES => Answer::new(0_u32, founding_record()),
        _ => Answer::new(STATE_LENGTH, vec![UNWRITTEN; buffer_len]),
    }
}

pub fn step(site: &Site, instruction: [u8; 4]) -> Answer {
    let after = match &site.state {
        Some(state) => reference::step(state, instruction).map(|after| reference::to_record(&after)),
        None => reference::step_record(&site.record, instruction),
    };
    match after {
        Ok(record) => Answer::new(0_u32, record),
        Err(refusal) => Answer::new(refusal, site.record.clone()),
    }
}

/// The answer to the remove, or to the add if there is nothing to take back.
pub fn back(site: &Site, add: [u8; 4]) -> Answer {
    let added = step(site, add);
    remove(add, &added).unwrap_or(added)
}

/// The answer to the matching remove over the record that the add has left. None if the instruction is no add, or was
/// refused.
pub fn remove(add: [u8; 4], added: &Answer) -> Option<Answer> {
    let matching = reference::matching_remove(add).filter(|_| added.number == 0)?;
    Some(step(&Site::of_bytes(added.bytes.clone()), matching))
}

/// The place times 256 and the number; beside a refusal no byte is changed.
pub fn recipe(site: &Site, bytes: &[u8], call: &Call) -> Answer {
    let (answer, after) = match &site.state {
        Some(state) => {
            let (answer, after) = reference::recipe(state, bytes, call);
            (answer, reference::to_record(&after))
        }
        None => reference::recipe_record(&site.record, bytes, call),
    };
    match (answer.number, answer.place) {
        (0, 0) => Answer::new(0_u32, after),
        (number, place) => Answer::new(u32::from(place) * 256 + u32::from(number), site.record.clone()),
    }
}

pub fn access(site: &Site, area: u32, object: u32) -> Answer {
    let steps = match &site.state {
        Some(state) => reference::access(state, area, object),
        None => Err(12),
    };
    let number = match steps {
        Ok(steps) => steps.map_or(NO_ACCESS, u32::from),
        Err(refusal) => ACCESS_REFUSED + u32::from(refusal),
    };
    Answer::new(number, site.record.clone())
}

/// Chain, counts or refusal, and the whole buffer.
pub fn explain(site: &Site, area: u32, object: u32, buffer_len: usize) -> Answer {
    let mut buffer = before_writing(buffer_len);
    let explanation = match &site.state {
        Some(state) => reference::explain(state, area, object, &mut buffer),
        None => reference::explain_record(&site.record, area, object, &mut buffer),
    };
    Answer::new(reference::explanation_number(explanation), buffer)
}

/// The number and the pair; no byte is changed.
pub fn reason(site: &Site, instruction: [u8; 4]) -> Answer {
    let reason = match &site.state {
        Some(state) => reference::explain_step(state, instruction),
        None => reference::explain_step_record(&site.record, instruction),
    };
    Answer::new(reference::step_reason_number(reason), site.record.clone())
}

pub fn read_file(file: &[u8], buffer_len: usize) -> Answer {
    if buffer_len != RECORD_BYTES {
        return Answer::new(STATE_LENGTH, vec![UNWRITTEN; buffer_len]);
    }
    match reference::read_file(file) {
        Ok((state, _)) => Answer::new(0_u32, reference::to_record(&state)),
        Err(refusal) => Answer::new(refusal, founding_record()),
    }
}

/// The place by the reference's label finder, the text by its reader.
pub fn label(file: &[u8], area: u32) -> Answer {
    let (offset, length) = reference::label(file, area);
    let text = reference::read_file(file)
        .ok()
        .and_then(|(_, labels)| labels.get(&u8::try_from(area).ok()?).cloned());
    Answer::new((offset * 65536 + length) as u32, text.unwrap_or_default())
}

/// The place of the label block, and its bytes.
pub fn labels(file: &[u8]) -> Answer {
    let (offset, length) = reference::label_block(file);
    Answer::new((offset * 65536 + length) as u32, file[offset..offset + length].to_vec())
}

/// The length of the file or the refusal, and the whole buffer.
pub fn write_file(site: &Site, block: &[u8], buffer_len: usize) -> Answer {
    let mut buffer = before_writing(buffer_len);
    let written = match &site.state {
        Some(state) => reference::write(state, block, &mut buffer),
        None => reference::write_record(&site.record, block, &mut buffer),
    };
    let number = match written {
        Ok(length) => length as u32,
        Err(refusal) => WRITE_REFUSED + u32::from(refusal),
    };
    Answer::new(number, buffer)
}

pub fn run(site: &Site, list: &[[u8; 4]]) -> Answer {
    let record = match &site.state {
        Some(state) => reference::to_record(&reference::run(state, list)),
        None => site.record.clone(),
    };
    Answer::new(0_u32, record)
}

pub fn run_commands(site: &Site, list: &[Command]) -> Answer {
    let record = match &site.state {
        Some(state) => reference::to_record(&reference::run_commands(state, list)),
        None => site.record.clone(),
    };
    Answer::new(0_u32, record)
}
