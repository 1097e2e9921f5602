//! The library's calls. Each buffer that it gets stands between guard bytes. All unsafe code of the tests is here.

use crate::answer::Answer;
use panelrights::sys;
use reference::Call;

/// An odd number, so that the buffer stands at an odd address.
const GUARD_BYTES: usize = 37;
const GUARD: u8 = 0x5a;

/// What a buffer holds before a call that is to write it: few records have such a byte, so that one left alone shows.
pub const UNWRITTEN: u8 = 0xaa;

/// What a buffer holds before a file or an explanation is written there: bytes that no table of a file, no chain and no
/// counts have, and neighbours that differ.
pub fn before_writing(buffer_len: usize) -> Vec<u8> {
    (0..buffer_len).map(|place| 128 + (place % 127) as u8).collect()
}

/// A buffer between guard bytes.
struct Guarded {
    bytes: Vec<u8>,
    len: usize,
}

impl Guarded {
    fn new(content: &[u8]) -> Guarded {
        let mut bytes = vec![GUARD; content.len() + 2 * GUARD_BYTES];
        bytes[GUARD_BYTES..GUARD_BYTES + content.len()].copy_from_slice(content);
        Guarded {
            bytes,
            len: content.len(),
        }
    }

    /// NULL where the buffer is empty, as panelrights.h allows.
    fn pointer(&mut self) -> *mut u8 {
        match self.len {
            0 => std::ptr::null_mut(),
            _ => self.bytes[GUARD_BYTES..].as_mut_ptr(),
        }
    }

    fn content(&self) -> &[u8] {
        &self.bytes[GUARD_BYTES..GUARD_BYTES + self.len]
    }

    fn guards_stand(&self) -> bool {
        let (front, rest) = self.bytes.split_at(GUARD_BYTES);
        front.iter().chain(&rest[self.len..]).all(|&byte| byte == GUARD)
    }

    /// Ends the call: its number and the content left here, and a complaint if a byte outside has changed.
    fn answer(self, number: impl Into<u32>) -> Answer {
        let mut answer = Answer::new(number, self.content().to_vec());
        if !self.guards_stand() {
            answer.complaint = "a byte beside the buffer was changed".to_string();
        }
        answer
    }
}

pub fn state_bytes() -> usize {
    // SAFETY: it takes nothing.
    unsafe { sys::panelrights_state_bytes() }
}

/// Into a buffer of so many bytes.
pub fn founding(buffer_len: usize) -> Answer {
    let mut buffer = Guarded::new(&vec![UNWRITTEN; buffer_len]);
    // SAFETY: so many bytes may be read and written there.
    let number = unsafe { sys::panelrights_founding(buffer.pointer(), buffer_len) };
    buffer.answer(number)
}

pub fn step(record: &[u8], [code, activator, a, b]: [u8; 4]) -> Answer {
    let mut buffer = Guarded::new(record);
    // SAFETY: so many bytes may be read and written there.
    let number = unsafe { sys::panelrights_step(buffer.pointer(), record.len(), code, activator, a, b) };
    buffer.answer(number)
}

pub fn recipe(record: &[u8], bytes: &[u8], call: &Call) -> Answer {
    let mut buffer = Guarded::new(record);
    let mut lent = Guarded::new(bytes);
    let (state, recipe) = (buffer.pointer(), lent.pointer());
    let (activator, [p0, p1, p2, p3]) = (call.activator, call.parameters);
    // SAFETY: so many bytes may be read and written in the one, and read in the other; they are two.
    let number =
        unsafe { sys::panelrights_recipe(state, record.len(), recipe, bytes.len(), activator, p0, p1, p2, p3) };
    let mut answer = buffer.answer(number);
    complain_of_change(&mut answer, &lent, bytes);
    answer
}

/// No code, so that a sound state answers 1, and any other 12.
pub const NO_INSTRUCTION: [u8; 4] = [0; 4];

/// Does the library call the state of the record sound?
pub fn is_sound(record: &[u8]) -> bool {
    step(record, NO_INSTRUCTION).number != 12
}

pub fn access(record: &[u8], area: u32, object: u32) -> Answer {
    let mut buffer = Guarded::new(record);
    // SAFETY: so many bytes may be read there.
    let number = unsafe { sys::panelrights_access(buffer.pointer(), record.len(), area, object) };
    buffer.answer(number)
}

/// Into a buffer of so many bytes, all of which are in the answer.
pub fn explain(record: &[u8], area: u32, object: u32, buffer_len: usize) -> Answer {
    let mut buffer = Guarded::new(&before_writing(buffer_len));
    let mut state = Guarded::new(record);
    let [record_at, written] = [&mut state, &mut buffer].map(Guarded::pointer);
    // SAFETY: so many bytes may be read in the one, and read and written in the other; they are two.
    let number = unsafe { sys::panelrights_explain(record_at, record.len(), area, object, written, buffer_len) };
    let mut answer = buffer.answer(number);
    complain_of_change(&mut answer, &state, record);
    answer
}

pub fn explain_step(record: &[u8], [code, activator, a, b]: [u8; 4]) -> Answer {
    let mut buffer = Guarded::new(record);
    // SAFETY: so many bytes may be read there.
    let number = unsafe { sys::panelrights_explain_step(buffer.pointer(), record.len(), code, activator, a, b) };
    buffer.answer(number)
}

/// Into a buffer of so many bytes.
pub fn read_file(file: &[u8], buffer_len: usize) -> Answer {
    let mut lent = Guarded::new(file);
    let mut buffer = Guarded::new(&vec![UNWRITTEN; buffer_len]);
    // SAFETY: so many bytes may be read in the one, and read and written in the other; they are two.
    let number = unsafe { sys::panelrights_read_file(lent.pointer(), file.len(), buffer.pointer(), buffer_len) };
    let mut answer = buffer.answer(number);
    complain_of_change(&mut answer, &lent, file);
    answer
}

/// The bytes are the label's text.
pub fn label(file: &[u8], area: u32) -> Answer {
    let mut lent = Guarded::new(file);
    // SAFETY: so many bytes may be read there.
    let number = unsafe { sys::panelrights_label(lent.pointer(), file.len(), area) };
    let mut answer = found(file, number);
    complain_of_change(&mut answer, &lent, file);
    answer
}

/// The bytes are the label block.
pub fn labels(file: &[u8]) -> Answer {
    let mut lent = Guarded::new(file);
    // SAFETY: so many bytes may be read there.
    let number = unsafe { sys::panelrights_labels(lent.pointer(), file.len()) };
    let mut answer = found(file, number);
    complain_of_change(&mut answer, &lent, file);
    answer
}

/// The part of the file that the number tells.
fn found(file: &[u8], number: u32) -> Answer {
    let (offset, length) = ((number >> 16) as usize, (number & 0xffff) as usize);
    match file.get(offset..offset + length) {
        Some(part) => Answer::new(number, part.to_vec()),
        None => Answer {
            complaint: "the part stands outside the file".to_string(),
            ..Answer::new(number, vec![])
        },
    }
}

/// Into a buffer of so many bytes, all of which are in the answer.
pub fn write_file(record: &[u8], block: &[u8], buffer_len: usize) -> Answer {
    let mut buffer = Guarded::new(&before_writing(buffer_len));
    let (mut state, mut labels) = (Guarded::new(record), Guarded::new(block));
    let [record_at, block_at, file] = [&mut state, &mut labels, &mut buffer].map(Guarded::pointer);
    let (record_len, block_len) = (record.len(), block.len());
    // SAFETY: so many bytes may be read in the first two, and read and written in the third; they are three.
    let number = unsafe { sys::panelrights_write_file(record_at, record_len, block_at, block_len, file, buffer_len) };
    let mut answer = buffer.answer(number);
    complain_of_change(&mut answer, &state, record);
    complain_of_change(&mut answer, &labels, block);
    answer
}

pub fn lowest_mark(marks: u8) -> u8 {
    // SAFETY: any byte will do.
    unsafe { sys::panelrights_lowest_mark(marks) }
}

/// A buffer that is only to be read must hold what it held.
fn complain_of_change(answer: &mut Answer, lent: &Guarded, before: &[u8]) {
    if lent.content() != before || !lent.guards_stand() {
        answer.complaint = "a byte that is only to be read, or one beside it, was changed".to_string();
    }
}
