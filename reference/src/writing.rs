//! Document 02, point 3: "Writing the site file."
//!
//! The block may be any bytes. Each condition on it is decided by itself, and it is read as labels only where none
//! holds.
//! From state and labels the whole file is made apart from the buffer, and copied there if it fits.

use crate::labels::{a_filler_byte_is_not_0, a_labelled_area_is_unlisted, a_length_is_out_of_range, a_text_byte_is_out_of_range};
use crate::labels::{an_area_is_out_of_range, labels_do_not_ascend, labels_of, LABEL_BYTES};
use crate::record::from_record;
use crate::site_file::write_file;
use crate::state::State;

/// The ways in which a label block is 30.
#[derive(Clone, Copy, Debug, PartialEq, Eq, PartialOrd, Ord)]
pub enum BadBlock {
    /// Document 02, point 3: "a label block that has a partial entry".
    Partial,
    /// 26, the area of an entry: "a number ... outside its range".
    Area,
    /// 26, the length of an entry: "length 1 to 30".
    Length,
    /// 26, a text byte: "the text (bytes 32 to 126)".
    Text,
    /// 26, a filler byte: "then zeros".
    Filler,
    /// 27: "not strictly ascending ... (labels by area)".
    Order,
    /// 28: "an unlisted area ... named".
    Unlisted,
}

/// Document 02, point 3: "a label block that has a partial entry or breaks the label conditions of 26, 27 or 28"
///
/// All ways that apply, each once and in the order of [`BadBlock`]; none for a good block. A partial entry is `Partial`
/// and nothing else. Which bytes of an entry are text is asked only where its length has its range, and whether its area
/// is listed only where that is a number of an area; so each way can apply alone.
pub fn bad_block(state: &State, block: &[u8]) -> Vec<BadBlock> {
    let ways = [
        (BadBlock::Partial, has_a_partial_entry(block)),
        (BadBlock::Area, an_area_is_out_of_range(block)),
        (BadBlock::Length, a_length_is_out_of_range(block)),
        (BadBlock::Text, a_text_byte_is_out_of_range(block)),
        (BadBlock::Filler, a_filler_byte_is_not_0(block)),
        (BadBlock::Order, labels_do_not_ascend(block)),
        (BadBlock::Unlisted, a_labelled_area_is_unlisted(block, &state.areas)),
    ];
    ways.into_iter().filter(|&(_, applies)| applies).map(|(way, _)| way).collect()
}

/// Document 02, point 3: "a partial entry" of "a block of 32-byte label entries".
fn has_a_partial_entry(block: &[u8]) -> bool {
    !block.len().is_multiple_of(LABEL_BYTES)
}

/// A condition on the state, the block and the length of the buffer; it is asked only where none in front of it holds.
type Condition = fn(&State, &[u8], usize) -> bool;

/// Document 02, point 3: "Refusals are 12, then 30 ..., then 31".
const ORDER_OF_CHECKS: [(u8, Condition); 3] = [(12, state_is_unsound), (30, block_is_bad), (31, buffer_is_shorter)];

/// 12: "the state is unsound"
fn state_is_unsound(state: &State, _: &[u8], _: usize) -> bool {
    !state.is_sound()
}

/// 30: document 02, point 3: "a label block that has a partial entry or breaks the label conditions of 26, 27 or 28"
fn block_is_bad(state: &State, block: &[u8], _: usize) -> bool {
    !bad_block(state, block).is_empty()
}

/// 31: document 02, point 3: "a buffer shorter than the file"
fn buffer_is_shorter(state: &State, block: &[u8], buffer_length: usize) -> bool {
    buffer_length < file_of(state, block).len()
}

/// The file of a sound state and a good block.
fn file_of(state: &State, block: &[u8]) -> Vec<u8> {
    write_file(state, &labels_of(block))
}

/// Document 02, point 3: "from a sound state and a block of 32-byte label entries into a lent buffer, with the length as
/// the answer", or the refusal: 12, 30 or 31. "Bytes past the length keep their content, and a refusal changes no byte."
pub fn write(state: &State, block: &[u8], buffer: &mut [u8]) -> Result<usize, u8> {
    let mut checks = ORDER_OF_CHECKS.iter();
    if let Some(&(number, _)) = checks.find(|(_, holds)| holds(state, block, buffer.len())) {
        return Err(number);
    }
    let file = file_of(state, block);
    buffer[..file.len()].copy_from_slice(&file);
    Ok(file.len())
}

/// The same on a record; what is no record of any state is 12: "or is not the record its relations have".
pub fn write_record(record: &[u8], block: &[u8], buffer: &mut [u8]) -> Result<usize, u8> {
    let state = from_record(record).ok_or(12)?;
    write(&state, block, buffer)
}
