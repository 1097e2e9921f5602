//! "A label entry has 32 bytes: area, length 1 to 30, the text (bytes 32 to 126), then zeros."
//!
//! The entries stand in the last table of a site file, or in the block that the writer is given. What 26, 27 and 28 say
//! of labels is said here, of either.

use crate::state::State;
use std::collections::{BTreeMap, BTreeSet};

/// The text of each area that has a label.
pub type Labels = BTreeMap<u8, Vec<u8>>;

/// "A label entry has 32 bytes".
pub(crate) const LABEL_BYTES: usize = 32;

/// The entries in their order; bytes behind the last whole one are not looked at.
fn entries(bytes: &[u8]) -> impl Iterator<Item = &[u8]> {
    bytes.chunks_exact(LABEL_BYTES)
}

/// The text and the filler of each entry whose length has its range; of another it is not said which bytes are text.
fn texts_and_fillers(bytes: &[u8]) -> impl Iterator<Item = (&[u8], &[u8])> {
    let with_length = entries(bytes).filter(|entry| (1..=30).contains(&entry[1]));
    with_length.map(|entry| entry[2..].split_at(usize::from(entry[1])))
}

/// 26: "a number ... outside its range", the area of a label: "Users and areas are numbered 0 to 31".
pub(crate) fn an_area_is_out_of_range(bytes: &[u8]) -> bool {
    entries(bytes).any(|entry| entry[0] >= State::AREAS)
}

/// 26: "length ... outside its range": "length 1 to 30".
pub(crate) fn a_length_is_out_of_range(bytes: &[u8]) -> bool {
    entries(bytes).any(|entry| !(1..=30).contains(&entry[1]))
}

/// 26: "text byte ... outside its range": "the text (bytes 32 to 126)".
pub(crate) fn a_text_byte_is_out_of_range(bytes: &[u8]) -> bool {
    texts_and_fillers(bytes).any(|(text, _)| text.iter().any(|byte| !(32..=126).contains(byte)))
}

/// 26: "filler byte outside its range": "then zeros".
pub(crate) fn a_filler_byte_is_not_0(bytes: &[u8]) -> bool {
    texts_and_fillers(bytes).any(|(_, filler)| filler.iter().any(|&byte| byte != 0))
}

/// 26, all that it says of labels: "a number, length, text byte or filler byte outside its range"
pub(crate) fn labels_are_out_of_range(bytes: &[u8]) -> bool {
    an_area_is_out_of_range(bytes) || a_length_is_out_of_range(bytes) || a_text_byte_is_out_of_range(bytes) || a_filler_byte_is_not_0(bytes)
}

/// 27: "a table not strictly ascending by first byte, then second (labels by area)"
pub(crate) fn labels_do_not_ascend(bytes: &[u8]) -> bool {
    !entries(bytes).is_sorted_by(|one, next| one[0] < next[0])
}

/// 28: "an unlisted area ... named". A byte above 31 names no area; it is 26.
pub(crate) fn a_labelled_area_is_unlisted(bytes: &[u8], areas: &BTreeSet<u8>) -> bool {
    entries(bytes).any(|entry| entry[0] < State::AREAS && !areas.contains(&entry[0]))
}

/// The labels of entries of which no condition holds.
pub(crate) fn labels_of(bytes: &[u8]) -> Labels {
    let label = |entry: &[u8]| (entry[0], entry[2..2 + usize::from(entry[1])].to_vec());
    entries(bytes).map(label).collect()
}

/// "A label entry has 32 bytes: area, length 1 to 30, the text (bytes 32 to 126), then zeros."
pub(crate) fn label_entry(area: u8, text: &[u8]) -> Vec<u8> {
    let mut entry = vec![area, text.len() as u8];
    entry.extend(text);
    entry.resize(LABEL_BYTES, 0);
    entry
}
