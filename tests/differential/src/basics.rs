//! The calls with nothing random in them: the founding state, the length of a record, and every byte of marks.

use crate::case::Case;
use crate::library;
use crate::seen::Seen;
use crate::shards::Plan;
use crate::site::OTHER_LENGTHS;
use reference::RECORD_BYTES;

pub fn run(_: &Plan) -> (String, Seen) {
    let mut seen = Seen::default();
    seen.demand(
        library::state_bytes() == RECORD_BYTES,
        "panelrights_state_bytes() is the length of a record",
    );
    let lengths = (0..=64).chain(OTHER_LENGTHS).chain([RECORD_BYTES]);
    for buffer_len in lengths {
        seen.compare(&Case::Founding { buffer_len });
    }
    for marks in 0..=255 {
        seen.compare(&Case::Mark { marks });
    }
    seen.require("founding", [0], 1);
    seen.require("founding", [31], 50);
    seen.require("mark", 0..=8, 1);
    let line = format!(
        "{} bytes of marks; the founding state for {} lengths",
        seen.total("mark"),
        seen.total("founding")
    );
    (line, seen)
}
