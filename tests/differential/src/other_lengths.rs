//! Bytes of other lengths than a record's, which are no record: 12.

use crate::asked::Asked;
use crate::instructions::instruction_of_anyone;
use crate::seen::Seen;
use crate::shards::Plan;
use crate::site::{Site, OTHER_LENGTHS};
use crate::states::{sound_state, Shape};
use chance::Chance;
use reference::State;

/// How many records of each length a shard has, and how many old records.
const OF_EACH: usize = 20;

/// 12 from a step, a recipe and a question.
const NO_RECORD: [u32; 3] = [12, 12, 268];

pub fn run(plan: &Plan) -> (String, Seen) {
    let mut seen = plan.run("other lengths", |_, chance, seen| {
        for _ in 0..OF_EACH {
            for length in OTHER_LENGTHS {
                let of_length = |state: &State| reference::to_record(state).into_iter().cycle().take(length).collect();
                one_of("record of another length", length, of_length, chance, seen);
            }
            let length = reference::OLD_RECORD_BYTES;
            one_of("old record", length, reference::to_old_record, chance, seen);
        }
    });
    let lengths = || OTHER_LENGTHS.into_iter().map(|length| length as u32);
    seen.require("record of another length", lengths(), 100);
    seen.require("old record", [8320], 100);
    let line = format!(
        "of {OTHER_LENGTHS:?} bytes, each 12: {:?}, and old ones: {}",
        seen.each("record of another length", lengths()),
        seen.total("old record"),
    );
    (line, seen)
}

/// Bytes of this length, made of a sound state; counted if they are 12.
fn one_of(word: &'static str, length: usize, bytes: impl Fn(&State) -> Vec<u8>, chance: &mut Chance, seen: &mut Seen) {
    let state = sound_state(Shape::Sparse, chance);
    let instruction = instruction_of_anyone(&state, chance);
    let site = Site::of_bytes(bytes(&state));
    if Asked::new(&state, instruction, chance).put(&site, seen) == Some(NO_RECORD) {
        seen.count(word, length as u32);
    }
}
