//! Records of random bytes: every byte string of a record's length is one.

use crate::asked::{self, Asked};
use crate::instructions::instruction_of_anyone;
use crate::numbers::some;
use crate::seen::Seen;
use crate::shards::Plan;
use crate::site::Site;
use crate::states::{list_all, sound_state, Shape};
use chance::Chance;
use reference::RECORD_BYTES;

type Kind = fn(&mut Chance) -> Vec<u8>;

/// How many records of each kind a shard has.
const KINDS: [(Kind, usize); 4] = [(any_bytes, 100), (few_bits, 200), (one_row, 600), (many_rows, 150)];

/// How many bytes a row has, and the lists together.
const ROW: usize = 4;
const LISTS: usize = 16;

const UNSOUND: u32 = 12;

pub fn run(plan: &Plan) -> (String, Seen) {
    let mut seen = plan.run("random bytes", |_, chance, seen| {
        for (kind, (make, records)) in (0..).zip(KINDS) {
            (0..records).for_each(|_| one_record(kind, make(chance), chance, seen));
        }
    });
    seen.require("random bytes, unsound", 0..3, 500);
    seen.require("random bytes, sound", 2..4, 500);
    let line = format!(
        "of random bytes, of few bits, sound but for a random row, of random rows: unsound {:?}, sound {:?}; {}",
        seen.each("random bytes, unsound", 0..4),
        seen.each("random bytes, sound", 0..4),
        asked::text(&seen),
    );
    (line, seen)
}

fn one_record(kind: u32, record: Vec<u8>, chance: &mut Chance, seen: &mut Seen) {
    let site = Site::of_bytes(record);
    let again = site.state.as_ref().map(reference::to_record);
    seen.demand(
        again.as_ref() == Some(&site.record),
        "any bytes of a record's length are the record of one state",
    );
    let Some(state) = &site.state else { return };
    let mut asked = Asked::new(state, instruction_of_anyone(state, chance), chance);
    let lent: Vec<u8> = state.exports.iter().map(|pair| pair.0).collect();
    asked.aim_question([None, some(&lent, chance)]);
    match asked.put(&site, seen) {
        Some([UNSOUND, ..]) => seen.count("random bytes, unsound", kind),
        Some(_) => seen.count("random bytes, sound", kind),
        None => {}
    }
}

fn bytes(count: usize, chance: &mut Chance) -> Vec<u8> {
    (0..count).map(|_| chance.byte()).collect()
}

fn any_bytes(chance: &mut Chance) -> Vec<u8> {
    bytes(RECORD_BYTES, chance)
}

fn few_bits(chance: &mut Chance) -> Vec<u8> {
    let one_byte_in = chance.pick(&[4, 32, 256]);
    let byte = |_| match chance.once_in(one_byte_in) {
        true => 1 << chance.below(8),
        false => 0,
    };
    (0..RECORD_BYTES).map(byte).collect()
}

/// A sound record with any bytes in one row. Mostly all numbers are listed, so that it can be sound again.
fn one_row(chance: &mut Chance) -> Vec<u8> {
    let mut state = sound_state(Shape::Sparse, chance);
    if !chance.once_in(4) {
        list_all(&mut state, chance);
    }
    let mut record = reference::to_record(&state);
    let start = ROW * chance.below(RECORD_BYTES / ROW);
    record[start..start + ROW].copy_from_slice(&bytes(ROW, chance));
    record
}

/// All numbers are listed, owners and structure are any bytes, and each object is defined in one area. Some are
/// exported there, and imported by any areas that this one lies in. So it is sound.
fn many_rows(chance: &mut Chance) -> Vec<u8> {
    let (owners, structure) = (bytes(32 * ROW, chance), bytes(32 * ROW, chance));
    let [mut definitions, mut imports, mut exports] = [(); 3].map(|_| vec![0; 64 * ROW]);
    for start in (0..64 * ROW).step_by(ROW) {
        let area = chance.below(32);
        let byte = start + area / 8;
        definitions[byte] = 1 << (area % 8);
        if chance.once_in(8) {
            exports[byte] = definitions[byte];
            for place in 0..ROW {
                imports[start + place] = structure[ROW * area + place] & chance.byte();
            }
            imports[byte] &= !definitions[byte];
        }
    }
    [vec![255; LISTS], owners, definitions, structure, imports, exports].concat()
}
