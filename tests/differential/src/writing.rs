//! Site files that are written: of right label blocks and damaged ones, into buffers of each kind of length, and where
//! more than one thing is wrong. Each file that was written is read again.

use crate::answer::Answer;
use crate::block_damage::{partial_entry, BLOCK_DAMAGES, OF_ENTRIES};
use crate::case::Case;
use crate::draft::{random_labels, random_text, Draft, LABELS};
use crate::expected::WRITE_REFUSED;
use crate::files::largest;
use crate::library;
use crate::seen::Seen;
use crate::shards::Plan;
use crate::site::{Site, OTHER_LENGTHS};
use crate::states::{list_all, sound_state, Shape};
use crate::table_damage::TableDamage;
use crate::unsound::{one_step_too_far, spoilt};
use chance::Chance;
use panelrights::sys::FILE_MOST;
use reference::{BadBlock, Labels, State, MOST_FILE_BYTES, RECORD_BYTES};

/// For each shape, how many states a shard has. Dense ones are dear in the reference.
const STATES: [(Shape, usize); 6] = [
    (Shape::Sparse, 200),
    (Shape::Medium, 60),
    (Shape::Chain, 80),
    (Shape::Ring, 80),
    (Shape::BothWays, 20),
    (Shape::Dense, 4),
];

/// One state in so many has every number listed.
const FULL_LISTS: usize = 5;

/// What a writing is answered with: 0 for a file, and the refusals in the order of their checks.
const ANSWERS: [u32; 4] = [0, 12, 30, 31];

/// The answers where the record is wrong (1), the block (2), the buffer (4).
const BY_FAULTS: [u32; 8] = [0, 12, 30, 12, 31, 12, 30, 12];

/// The ways in which a label block is bad, in the order of the papers.
const WAYS: [BadBlock; 7] = [
    BadBlock::Partial,
    BadBlock::Area,
    BadBlock::Length,
    BadBlock::Text,
    BadBlock::Filler,
    BadBlock::Order,
    BadBlock::Unlisted,
];

/// The length of a buffer.
#[derive(Clone, Copy, Debug)]
enum Buffer {
    OneLess,
    Exact,
    OneMore,
    Empty,
    Any,
    Most,
    AboveMost,
}

const BUFFERS: [Buffer; 7] = [
    Buffer::OneLess,
    Buffer::Exact,
    Buffer::OneMore,
    Buffer::Empty,
    Buffer::Any,
    Buffer::Most,
    Buffer::AboveMost,
];

impl Buffer {
    /// For a file of this length.
    fn len(self, file_len: usize, chance: &mut Chance) -> usize {
        match self {
            Buffer::OneLess => file_len - 1,
            Buffer::Exact => file_len,
            Buffer::OneMore => file_len + 1,
            Buffer::Empty => 0,
            Buffer::Any => chance.below(2 * file_len),
            Buffer::Most => MOST_FILE_BYTES,
            Buffer::AboveMost => MOST_FILE_BYTES + 1 + chance.below(1000),
        }
    }
}

pub fn run(plan: &Plan) -> (String, Seen) {
    let small: Vec<State> = reference::small_states().into_iter().collect();
    let mut seen = plan.run("writing", |shard, chance, seen| {
        for state in small.iter().skip(shard).step_by(plan.shards()) {
            small_state(state, chance, seen);
        }
        for (shape, states) in STATES {
            for round in 0..states {
                let mut state = sound_state(shape, chance);
                if round % FULL_LISTS == 1 {
                    list_all(&mut state, chance);
                }
                one_state(&Written::new(state, chance), chance, seen);
            }
        }
        let (state, labels) = largest(chance);
        about_the_largest(&Written::with_labels(state, labels), seen);
    });
    require(&mut seen);
    (line(&seen), seen)
}

fn require(seen: &mut Seen) {
    seen.demand(seen.total("writing") >= 50_000, "50000 writings are the least");
    seen.require("writing", [0], 10_000);
    seen.require("writing", [12, 30, 31], 5000);
    let read_back = seen.times("written, and read back", 0);
    seen.demand(
        read_back == seen.times("writing", 0),
        "every file that was written is read back",
    );
    seen.require(
        "buffer that is too short",
        [Buffer::OneLess, Buffer::Empty].map(|buffer| buffer as u32),
        1000,
    );
    let enough = [Buffer::Exact, Buffer::OneMore, Buffer::Most, Buffer::AboveMost];
    seen.require("buffer that is long enough", enough.map(|buffer| buffer as u32), 1000);
    for word in ["buffer that is too short", "buffer that is long enough"] {
        seen.require(word, [Buffer::Any as u32], 500);
    }
    seen.require("damaged block, 30", damages(), 500);
    seen.require("block with one thing wrong", ways(), 500);
    seen.require("blocks of entries", [0, 1, 2, 32], 200);
    seen.require("faults", 0..8, 1000);
    seen.require("12 for a state", [0, 1], 1000);
    seen.require("bytes of another length, 12", other_lengths(), 100);
    seen.require("unsound by an entry at 9 steps, 12", [0], 200);
    seen.require("largest, answer", [0, 31], 8);
    seen.demand(
        FILE_MOST == MOST_FILE_BYTES,
        "the most bytes of a file are those that the package has",
    );
}

/// The numbers of the damages.
fn damages() -> std::ops::Range<u32> {
    0..BLOCK_DAMAGES.len() as u32
}

fn ways() -> impl Iterator<Item = u32> {
    WAYS.into_iter().map(|way| way as u32)
}

fn other_lengths() -> impl Iterator<Item = u32> {
    OTHER_LENGTHS.into_iter().map(|length| length as u32)
}

fn line(seen: &Seen) -> String {
    let buffers = || BUFFERS.into_iter().map(|buffer| buffer as u32);
    format!(
        "{} writings, answers 0, 12, 30, 31: {:?}; read back: {}; blocks of 0, 1, 2, 32 entries: {:?}; \
         buffers 1 byte too short, of the length, 1 more, of none, any, the most, more: written {:?}, refused {:?}; \
         30 by each damage: {:?}; with nothing wrong but a partial entry, an area, a length, a text byte, a filler \
         byte, the order, an unlisted area: {:?}; with nothing, record, block, both, buffer, record and buffer, block \
         and buffer, all wrong: {:?}; 12 for bytes that are no record, for unsound states: {:?}, with nothing else \
         wrong, for {OTHER_LENGTHS:?} bytes: {:?}, for an entry at 9 steps: {}; \
         of {MOST_FILE_BYTES} bytes: {}",
        seen.total("writing"),
        seen.each("writing", ANSWERS),
        seen.times("written, and read back", 0),
        seen.each("blocks of entries", [0, 1, 2, 32]),
        seen.each("buffer that is long enough", buffers()),
        seen.each("buffer that is too short", buffers()),
        seen.each("damaged block, 30", damages()),
        seen.each("block with one thing wrong", ways()),
        seen.each("faults", 0..8),
        seen.each("12 for a state", [0, 1]),
        seen.each("bytes of another length, 12", other_lengths()),
        seen.times("unsound by an entry at 9 steps, 12", 0),
        seen.times("largest, answer", 0),
    )
}

/// A sound state and its labels, and what is made of them.
struct Written {
    state: State,
    site: Site,
    draft: Draft,
    block: Vec<u8>,
    file_len: usize,
}

impl Written {
    /// With labels for some areas.
    fn new(state: State, chance: &mut Chance) -> Written {
        let labels = random_labels(&state, chance);
        Written::with_labels(state, labels)
    }

    fn with_labels(state: State, labels: Labels) -> Written {
        let draft = Draft::new(&state, &labels);
        Written {
            site: Site::of_state(&state),
            block: draft.tables[LABELS].concat(),
            file_len: draft.bytes().len(),
            draft,
            state,
        }
    }

    /// The block with these damages, one after the other.
    fn damaged(&self, damages: &[TableDamage], chance: &mut Chance) -> Vec<u8> {
        let mut draft = self.draft.clone();
        damages.iter().for_each(|damage| damage(&mut draft, chance));
        draft.tables[LABELS].concat()
    }

    /// A block that is bad for this state.
    fn bad_block(&self, chance: &mut Chance) -> Vec<u8> {
        let block = self.damaged(&[chance.pick(&BLOCK_DAMAGES)], chance);
        match reference::bad_block(&self.state, &block)[..] {
            [] => self.damaged(&[partial_entry], chance),
            _ => block,
        }
    }
}

/// One writing on both sides: 0 or the refusal, if both give the same. What was written is read back.
fn put(site: &Site, block: &[u8], buffer_len: usize, seen: &mut Seen) -> Option<u32> {
    let answer = seen.compare(&Case::write(site, block, buffer_len))?;
    if answer.number >= WRITE_REFUSED {
        let refusal = answer.number - WRITE_REFUSED;
        seen.count("writing", refusal);
        if refusal == 12 {
            seen.count("12 for a state", site.state.is_some().into());
        }
        return Some(refusal);
    }
    seen.count("writing", 0);
    seen.count("blocks of entries", block.len() as u32 / 32);
    let file = &answer.bytes[..answer.number as usize];
    read_back(site, block, file, seen)?;
    seen.count("written, and read back", 0);
    Some(0)
}

/// The library reads the same record and the same block.
fn read_back(site: &Site, block: &[u8], file: &[u8], seen: &mut Seen) -> Option<()> {
    let record = Answer::new(0_u32, site.record.clone());
    seen.compare_answers(
        &Case::read(file, RECORD_BYTES),
        library::read_file(file, RECORD_BYTES),
        record,
    )?;
    let place = (file.len() - block.len()) * 65536 + block.len();
    let labels = Answer::new(place as u32, block.to_vec());
    seen.compare_answers(&Case::labels(file), library::labels(file), labels)?;
    Some(())
}

/// Without labels, and with one for each area.
fn small_state(state: &State, chance: &mut Chance, seen: &mut Seen) {
    let texts = state.areas.iter().map(|&area| (area, random_text(chance)));
    let labels: Labels = texts.collect();
    for labels in [Labels::new(), labels] {
        let written = Written::with_labels(state.clone(), labels);
        put(&written.site, &written.block, written.file_len, seen);
    }
}

fn one_state(written: &Written, chance: &mut Chance, seen: &mut Seen) {
    each_buffer(written, chance, seen);
    each_damage(written, chance, seen);
    each_fault(written, chance, seen);
    each_length(written, chance, seen);
    too_far(written, chance, seen);
}

/// The right block.
fn each_buffer(written: &Written, chance: &mut Chance, seen: &mut Seen) {
    for buffer in BUFFERS {
        let buffer_len = buffer.len(written.file_len, chance);
        match put(&written.site, &written.block, buffer_len, seen) {
            Some(0) => seen.count("buffer that is long enough", buffer as u32),
            Some(31) => seen.count("buffer that is too short", buffer as u32),
            _ => {}
        }
    }
}

/// Each damage, and two at once. Some blocks stay right, and the buffer is long enough.
fn each_damage(written: &Written, chance: &mut Chance, seen: &mut Seen) {
    for (number, damage) in BLOCK_DAMAGES.into_iter().enumerate() {
        let block = written.damaged(&[damage], chance);
        if put(&written.site, &block, written.file_len + block.len(), seen) == Some(30) {
            seen.count("damaged block, 30", number as u32);
            if let [way] = reference::bad_block(&written.state, &block)[..] {
                seen.count("block with one thing wrong", way as u32);
            }
        }
    }
    let two = [chance.pick(OF_ENTRIES), chance.pick(&BLOCK_DAMAGES)];
    let block = written.damaged(&two, chance);
    put(&written.site, &block, written.file_len + block.len(), seen);
}

/// The record, the block and the buffer wrong or not, in every combination: "Refusals are 12, then 30 ..., then 31". No
/// file is shorter than 30 bytes.
fn each_fault(written: &Written, chance: &mut Chance, seen: &mut Seen) {
    for (faults, expected) in BY_FAULTS.into_iter().enumerate() {
        let [record, block, buffer] = [1, 2, 4].map(|fault| faults & fault != 0);
        let spoilt = record.then(|| spoilt(&written.state, chance));
        let bad = block.then(|| written.bad_block(chance));
        let shortest = if block { 30 } else { written.file_len };
        let buffer_len = if buffer {
            chance.below(shortest)
        } else {
            MOST_FILE_BYTES
        };
        let (site, block) = (spoilt.as_ref(), bad.as_deref());
        let answer = put(
            site.unwrap_or(&written.site),
            block.unwrap_or(&written.block),
            buffer_len,
            seen,
        );
        if let Some(answer) = answer {
            seen.demand(answer == expected, "12, then 30, then 31");
            seen.count("faults", faults as u32);
        }
    }
}

/// Bytes of one of the other lengths as the record, with all else right.
fn each_length(written: &Written, chance: &mut Chance, seen: &mut Seen) {
    let length = chance.pick(&OTHER_LENGTHS);
    let record = written.site.record.iter().copied().cycle().take(length).collect();
    let site = Site::of_bytes(record);
    if put(&site, &written.block, written.file_len, seen) == Some(12) {
        seen.count("bytes of another length, 12", length as u32);
    }
}

/// With an import or export at 9 steps, if there is room for one.
fn too_far(written: &Written, chance: &mut Chance, seen: &mut Seen) -> Option<()> {
    if written.state.objects.is_empty() {
        return None;
    }
    let site = Site::of_state(&one_step_too_far(&written.state, chance)?);
    if put(&site, &written.block, written.file_len + 2, seen)? == 12 {
        seen.count("unsound by an entry at 9 steps, 12", 0);
    }
    Some(())
}

/// Just room enough, and a byte too little.
fn about_the_largest(largest: &Written, seen: &mut Seen) {
    seen.demand(
        largest.file_len == MOST_FILE_BYTES,
        "the length of the largest file that is written",
    );
    for buffer_len in [MOST_FILE_BYTES, MOST_FILE_BYTES - 1] {
        if let Some(answer) = put(&largest.site, &largest.block, buffer_len, seen) {
            seen.count("largest, answer", answer);
        }
    }
}
