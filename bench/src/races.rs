//! What is timed: the step, the recipe, the access question, the explanations, the reader, the writer and the lowest
//! mark, over the C interface and beside the two baselines.
//!
//! In the time is what a caller pays. The library gets the bytes of a record by pointer and length; the baselines get a
//! state of their own. Nobody keeps anything between calls.

use crate::area_lists::AreaList;
use crate::explanation::{lost, COUNTS, EXPORT, IMPORT, ROOM};
use crate::openings::{imports, misformed, refused_last, two_schools};
use crate::recipe::{refused, Call};
use crate::record::{Record, RECORD_BYTES};
use crate::rows::Rows;
use crate::rules::{Bytes, AREAS, MOST_STEPS};
use crate::site_file::FILE_MOST;
use crate::states::{farthest, last_cut, unreached, States};
use crate::timing::Race;
use crate::{
    agree, agree_explanations, area_lists, files, ideal, ideal_explanation, ideal_reader, ideal_writer, library, plain,
    plain_explanation, plain_reader, plain_writer, random,
};
use chance::Chance;
use std::hint::black_box;
use std::rc::Rc;

pub fn all(s: &States) -> Vec<Race<'_>> {
    let races = steps(s).into_iter().chain(recipes(s));
    races
        .chain(questions(s))
        .chain(explanations(s))
        .chain(reasons(s))
        .chain(readings(s))
        .chain(writings(s))
        .chain(area_lists())
        .collect()
}

/// An instruction with this code that the state accepts.
fn acceptable(s: &Record, code: u8) -> Bytes {
    let mut chance = Chance::new(3);
    loop {
        let bytes = random::instruction(&mut chance, s, random::WHOLE);
        if bytes[0] == code && plain::step(s, bytes).is_ok() {
            return bytes;
        }
    }
}

/// A turn makes the next state of one that stays as it was. Library and ideal write in place, so they get a copy of the
/// state for each call, 1,040 bytes, and its time counts; plain makes its copy itself. In the chain object 62 goes from
/// area 7 to area 15: removed is its last export, on which nothing rests, and added is one at 8 steps. The own import
/// is refused.
fn steps(s: &States) -> [Race<'_>; 9] {
    let cases: [(&str, &Record, Bytes, u8); 9] = [
        ("dense, remove", &s.dense, [12, 0, 30, 63], 0),
        ("dense, add", &s.dense, [9, 0, 30, 63], 0),
        ("dense, own import", &s.dense, [9, 0, 31, 63], 15),
        ("chain, remove", &s.chain, [12, 0, 14, 62], 0),
        ("chain, add", &s.chain, [11, 0, 15, 62], 0),
        ("random, remove", &s.random, acceptable(&s.random, 12), 0),
        ("random, add", &s.random, acceptable(&s.random, 9), 0),
        ("small, remove", &s.small, [10, 0, 0, 9], 0),
        ("small, add", &s.small, [11, 0, 2, 9], 0),
    ];
    cases.map(|(name, s, bytes, expected)| {
        assert_eq!(agree::step(s, bytes).0, expected, "{name}: another answer");
        let (record, rows) = (s.bytes(), Rows::of(s));
        let mut state = record;
        let by_library = move || {
            state.copy_from_slice(black_box(&record));
            library::step(&mut state, black_box(bytes))
        };
        let by_plain = move || plain::step(black_box(s), black_box(bytes));
        let by_ideal = move || {
            let mut state = *black_box(&rows);
            let refusal = ideal::step(&mut state, black_box(bytes));
            black_box(&state);
            refusal
        };
        Race::new(format!("step {name}"), by_library, by_plain, by_ideal).limited()
    })
}

/// Beside each recipe goes its first instruction alone, as a step of the library.
fn recipes(s: &States) -> [Race<'_>; 7] {
    let [dense, chain, random] = [&s.spare.dense, &s.spare.chain, &s.spare.random];
    let cases: [(&str, &Record, Call, u16); 7] = [
        ("dense, 16 adds", dense, two_schools(dense), 0),
        ("chain, 16 adds", chain, two_schools(chain), 0),
        ("random, 16 adds", random, two_schools(random), 0),
        ("small, 16 adds", &s.small, two_schools(&s.small), 0),
        ("stock, 16 imports", &s.stock, imports(), 0),
        ("chain, refused at 16", chain, refused_last(chain), refused(16, 6)),
        ("chain, refused as 14", chain, misformed(chain), 14),
    ];
    cases.map(|(name, s, call, expected)| recipe_race(name, s, call, expected))
}

/// Copies of the state as for a step.
fn recipe_race<'a>(name: &str, s: &'a Record, call: Call, expected: u16) -> Race<'a> {
    assert_eq!(agree::recipe(s, &call).0, expected, "{name}: another answer");
    let first = call.first();
    assert_eq!(agree::step(s, first).0, 0, "{name}: the first instruction is refused");
    let (record, rows) = (s.bytes(), Rows::of(s));
    let (mut state, mut state_of_one) = (record, record);
    let call = Rc::new(call);
    let [for_plain, for_ideal, for_once] = [call.clone(), call.clone(), call.clone()];
    let by_library = move || {
        state.copy_from_slice(black_box(&record));
        library::recipe(&mut state, black_box(&call))
    };
    let by_plain = move || plain::recipe(black_box(s), black_box(&for_plain));
    let asking_once = move || plain::recipe_asking_once(black_box(s), black_box(&for_once));
    let by_ideal = move || {
        let mut state = *black_box(&rows);
        let answer = ideal::recipe(&mut state, black_box(&for_ideal));
        black_box(&state);
        answer
    };
    let one_add = move || {
        state_of_one.copy_from_slice(black_box(&record));
        library::step(&mut state_of_one, black_box(first))
    };
    Race::new(format!("recipe {name}"), by_library, by_plain, by_ideal)
        .beside("one add", one_add)
        .beside("plain asking once", asking_once)
}

/// The access question asks first whether the state is sound, as document 01 has it: that is in the time, of all three.
fn questions(s: &States) -> [Race<'_>; 5] {
    let cases = [
        ("chain outward", &s.chain, (15, 62, 8)),
        ("chain inward", &s.chain, (16, 63, 8)),
        ("dense", &s.dense, (31, 9, 1)),
        ("random", &s.random, farthest(&s.random, MOST_STEPS)),
        ("small", &s.small, (0, 9, 2)),
    ];
    cases.map(|(name, s, (area, object, expected))| {
        assert_eq!(agree::access(s, area, object), expected, "{name}: another answer");
        let (record, rows) = (s.bytes(), Rows::of(s));
        let by_library = move || library::access(black_box(&record), black_box(area), black_box(object));
        let by_plain = move || plain::access(black_box(s), black_box(area), black_box(object));
        let by_ideal = move || ideal::access(black_box(&rows), black_box(area), black_box(object));
        Race::new(format!("access {name}"), by_library, by_plain, by_ideal).limited()
    })
}

/// The chain is written, or the counts where the area lacks access, into one buffer that is not cleared between calls.
fn explanations(s: &States) -> [Race<'_>; 8] {
    let (area, object, steps) = farthest(&s.random, MOST_STEPS);
    let counts = COUNTS + AREAS as u16;
    let cases = [
        ("chain outward", &s.chain, (15, 62, 9)),
        ("chain inward", &s.chain, (16, 63, 9)),
        ("dense", &s.dense, (31, 9, 2)),
        ("random", &s.random, (area, object, steps + 1)),
        ("small", &s.small, (0, 9, 3)),
        ("chain, no access", &s.chain, (31, 62, counts)),
        (
            "random, no access",
            &s.random,
            (unreached(&s.random, object), object, counts),
        ),
        ("small, no access", &s.unlent, (0, 9, counts)),
    ];
    cases.map(|(name, s, (area, object, expected))| {
        let answer = agree_explanations::explain(s, area, object, ROOM).0;
        assert_eq!(answer, expected, "{name}: another answer");
        let (record, rows) = (s.bytes(), Rows::of(s));
        let [mut for_library, mut for_plain, mut for_ideal] = [[0; ROOM]; 3];
        let by_library =
            move || library::explain(black_box(&record), black_box(area), black_box(object), &mut for_library);
        let by_plain =
            move || plain_explanation::explain(black_box(s), black_box(area), black_box(object), &mut for_plain);
        let by_ideal =
            move || ideal_explanation::explain(black_box(&rows), black_box(area), black_box(object), &mut for_ideal);
        Race::new(format!("explain {name}"), by_library, by_plain, by_ideal).limited()
    })
}

/// Removals that are refused as 11, and two instructions that are not. No state is copied: ideal changes its own and
/// changes it back.
fn reasons(s: &States) -> [Race<'_>; 9] {
    let (cut, named) = last_cut(&s.random);
    let cases: [(&str, &Record, Bytes, u32); 9] = [
        ("dense, definition", &s.dense, [8, 0, 31, 63], lost(IMPORT, 63, 0)),
        ("chain, cut", &s.chain, [6, 0, 30, 31], lost(IMPORT, 1, 23)),
        ("chain, last cut", &s.chain, [6, 0, 0, 1], lost(IMPORT, 47, 0)),
        ("chain, import", &s.chain, [10, 0, 23, 63], lost(IMPORT, 63, 16)),
        ("chain, export", &s.chain, [12, 0, 7, 62], lost(EXPORT, 62, 8)),
        ("random, cut", &s.random, cut, named),
        ("small", &s.small, [12, 0, 1, 9], lost(IMPORT, 9, 0)),
        ("chain, accepted", &s.chain, [12, 0, 14, 62], 0),
        ("chain, not there", &s.chain, [12, 0, 15, 62], 7),
    ];
    cases.map(|(name, s, bytes, expected)| {
        let answer = agree_explanations::explain_step(s, bytes);
        assert_eq!(answer, expected, "{name}: another answer");
        let (record, mut rows) = (s.bytes(), Rows::of(s));
        let by_library = move || library::explain_step(black_box(&record), black_box(bytes));
        let by_plain = move || plain_explanation::explain_step(black_box(s), black_box(bytes));
        let by_ideal = move || ideal_explanation::explain_step(black_box(&mut rows), black_box(bytes));
        Race::new(format!("explain step {name}"), by_library, by_plain, by_ideal).limited()
    })
}

/// From the bytes of a file to a state. The library writes into one buffer, which is not cleared between calls.
fn readings(s: &States) -> [Race<'_>; 3] {
    let cases = [("largest", &s.largest), ("chain", &s.chain), ("small", &s.small)];
    cases.map(|(name, s)| {
        let file: Rc<[u8]> = files::file(s).into();
        assert_eq!(agree::read(&file), 0, "{name}: the file is refused");
        let name = format!("read {name} ({} bytes)", file.len());
        let mut state = [0; RECORD_BYTES];
        let (for_plain, for_ideal) = (file.clone(), file.clone());
        let by_library = move || library::read(black_box(&file), &mut state);
        let by_plain = move || plain_reader::read(black_box(&for_plain));
        let by_ideal = move || ideal_reader::read(black_box(&for_ideal));
        Race::new(name, by_library, by_plain, by_ideal).limited()
    })
}

/// From a state and its labels to the bytes of a file, in one buffer that is not cleared between calls.
fn writings(s: &States) -> [Race<'_>; 3] {
    let cases = [("largest", &s.largest), ("chain", &s.chain), ("small", &s.small)];
    cases.map(|(name, s)| {
        let labels: Rc<[u8]> = files::labels(&s.areas).into();
        let length = agree::write(s, &labels, FILE_MOST);
        assert_eq!(length, Ok(files::file(s).len()), "{name}: another length");
        let name = format!("write {name} ({} bytes)", files::file(s).len());
        let (record, rows) = (s.bytes(), Rows::of(s));
        let [mut for_library, mut for_plain, mut for_ideal] = [[0; FILE_MOST]; 3];
        let [plain_labels, ideal_labels] = [labels.clone(), labels.clone()];
        let by_library = move || library::write(black_box(&record), black_box(&labels), &mut for_library);
        let by_plain = move || plain_writer::write(black_box(s), black_box(&plain_labels), &mut for_plain);
        let by_ideal = move || ideal_writer::write(black_box(&rows), black_box(&ideal_labels), &mut for_ideal);
        Race::new(name, by_library, by_plain, by_ideal).limited()
    })
}

/// Lists of areas are gone through: few, whose marks the branch predictor learns, and so many that it can't.
fn area_lists() -> [Race<'static>; 2] {
    [128, 16_384].map(|count| {
        let lists: Rc<[AreaList]> = area_lists::random(count).into();
        let (for_plain, for_ideal) = (lists.clone(), lists.clone());
        let by_library = move || area_lists::sum(black_box(&lists), library::lowest_mark);
        let by_plain = move || area_lists::sum(black_box(&for_plain), plain::lowest_mark);
        let by_ideal = move || area_lists::sum(black_box(&for_ideal), ideal::lowest_mark);
        Race::new(format!("area lists ({count})"), by_library, by_plain, by_ideal)
    })
}
