//! Site files that are written, and labels.

mod common;

use common::{after, Draw, THIRTY};
use panelrights::{labels, read_file, sys, BadLabel, Labels, Refusal, State};

const SCHOOL: &[u8] = include_bytes!("../../../examples/school.site");

/// These labels, all of which must be good.
fn labelled(texts: &[(u8, &str)]) -> Labels {
    let mut labels = Labels::new();
    for &(area, text) in texts {
        assert_eq!(labels.set(area, text), Ok(()), "{area} {text:?}");
    }
    labels
}

/// What is written is read as the same state and the same labels; gives the file.
fn comes_back(state: &State, given: &Labels) -> Vec<u8> {
    let file = state.to_file(given).unwrap();
    assert_eq!(read_file(&file).as_ref(), Ok(state));
    assert_eq!(labels(&file).as_ref(), Ok(given));
    file
}

#[test]
fn the_founding_state_by_hand() {
    let file = comes_back(&State::founding(), &Labels::new());
    let by_hand = [1, 0, 30, 0, 1, 0, 0, 0, 0, 0, 0, 0, 0, 0, 0, 0, 28, 0, 30, 0, 30, 0, 30, 0, 30, 0, 30, 0, 0, 0];
    assert_eq!(file, by_hand);

    // A label besides: 62 bytes, a count of 1, and the entry at 30.
    let file = comes_back(&State::founding(), &labelled(&[(0, "~ ")]));
    let mut longer = by_hand.to_vec();
    (longer[2], longer[14]) = (62, 1);
    longer.extend([0, 2, b'~', b' ']);
    longer.resize(62, 0);
    assert_eq!(file, longer);
}

#[test]
fn the_school_comes_again() {
    let (state, names) = (read_file(SCHOOL).unwrap(), labels(SCHOOL).unwrap());
    let expected = [
        (0, "School"),
        (1, "Main house"),
        (2, "Panel 1"),
        (3, "Loop 2"),
        (4, THIRTY),
        (5, "Panel 2"),
        (7, "Head office"),
        (8, "Sports club"),
    ];
    assert!(names.iter().eq(expected), "{names:?}");
    assert_eq!(names, labelled(&expected));
    assert_eq!(comes_back(&state, &names), SCHOOL);
    // The labels are a copy: without them, and with others, the state is the same.
    assert_eq!(comes_back(&state, &Labels::new()).len(), SCHOOL.len() - 8 * sys::LABEL_ENTRY_BYTES);
    comes_back(&state, &labelled(&[(6, "Kitchen")]));
}

/// Every pair that there can be: each area owned by all, each in each, each table exported by all areas and imported by
/// all but the one that defines it.
#[test]
fn the_largest_file() {
    let pairs = |firsts: u8| (0..firsts).flat_map(|first| (0..32).map(move |area| (first, area)));
    let listed = (1..32).map(|area| [1, 0, area, 0]);
    let owners = pairs(32).filter(|&(user, _)| user != 0).map(|(user, area)| [3, 0, area, user]);
    let structure = pairs(32).map(|(inner, outer)| [5, 0, inner, outer]);
    let definitions = (0..64).map(|object| [7, 0, object % 32, object]);
    let exports = pairs(64).filter(|(object, area)| area != &(object % 32)).map(|(object, area)| [11, 0, area, object]);
    let imports = pairs(64).filter(|(object, area)| area != &(object % 32)).map(|(object, area)| [9, 0, area, object]);
    let own_exports = (0..64).map(|object| [11, 0, object % 32, object]);
    let entries = own_exports.chain(exports).chain(imports);
    let state = after(&listed.chain(owners).chain(structure).chain(definitions).chain(entries).collect::<Vec<_>>());
    let names = labelled(&(0..32).map(|area| (area, THIRTY)).collect::<Vec<_>>());
    assert_eq!(comes_back(&state, &names).len(), sys::FILE_MOST);
    assert_eq!(sys::FILE_MOST, 13_340);
}

/// Each area in turn is unlisted while it has a label.
#[test]
fn a_label_of_an_area_that_is_not_listed() {
    let listed = after(&(1..32).map(|area| [1, 0, area, 0]).collect::<Vec<_>>());
    let all = labelled(&(0..32).map(|area| (area, "x")).collect::<Vec<_>>());
    for gone in 0..32 {
        let mut state = listed.clone();
        comes_back(&state, &all);
        assert_eq!(state.step([2, 0, gone, 0]), Ok(()));
        assert_eq!(state.to_file(&all), Err(Refusal::LabelBlock), "{gone}");
        let mut kept = all.clone();
        kept.keep_listed(&state);
        assert!(kept.iter().map(|(area, _)| area).eq((0..32).filter(|&area| area != gone)));
        comes_back(&state, &kept);
    }
    let alone = labelled(&[(31, "x")]);
    assert_eq!(State::founding().to_file(&alone).map_err(Refusal::number), Err(30));
}

/// Walks of about 200 instructions by chance, those that are refused among them, with labels by chance for each state
/// on the way.
#[test]
fn files_by_chance() {
    let mut draw = Draw(1);
    let (mut state, mut written, mut refused) = (State::founding(), 0, 0);
    for _ in 0..40_000 {
        if draw.below(200) == 0 {
            state = State::founding();
        }
        if state.step(draw.instruction()).is_err() {
            continue;
        }
        let mut names = Labels::new();
        for _ in 0..draw.below(4) {
            let text: String = (0..=draw.below(30)).map(|_| char::from(b' ' + draw.below(95))).collect();
            names.set(draw.below(6), &text).unwrap();
        }
        if names.iter().all(|(area, _)| state.is_listed_area(area)) {
            comes_back(&state, &names);
            written += 1;
        } else {
            assert_eq!(state.to_file(&names), Err(Refusal::LabelBlock));
            names.keep_listed(&state);
            comes_back(&state, &names);
            refused += 1;
        }
    }
    assert!(written > 500 && refused > 500, "{written} {refused}");
}

#[test]
fn labels_in_any_order() {
    let mut names = Labels::new();
    assert!(names.is_empty() && names.as_bytes().is_empty() && names == Labels::default());
    for (area, text) in [(31, "last"), (7, "old"), (0, "first"), (7, THIRTY), (8, "x")] {
        assert_eq!(names.set(area, text), Ok(()));
    }
    assert!(names.iter().eq([(0, "first"), (7, THIRTY), (8, "x"), (31, "last")]), "the later one of area 7, ascending");
    assert_eq!(format!("{names:?}"), format!("{{0: \"first\", 7: \"{THIRTY}\", 8: \"x\", 31: \"last\"}}"));
    for area in 0..=255 {
        let expected = names.iter().find(|&(labelled, _)| labelled == area).map(|(_, text)| text);
        assert_eq!(names.get(area), expected, "{area}");
    }
    assert_eq!((names.len(), names.is_empty()), (4, false));
    assert!(names.remove(0) && !names.remove(0) && names.remove(31) && !names.remove(255));
    assert_eq!((names.len(), names.get(0)), (2, None));
    let mut block = [7, 30].to_vec();
    block.extend(THIRTY.bytes());
    block.extend([8, 1, b'x']);
    block.resize(64, 0);
    assert_eq!(names.as_bytes(), block, "a shorter text leaves nothing behind it");
}

#[test]
fn an_entry_that_is_replaced_has_zeros_behind_its_text() {
    let mut names = labelled(&[(3, THIRTY)]);
    names.set(3, "x").unwrap();
    let mut block = [3, 1, b'x'].to_vec();
    block.resize(32, 0);
    assert_eq!(names.as_bytes(), block);
}

/// The label is refused for this reason, and the labels stay.
fn bad(area: u8, text: &str, reason: BadLabel) {
    let mut names = labelled(&[(0, "School"), (5, "Panel 2")]);
    let before = names.clone();
    assert_eq!(names.set(area, text), Err(reason), "{area} {text:?}");
    assert_eq!(names, before);
    let words = reason.to_string();
    assert!(words.ends_with('.') && words.contains(". ") && !words.contains("  ") && !words.contains('\n'), "{words}");
}

#[test]
fn bad_labels() {
    for area in 32..=255 {
        bad(area, "x", BadLabel::Area(area));
    }
    for area in [0, 5, 31] {
        bad(area, "", BadLabel::Empty);
        bad(area, &format!("{THIRTY}x"), BadLabel::TooLong(31));
        bad(area, "Loop 2\n", BadLabel::Character('\n'));
        labelled(&[(area, THIRTY), (area, "x"), (area, " ")]);
    }
    bad(5, &"x".repeat(256 + 7), BadLabel::TooLong(263));
    bad(5, &"x".repeat(65_536), BadLabel::TooLong(65_536));
    // Of several reasons the first, and characters are counted and not bytes.
    bad(32, "", BadLabel::Area(32));
    bad(5, &"\u{e4}".repeat(31), BadLabel::TooLong(31));
    bad(5, &"\u{e4}".repeat(30), BadLabel::Character('\u{e4}'));
    bad(5, "a\tb\n", BadLabel::Character('\t'));
}

/// Each character of the first 1,000, alone, at the front, and as the thirtieth.
#[test]
fn characters() {
    for character in '\0'..='\u{3e8}' {
        for text in [character.to_string(), format!("{character}x"), format!("{}{character}", &THIRTY[..29])] {
            if (' '..='~').contains(&character) {
                assert_eq!(labelled(&[(5, &text)]).get(5), Some(text.as_str()));
            } else {
                bad(5, &text, BadLabel::Character(character));
            }
        }
    }
    bad(5, "\u{1f525}", BadLabel::Character('\u{1f525}'));
}

#[test]
fn words_of_bad_labels() {
    let words = [
        (BadLabel::Area(32), "There is no area 32: areas go from 0 to 31. Check the number that was entered."),
        (BadLabel::Empty, "The label is empty. Enter 1 to 30 characters, or take the area's label away."),
        (BadLabel::TooLong(31), "The label has 31 characters, and no label has more than 30. Enter a shorter one."),
        (
            BadLabel::Character('\n'),
            "The character '\\n' can't stand in a label. Use the letters A to Z and a to z, digits, spaces, and signs \
             such as - or /.",
        ),
    ];
    for (reason, expected) in words {
        assert_eq!(reason.to_string(), expected);
    }
    assert_eq!(Labels::TEXT_MOST, 30);
    assert_eq!((sys::LABEL_ENTRY_BYTES, sys::LABEL_TEXT_MOST, sys::WRITE_REFUSED), (32, 30, 65_536));
}
