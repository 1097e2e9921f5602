//! Numbers and words of the refusals.

use panelrights::{NoRefusal, Refusal};
use std::collections::HashSet;

fn named() -> impl Iterator<Item = u8> {
    (1..=12).chain([14, 15]).chain(21..=31)
}

#[test]
fn each_number_has_one_refusal() {
    for number in 0..=255 {
        let refusal = Refusal::try_from(number);
        if named().any(|listed| listed == number) {
            assert_eq!(refusal.map(Refusal::number), Ok(number));
        } else {
            assert_eq!(refusal, Err(NoRefusal(number)));
        }
    }
    assert_eq!(Refusal::Unknown(200).number(), 200);
}

/// Each name against the number of documents 01 and 02, or of the header for 31.
#[test]
fn each_name_has_its_number() {
    let numbers = [
        (Refusal::UnknownCode, 1),
        (Refusal::OutOfRange, 2),
        (Refusal::ActivatorUnlisted, 3),
        (Refusal::NotListed, 4),
        (Refusal::NotOwner, 5),
        (Refusal::AlreadyThere, 6),
        (Refusal::NotThere, 7),
        (Refusal::LastOne, 8),
        (Refusal::AreaInUse, 9),
        (Refusal::WouldLackAccess, 10),
        (Refusal::WouldLoseAccess, 11),
        (Refusal::UnsoundState, 12),
        (Refusal::RecipeForm, 14),
        (Refusal::OwnImport, 15),
        (Refusal::FileTooShort, 21),
        (Refusal::FileVersion, 22),
        (Refusal::FileLength, 23),
        (Refusal::FileCount, 24),
        (Refusal::FileOffset, 25),
        (Refusal::FileRange, 26),
        (Refusal::FileOrder, 27),
        (Refusal::FileLists, 28),
        (Refusal::FileLacksAccess, 29),
        (Refusal::LabelBlock, 30),
        (Refusal::BufferLength, 31),
    ];
    assert!(numbers.iter().map(|&(_, number)| number).eq(named()));
    for (refusal, number) in numbers {
        assert_eq!(refusal.number(), number, "{refusal:?}");
        assert_eq!(Refusal::try_from(number), Ok(refusal));
    }
}

#[test]
fn each_has_words_of_its_own() {
    let all = named().map(|number| Refusal::try_from(number).unwrap()).chain([Refusal::Unknown(200)]);
    let mut seen = HashSet::new();
    for refusal in all {
        let words = refusal.to_string();
        assert!(words.ends_with('.') && words.is_ascii() && !words.contains("  "), "{words}");
        assert!(words.contains(". "), "what is wrong, and what would help: {words}");
        assert!(seen.insert(words), "{refusal:?} has the words of another");
    }
    assert_eq!(
        Refusal::LastOne.to_string(),
        "Each area keeps an owner, and each site an area: the last one can't go. Add another one first."
    );
    assert_eq!(
        Refusal::RecipeForm.to_string(),
        "The recipe can't be read: it is empty, has more than 16 instructions, was cut off, or was altered. Fetch it \
         again from where it was saved; if it came with the program, tell the program's maker."
    );
    let own_import = Refusal::OwnImport.to_string();
    for said in ["stored on this area", "nobody to borrow it from", "another area", "export it"] {
        assert!(own_import.contains(said), "{own_import}");
    }
    assert!(Refusal::FileLacksAccess.to_string().contains("imports a table that is stored on that same area"));
    let label_block = Refusal::LabelBlock.to_string();
    for said in ["not listed", "1 to 30 plain characters", "out of order", "damaged", "Take away", "correct"] {
        assert!(label_block.contains(said), "{label_block}");
    }
    assert!(Refusal::BufferLength.to_string().contains("too little room for the site file"));
    assert!(Refusal::Unknown(200).to_string().contains("200"));
    assert_eq!(NoRefusal(0).to_string(), "0 is the number of no refusal");
}
