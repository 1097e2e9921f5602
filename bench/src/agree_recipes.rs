//! The comparison on random recipes, and how often each answer was seen.

use crate::recipe::{Call, ENTRY, MOST};
use crate::record::Record;
use crate::rows::Rows;
use crate::{agree, random, random_recipe};
use chance::Chance;

#[derive(Default)]
struct Seen {
    /// By refusal: 0 to 12, and 14 and 15 behind them.
    answers: [u32; 15],
    /// Accepted, by the number of instructions.
    accepted: [u32; MOST],
    /// Refused, by the place of the instruction.
    places: [u32; MOST],
    /// Refused as 14, by what was wrong: the length, a kind, a parameter.
    forms: [u32; 3],
    /// Spoiled recipes in unsound states, refused as 12.
    neither: u32,
}

impl Seen {
    /// A recipe, or one that was spoiled in the way that is named.
    fn recipe(&mut self, s: &Record, call: &Call, spoiled: Option<usize>) -> Record {
        let (answer, after) = agree::recipe(s, call);
        let [place, refusal] = answer.to_be_bytes().map(usize::from);
        self.answers[refusal - usize::from(refusal > 13)] += 1;
        match (spoiled, place, refusal) {
            (Some(way), 0, 14) => self.forms[way] += 1,
            (Some(_), 0, 12) => self.neither += 1,
            (None, 0, 0) => self.accepted[call.recipe.len() / ENTRY - 1] += 1,
            (None, 1.., _) => self.places[place - 1] += 1,
            (None, 0, 12) => {}
            _ => panic!("All answer {answer}, but the form is not so: the {call:?}"),
        }
        after
    }

    fn lines(&self) -> [String; 4] {
        let Seen {
            answers,
            accepted,
            places,
            forms,
            neither,
        } = self;
        let every = [&answers[..], accepted, places, forms, &[*neither]].concat();
        let lines = [
            format!("agree: recipes answered 0 to 12, 14, 15: {answers:?}"),
            format!("agree: recipes accepted with 1 to 16 instructions: {accepted:?}"),
            format!("agree: recipes refused at places 1 to 16: {places:?}"),
            format!("agree: recipes refused as 14 by length, kind, parameter: {forms:?}; as 12 before 14: {neither}"),
        ];
        assert!(!every.contains(&0), "an answer was never seen: {lines:#?}");
        lines
    }
}

/// Walks of random recipes from the founding state, over few numbers and over all; on the way damaged records, and
/// spoiled recipes. Gives lines on what was seen.
pub fn compare(count: u32) -> [String; 4] {
    let mut chance = Chance::new(4);
    let mut seen = Seen::default();
    let mut s = Record::founding();
    for i in 0..count {
        let span = random::SPANS[(i / 250) as usize % random::SPANS.len()];
        if i % 250 == 0 {
            s = Record::founding();
        }
        let mut call = random_recipe::call(&mut chance, Rows::of(&s), span);
        let spoiled = chance
            .once_in(8)
            .then(|| random_recipe::spoil(&mut chance, &mut call.recipe));
        if chance.once_in(8) {
            let damaged = random::damaged(&mut chance, &s, span);
            seen.recipe(&damaged, &call, spoiled);
        }
        s = seen.recipe(&s, &call, spoiled);
    }
    seen.lines()
}
