//! Measures the library over the C interface beside two baselines in Rust, one plain and one ideal, in one run: the
//! step, the recipe, the access question, the explanations, the reader and the writer of site files and the lowest
//! mark; and the program PanelRights beside a session in plain Rust. Before that it compares the answers of the three
//! on random instructions, of which an argument gives the number, with questions and files on the way, on half as many
//! random recipes and explanations, and on every byte of marks.

#![deny(unsafe_code)]

mod agree;
mod agree_explanations;
mod agree_recipes;
mod area_lists;
mod borders;
mod explanation;
mod files;
mod ideal;
mod ideal_explanation;
mod ideal_reader;
mod ideal_writer;
#[allow(unsafe_code)]
mod library;
mod openings;
mod plain;
mod plain_explanation;
mod plain_reader;
mod plain_writer;
mod program;
mod races;
mod random;
mod random_recipe;
mod recipe;
mod record;
mod report;
mod rows;
mod rules;
mod sessions;
mod site_file;
mod states;
mod timing;

use report::Report;
use states::States;

const COMPARED: u32 = 40_000;

fn main() {
    let compared = std::env::args()
        .nth(1)
        .map_or(COMPARED, |n| n.parse().expect("the number of instructions to compare"));
    let mut report = Report::default();
    if option_env!("BENCH_FLAGS").is_none() {
        report
            .say("bench note: built without bench/.cargo/config.toml, which cargo reads when it runs in bench".into());
    }
    agree::compare(compared).into_iter().for_each(|line| report.say(line));
    agree_recipes::compare(compared / 2)
        .into_iter()
        .for_each(|line| report.say(line));
    let states = States::new();
    agree_explanations::compare(compared / 2, &states)
        .into_iter()
        .for_each(|line| report.say(line));
    report.say(area_lists::compare());
    let mut races = races::all(&states);
    timing::run(&mut races);
    races.iter().for_each(|race| report.race(race));
    program::sessions(&mut report);
    report.limits();
    report.write();
}
