//! Compares the library behind panelrights.h, and the program PanelRights, with the second implementation `reference`.
//!
//! `differential [SEED] [TIMES] [PART]..` runs all parts, or those that are named, TIMES times longer than usual.
//! `differential replay 'TEXT'` runs one case, in the text that a failure prints, and prints both answers; with `-` the
//! text is standard input.

#![deny(unsafe_code)]

mod aimed;
mod answer;
mod asked;
mod basics;
mod block_damage;
mod borders;
mod byte_damage;
mod case;
mod chains;
mod commands;
mod courses;
mod difference;
mod draft;
mod exhaustive;
mod expected;
mod explaining;
mod files;
mod instructions;
mod lending;
#[allow(unsafe_code)]
mod library;
mod lines;
mod misformed;
mod numbers;
mod old_records;
mod one_bit;
mod other_lengths;
mod own_imports;
mod places;
mod program;
mod random;
mod random_bytes;
mod reasons;
mod recipes;
mod records;
mod seen;
mod shards;
mod shortest;
mod site;
mod small_recipes;
mod states;
mod table_damage;
mod taking_back;
mod templates;
mod text;
mod unsound;
mod wanted;
mod writing;

use difference::{answer_text, content_text};
use seen::Seen;
use shards::Plan;
use std::io;
use std::process::ExitCode;
use std::time::Instant;

const USUAL_SEED: u64 = 20_260_101;

type Part = fn(&Plan) -> (String, Seen);

const PARTS: [(&str, Part); 13] = [
    ("basics", basics::run),
    ("exhaustive", exhaustive::run),
    ("random", random::run),
    ("records", records::run),
    ("old-records", old_records::run),
    ("explaining", explaining::run),
    ("reasons", reasons::run),
    ("recipes", recipes::run),
    ("files", files::run),
    ("writing", writing::run),
    ("program", program::run),
    ("lending", lending::run),
    ("commands", commands::run),
];

fn main() -> ExitCode {
    let arguments: Vec<String> = std::env::args().skip(1).collect();
    let arguments: Vec<&str> = arguments.iter().map(String::as_str).collect();
    let result = match arguments[..] {
        ["replay", text] => replay(text),
        _ => plan(&arguments).and_then(|plan| run_parts(&plan, arguments.get(2..).unwrap_or_default())),
    };
    match result {
        Ok(()) => ExitCode::SUCCESS,
        Err(message) => {
            eprintln!("differential: {message}");
            ExitCode::FAILURE
        }
    }
}

fn plan(arguments: &[&str]) -> Result<Plan, String> {
    let number = |place: usize, usual: u64| match arguments.get(place) {
        Some(text) => text.parse().map_err(|_| format!("{text:?} is no number")),
        None => Ok(usual),
    };
    let (seed, times) = (number(0, USUAL_SEED)?, number(1, 1)?);
    Ok(Plan {
        seed,
        times: times.max(1) as usize,
    })
}

/// Every part, or those that are named, also where one has failed.
fn run_parts(plan: &Plan, names: &[&str]) -> Result<(), String> {
    if let Some(unknown) = names.iter().find(|name| PARTS.iter().all(|part| part.0 != **name)) {
        return Err(format!("there is no part {unknown:?}"));
    }
    println!("seed {}, {} times the usual length", plan.seed, plan.times);
    let mut failed = Vec::new();
    let named = |name: &str| names.is_empty() || names.contains(&name);
    for (name, part) in PARTS.iter().filter(|part| named(part.0)) {
        let start = Instant::now();
        let (line, seen) = part(plan);
        println!("{name}: {line} ({:.1} s)", start.elapsed().as_secs_f64());
        for failure in seen.failures() {
            println!("{name}: FAILURE: {failure}");
            failed.push(*name);
        }
    }
    failed.dedup();
    match failed[..] {
        [] => Ok(()),
        _ => Err(format!("it failed in: {}", failed.join(", "))),
    }
}

/// One case on both sides.
fn replay(text: &str) -> Result<(), String> {
    let text = match text {
        "-" => io::read_to_string(io::stdin()).map_err(|error| error.to_string())?,
        _ => text.to_string(),
    };
    let case = text::parse(text.trim_end_matches('\n'))?;
    let (library, reference) = (case.by_library(), case.by_reference());
    for (side, answer) in [("library", &library), ("reference", &reference)] {
        println!("{side}: {}", answer_text(&case, answer));
        println!("{}", content_text(&case, answer));
    }
    if library != reference {
        return Err("library and reference differ".to_string());
    }
    println!("the same");
    Ok(())
}
