//! Opening a school: nine instructions as a recipe, which runs entirely or not at all. The school and its hall are new
//! areas, and the table is a new one of the school.
//! Usage: `opening FILE ACTIVATOR SCHOOL HALL KEYHOLDER TABLE`. The exit status is 0; 1 if the library refuses the file
//! or the recipe; 2 if the file can't be read.

#[path = "../../site.rs"]
mod site;

use panelrights::Operand::{self, Fixed, P0, P1, P2, P3};
use panelrights::{Kind, Recipe, RecipeRefused};
use site::{failed, finished, load, number, refused, Site};
use std::env;
use std::fmt;
use std::process::ExitCode;

const SCHOOL: Operand = P0;
const HALL: Operand = P1;
const KEYHOLDER: Operand = P2;
const TABLE: Operand = P3;

const OPENING: Recipe = Recipe::new([
    Kind::ListArea { area: SCHOOL },
    Kind::ListArea { area: HALL },
    Kind::AddStructure { inner: HALL, outer: SCHOOL },
    Kind::Define { area: SCHOOL, object: TABLE },
    Kind::AddImport { area: HALL, object: TABLE },
    Kind::AddStructure { inner: SCHOOL, outer: Fixed(0) },
    Kind::AddExport { area: SCHOOL, object: TABLE },
    Kind::AddOwner { area: SCHOOL, user: KEYHOLDER },
    Kind::AddOwner { area: HALL, user: KEYHOLDER },
]);

/// The same in words.
const PURPOSES: [&str; 9] = [
    "list the school",
    "list the hall",
    "put the hall into the school",
    "store the table in the school",
    "let the hall import the table",
    "put the school into area 0",
    "let the school export the table",
    "make the keyholder an owner of the school",
    "make the keyholder an owner of the hall",
];

/// What comes with the call.
struct Call {
    activator: u8,
    school: u8,
    hall: u8,
    keyholder: u8,
    table: u8,
}

/// A site in which the school was opened.
struct Opened(Site, Call);

impl fmt::Display for Opened {
    fn fmt(&self, out: &mut fmt::Formatter) -> fmt::Result {
        let Opened(site, call) = self;
        writeln!(out, "The new areas")?;
        for area in [call.school, call.hall] {
            site.place(out, area)?;
            for user in site.state.users().filter(|&user| site.state.owns(user, area)) {
                writeln!(out, "    user {user} may change it")?;
            }
        }
        writeln!(out, "\nWho sees the new table")?;
        site.table(out, call.table)
    }
}

fn open(file: &[u8], call: Call) -> Result<Opened, String> {
    let mut site = Site::read(file).map_err(|refusal| refused(refusal.number(), refusal))?;
    let parameters = [call.school, call.hall, call.keyholder, call.table];
    site.state.recipe(&OPENING, call.activator, parameters).map_err(told)?;
    Ok(Opened(site, call))
}

/// What is printed of a refused recipe.
fn told(why: RecipeRefused) -> String {
    let words = refused(why.refusal.number(), why);
    match why.place {
        Some(place) => format!("{words}Instruction {place} was to {}.\n", PURPOSES[usize::from(place.get()) - 1]),
        None => words,
    }
}

fn main() -> ExitCode {
    let arguments: Vec<_> = env::args_os().skip(1).collect();
    let numbers: Option<Vec<_>> = arguments.iter().skip(1).map(|text| number(text)).collect();
    let (Some(name), Some(&[activator, school, hall, keyholder, table])) = (arguments.first(), numbers.as_deref())
    else {
        return failed("usage: opening FILE ACTIVATOR SCHOOL HALL KEYHOLDER TABLE, numbers from 0 to 255");
    };
    let Ok(file) = load(name) else {
        return failed("opening: the file can't be read");
    };
    let opened = open(&file, Call { activator, school, hall, keyholder, table });
    finished(opened.map(|opened| opened.to_string()), "opening")
}
