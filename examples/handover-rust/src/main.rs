//! For the handover of a site: who may change what, and who sees which table over how many steps. With `--change` the
//! instructions on standard input are obeyed first, all of them or none, and the file is saved. With `--why` it is told
//! instead why an area sees a table, or why not.
//! Usage: `handover [--change | --why AREA TABLE] FILE`. The exit status is 0; 1 if the library refuses the file, an
//! instruction or the question, or a line is unreadable; 2 for bad usage, for more than 65,536 bytes of instructions,
//! and if something can't be read or written.

mod change;
#[path = "../../site.rs"]
mod site;

use change::{change, NotChanged};
use site::{failed, finished, load, number, refused, Site};
use std::env;
use std::ffi::{OsStr, OsString};
use std::fmt;
use std::process::ExitCode;

struct Handover(Site);

impl Handover {
    fn areas(&self, out: &mut fmt::Formatter) -> fmt::Result {
        let Handover(site) = self;
        writeln!(out, "Areas")?;
        site.state.areas().try_for_each(|area| site.place(out, area))
    }

    fn owners(&self, out: &mut fmt::Formatter) -> fmt::Result {
        let Handover(site) = self;
        writeln!(out, "\nWho may change what")?;
        for user in site.state.users() {
            for area in site.state.areas().filter(|&area| site.state.owns(user, area)) {
                writeln!(out, "  user {user} may change {}", site.area(area))?;
            }
        }
        Ok(())
    }

    fn tables(&self, out: &mut fmt::Formatter) -> fmt::Result {
        let Handover(site) = self;
        writeln!(out, "\nWho sees which table")?;
        site.state.objects().try_for_each(|object| site.table(out, object))
    }
}

impl fmt::Display for Handover {
    fn fmt(&self, out: &mut fmt::Formatter) -> fmt::Result {
        self.areas(out)?;
        self.owners(out)?;
        self.tables(out)
    }
}

/// Why the area sees the table, or why not.
fn why(site: &Site, area: u8, object: u8) -> Result<String, String> {
    match site.state.explain(area.into(), object.into()) {
        Ok(explanation) => Ok(format!("{}\n", explanation.words(&site.labels))),
        Err(refusal) => Err(refused(refusal.number(), refusal)),
    }
}

/// What the arguments ask for.
enum Request {
    Handover,
    Change,
    Why { area: u8, object: u8 },
}

/// The request and the name of the file, if the arguments are right.
fn request(arguments: &[OsString]) -> Option<(Request, &OsStr)> {
    match arguments {
        [name] if name != "--change" && name != "--why" => Some((Request::Handover, name)),
        [option, name] if option == "--change" => Some((Request::Change, name)),
        [option, area, object, name] if option == "--why" => {
            Some((Request::Why { area: number(area)?, object: number(object)? }, name))
        }
        _ => None,
    }
}

fn main() -> ExitCode {
    let arguments: Vec<_> = env::args_os().skip(1).collect();
    let Some((request, name)) = request(&arguments) else {
        return failed("usage: handover [--change | --why AREA TABLE] FILE, numbers from 0 to 255");
    };
    let Ok(file) = load(name) else {
        return failed("handover: the file can't be read");
    };
    let mut site = match Site::read(&file) {
        Ok(site) => site,
        Err(refusal) => return finished(Err(refused(refusal.number(), refusal)), "handover"),
    };
    match request {
        Request::Handover => {}
        Request::Change => match change(&mut site, name) {
            Ok(()) => {}
            Err(NotChanged::Refused(words)) => return finished(Err(words), "handover"),
            Err(NotChanged::Failed(what)) => return failed(&format!("handover: {what}")),
        },
        Request::Why { area, object } => return finished(why(&site, area, object), "handover"),
    }
    finished(Ok(Handover(site).to_string()), "handover")
}
