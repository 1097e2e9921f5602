//! What the examples in Rust share: the state and the labels of a site file, how areas and tables are printed, numbers
//! as arguments, and the exit statuses.

use panelrights::{labels, read_file, Labels, Refusal, State};
use std::ffi::OsStr;
use std::fmt;
use std::fs::File;
use std::io::{self, Read, Write};
use std::process::ExitCode;

/// What has so many bytes or more is refused for its version or length: the rest need not be read.
const FILE_BYTES: u64 = 65_536;

/// What a site file holds.
pub struct Site {
    pub state: State,
    pub labels: Labels,
}

impl Site {
    pub fn read(file: &[u8]) -> Result<Site, Refusal> {
        Ok(Site { state: read_file(file)?, labels: labels(file)? })
    }

    /// The area with its label, if it has one.
    pub fn area(&self, area: u8) -> String {
        format!("area {}", self.labels.name(area))
    }

    /// The area with the areas that it lies in, as a line.
    pub fn place(&self, out: &mut fmt::Formatter, area: u8) -> fmt::Result {
        write!(out, "  {}", self.area(area))?;
        for outer in self.state.areas().filter(|&outer| self.state.lies_in(area, outer)) {
            write!(out, ", in {}", self.area(outer))?;
        }
        writeln!(out)
    }

    /// Where the table is defined, and who sees it over how many steps.
    pub fn table(&self, out: &mut fmt::Formatter, object: u8) -> fmt::Result {
        for definer in self.state.areas().filter(|&area| self.state.defines(object, area)) {
            writeln!(out, "  table {object}, defined in {}", self.area(definer))?;
        }
        for area in self.state.areas() {
            if let Ok(Some(steps)) = self.state.access(area.into(), object.into()) {
                self.view(out, area, object, steps)?;
            }
        }
        Ok(())
    }

    /// How the area sees the table.
    fn view(&self, out: &mut fmt::Formatter, area: u8, object: u8, steps: u8) -> fmt::Result {
        let plural = if steps == 1 { "" } else { "s" };
        let imports = if self.state.imports(object, area) { ", imports it" } else { "" };
        let exports = if self.state.exports(object, area) { ", exports it" } else { "" };
        writeln!(out, "    {} sees it over {steps} step{plural}{imports}{exports}", self.area(area))
    }
}

pub fn load(name: &OsStr) -> io::Result<Vec<u8>> {
    let mut file = Vec::new();
    File::open(name)?.take(FILE_BYTES).read_to_end(&mut file)?;
    Ok(file)
}

/// A decimal number from 0 to 255.
pub fn number(text: &OsStr) -> Option<u8> {
    let text = text.to_str()?;
    text.bytes().all(|byte| byte.is_ascii_digit()).then(|| text.parse().ok())?
}

/// What is printed of a refusal: its number, and what is wrong and would help.
pub fn refused(number: u8, words: impl fmt::Display) -> String {
    format!("Refused as {number}. {words}\n")
}

/// The status for bad usage, and for what can't be read or written.
pub fn failed(why: &str) -> ExitCode {
    eprintln!("{why}");
    ExitCode::from(2)
}

/// Prints the report, or what was refused: the status is 0 or 1, once all is written.
pub fn finished(report: Result<String, String>, program: &str) -> ExitCode {
    let (text, status) = match report {
        Ok(text) => (text, ExitCode::SUCCESS),
        Err(text) => (text, ExitCode::FAILURE),
    };
    match io::stdout().write_all(text.as_bytes()) {
        Ok(()) => status,
        Err(_) => failed(&format!("{program}: the output can't be written")),
    }
}
