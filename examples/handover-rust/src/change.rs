//! Instructions from standard input, obeyed all or not at all, and the site file saved.

use crate::site::{load, refused, Site};
use panelrights::StepRefused;
use std::ffi::OsStr;
use std::fs::{self, File};
use std::io::{self, Read, Write};

/// How many bytes of instructions are taken, as by PanelRights.
const INPUT_MOST: usize = 65_536;

/// Document 01's number for an unreadable line. The library reads no lines, and has no such refusal.
const UNREADABLE_LINE: u8 = 13;
const UNREADABLE: &str = "The line can't be read: it must have four numbers from 0 to 255, without leading zeros and \
                          with one space between them, and a line end behind. Correct the line.";

/// Why the site file stays as it was.
pub enum NotChanged {
    /// The first line that is refused, in words to be printed.
    Refused(String),
    /// What can't be read or written.
    Failed(&'static str),
}

/// Obeys the instructions on standard input and saves the site, or does neither.
pub fn change(site: &mut Site, name: &OsStr) -> Result<(), NotChanged> {
    let mut input = Vec::new();
    let most = INPUT_MOST as u64 + 1;
    io::stdin().take(most).read_to_end(&mut input).map_err(failed("the instructions can't be read"))?;
    if input.len() > INPUT_MOST {
        return Err(NotChanged::Failed("the instructions are too long"));
    }
    obey_lines(site, &input).map_err(NotChanged::Refused)?;
    let file = site.state.to_file(&site.labels).map_err(failed("the file can't be written"))?;
    save(name, &file).map_err(failed("the file can't be written"))
}

fn failed<E>(what: &'static str) -> impl FnOnce(E) -> NotChanged {
    move |_| NotChanged::Failed(what)
}

/// Obeys one line after the other, up to the first that is refused.
fn obey_lines(site: &mut Site, input: &[u8]) -> Result<(), String> {
    for (line, text) in (1..).zip(input.split_inclusive(|&byte| byte == b'\n')) {
        let told = |number, words: &str| refused(number, format!("At line {line}: {words} Nothing was changed."));
        let numbers = read_line(text).ok_or_else(|| told(UNREADABLE_LINE, UNREADABLE))?;
        let step = site.state.step(numbers);
        step.map_err(|refusal| told(refusal.number(), &refusal.to_string()) + &lost(site, numbers))?;
        // At each line: an area that is listed again later is another one, and has not the old label.
        site.labels.keep_listed(&site.state);
    }
    Ok(())
}

/// Who would lose what, as a line, by a removal that is refused as 11.
fn lost(site: &Site, numbers: [u8; 4]) -> String {
    match site.state.explain_step(numbers) {
        Err(StepRefused::WouldLose(lost)) => format!("{}\n", lost.words(&site.labels)),
        _ => String::new(),
    }
}

/// A line: four numbers with one space between them, and byte 10.
fn read_line(line: &[u8]) -> Option<[u8; 4]> {
    let text = std::str::from_utf8(line).ok()?.strip_suffix('\n')?;
    let numbers: Option<Vec<u8>> = text.split(' ').map(read_number).collect();
    numbers?.try_into().ok()
}

/// A decimal number from 0 to 255. `parse` would take a sign and leading zeros too.
fn read_number(text: &str) -> Option<u8> {
    text.parse().ok().filter(|number: &u8| number.to_string() == text)
}

/// Writes the bytes to a new file, which takes the place of the old one once it is whole. Else it is removed, and the
/// old one stays as it was.
fn save(name: &OsStr, bytes: &[u8]) -> io::Result<()> {
    let mut new_name = name.to_os_string();
    new_name.push(".new");
    // What is there and can't be opened, such as a folder, is not ours to remove.
    let file = File::create(&new_name)?;
    let saved = write(file, bytes, &new_name).and_then(|()| fs::rename(&new_name, name));
    if saved.is_err() {
        // If that fails too, nothing more can be done.
        let _ = fs::remove_file(&new_name);
    }
    saved
}

/// Writes the bytes to the file, and looks whether they are there.
fn write(mut file: File, bytes: &[u8], name: &OsStr) -> io::Result<()> {
    file.write_all(bytes)?;
    file.sync_all()?;
    if load(name)? == bytes {
        Ok(())
    } else {
        Err(io::ErrorKind::InvalidData.into())
    }
}
