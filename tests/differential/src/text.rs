//! A case as one line of text, and back: what `replay` takes.
//!
//! A list of numbers is `0-3,7`; a relation is `FIRST:SECONDS` for each first number, with `;` between; other bytes are
//! hexadecimal, in pieces with `,` between, and `00*31` is a byte that comes 31 times. A recipe is its activator and
//! parameters, `:`, and its bytes as numbers, five and five with `;` between: `0.9.0.0.0:7.0.0.0.9;11.0.0.1.0`, and
//! `1.0.0.0.0*17` is an instruction that comes 17 times. What is empty is `-`. The input of the program is all that
//! stands behind its word and one space, with `\n` for byte 10 and `\xff` for a byte that is not printed.

use crate::case::Case;
use crate::numbers::relations;
use crate::site::Site;
use crate::templates::FIVE;
use reference::{Call, Command, State};
use std::borrow::Cow;
use std::collections::{BTreeMap, BTreeSet};
use std::fmt::{self, Display, Formatter};

const LISTS: [&str; 3] = ["users", "areas", "objects"];
const RELATIONS: [&str; 5] = ["owners", "definitions", "structure", "imports", "exports"];

/// A run of equal bytes of at least this length is written as one.
const SHORTEST_RUN: usize = 4;

impl Display for Case<'_> {
    fn fmt(&self, to: &mut Formatter) -> fmt::Result {
        write!(to, "{} ", self.kind())?;
        match self {
            Case::Founding { buffer_len } => write!(to, "{buffer_len}"),
            Case::Step { site, instruction }
            | Case::Back { site, add: instruction }
            | Case::Reason { site, instruction } => {
                write!(to, "{} {}", numbers_text(instruction, " "), site_text(site))
            }
            Case::Recipe { site, bytes, call } => write!(to, "{} {}", recipe_text(bytes, call), site_text(site)),
            Case::Access { site, area, object } => write!(to, "{area} {object} {}", site_text(site)),
            Case::Explain {
                site,
                area,
                object,
                buffer_len,
            } => write!(to, "{buffer_len} {area} {object} {}", site_text(site)),
            Case::List { site, list } => {
                let items: Vec<String> = list.iter().map(|instruction| numbers_text(instruction, ".")).collect();
                write!(to, "{} {}", or_dash(items.join(",")), site_text(site))
            }
            Case::Commands { site, list } => {
                let items: Vec<String> = list.iter().map(command_text).collect();
                write!(to, "{} {}", or_dash(items.join(",")), site_text(site))
            }
            Case::Read { file, buffer_len } => write!(to, "{buffer_len} {}", bytes_text(file)),
            Case::Label { file, area } => write!(to, "{area} {}", bytes_text(file)),
            Case::Labels { file } => write!(to, "{}", bytes_text(file)),
            Case::Write {
                site,
                block,
                buffer_len,
            } => write!(to, "{buffer_len} {} {}", bytes_text(block), site_text(site)),
            Case::Mark { marks } => write!(to, "{marks}"),
            Case::Program { input } => write!(to, "{}", input_text(input)),
        }
    }
}

fn or_dash(text: String) -> String {
    if text.is_empty() {
        return "-".to_string();
    }
    text
}

fn numbers_text(numbers: &[u8], between: &str) -> String {
    numbers.iter().map(u8::to_string).collect::<Vec<_>>().join(between)
}

fn command_text(command: &Command) -> String {
    match command {
        Command::Single(instruction) => numbers_text(instruction, "."),
        Command::Recipe { bytes, call } => recipe_text(bytes, call),
    }
}

fn recipe_text(bytes: &[u8], call: &Call) -> String {
    let fives: Vec<&[u8]> = bytes.chunks(FIVE).collect();
    let run_text = |run: &[&[u8]]| match run {
        [one] => numbers_text(one, "."),
        _ => format!("{}*{}", numbers_text(run[0], "."), run.len()),
    };
    let runs: Vec<String> = fives.chunk_by(|one, next| one == next).map(run_text).collect();
    let parameters = numbers_text(&call.parameters, ".");
    format!("{}.{parameters}:{}", call.activator, or_dash(runs.join(";")))
}

fn site_text(site: &Site) -> String {
    match &site.state {
        Some(state) => state_text(state),
        None => format!("bytes={}", bytes_text(&site.record)),
    }
}

pub fn state_text(state: &State) -> String {
    let lists = [&state.users, &state.areas, &state.objects].map(list_text);
    let relations = relations(state).map(relation_text);
    let names = LISTS.iter().chain(&RELATIONS);
    let parts = names.zip(lists.into_iter().chain(relations));
    parts
        .map(|(name, text)| format!("{name}={text}"))
        .collect::<Vec<_>>()
        .join(" ")
}

fn list_text(list: &BTreeSet<u8>) -> String {
    let mut ranges: Vec<(u8, u8)> = Vec::new();
    for &number in list {
        match ranges.last_mut() {
            Some((_, last)) if *last + 1 == number => *last = number,
            _ => ranges.push((number, number)),
        }
    }
    let text = |&(first, last): &(u8, u8)| {
        if first == last {
            first.to_string()
        } else {
            format!("{first}-{last}")
        }
    };
    or_dash(ranges.iter().map(text).collect::<Vec<_>>().join(","))
}

fn relation_text(pairs: &BTreeSet<(u8, u8)>) -> String {
    let mut rows: BTreeMap<u8, BTreeSet<u8>> = BTreeMap::new();
    for &(first, second) in pairs {
        rows.entry(first).or_default().insert(second);
    }
    let row_text = |(first, seconds): (&u8, &BTreeSet<u8>)| format!("{first}:{}", list_text(seconds));
    or_dash(rows.iter().map(row_text).collect::<Vec<_>>().join(";"))
}

pub fn bytes_text(bytes: &[u8]) -> String {
    let mut pieces: Vec<String> = vec![String::new()];
    for run in bytes.chunk_by(|one, next| one == next) {
        let hex = format!("{:02x}", run[0]);
        if run.len() < SHORTEST_RUN {
            pieces
                .last_mut()
                .expect("there is a piece")
                .push_str(&hex.repeat(run.len()));
        } else {
            pieces.push(format!("{hex}*{}", run.len()));
            pieces.push(String::new());
        }
    }
    pieces.retain(|piece| !piece.is_empty());
    or_dash(pieces.join(","))
}

fn input_text(input: &[u8]) -> String {
    let byte_text = |&byte: &u8| match byte {
        b'\n' => "\\n".to_string(),
        b'\\' | b'\'' => format!("\\x{byte:02x}"),
        32..=126 => char::from(byte).to_string(),
        _ => format!("\\x{byte:02x}"),
    };
    input.iter().map(byte_text).collect()
}

/// The case that the text stands for.
pub fn parse(text: &str) -> Result<Case<'static>, String> {
    if let Some(input) = text.strip_prefix("program ") {
        let input = Cow::Owned(parse_input(input)?);
        return Ok(Case::Program { input });
    }
    let words: Vec<&str> = text.split_whitespace().collect();
    let case = match words[..] {
        ["founding", len] => Case::Founding {
            buffer_len: number(len)?,
        },
        ["mark", marks] => Case::Mark { marks: number(marks)? },
        ["read", len, bytes] => Case::Read {
            file: Cow::Owned(parse_bytes(bytes)?),
            buffer_len: number(len)?,
        },
        ["label", area, bytes] => Case::Label {
            file: Cow::Owned(parse_bytes(bytes)?),
            area: number(area)?,
        },
        ["labels", bytes] => Case::Labels {
            file: Cow::Owned(parse_bytes(bytes)?),
        },
        _ => return parse_over_site(&words),
    };
    Ok(case)
}

/// A case over a site, which stands behind its other words.
fn parse_over_site(words: &[&str]) -> Result<Case<'static>, String> {
    let case = match *words {
        [kind @ ("step" | "back" | "reason"), code, activator, a, b, ref site @ ..] => {
            let site = Cow::Owned(parse_site(site)?);
            let instruction = parse_instruction([code, activator, a, b])?;
            match kind {
                "step" => Case::Step { site, instruction },
                "back" => Case::Back { site, add: instruction },
                _ => Case::Reason { site, instruction },
            }
        }
        ["recipe", recipe, ref site @ ..] => {
            let (bytes, call) = parse_recipe(recipe)?;
            Case::Recipe {
                site: Cow::Owned(parse_site(site)?),
                bytes: Cow::Owned(bytes),
                call,
            }
        }
        ["access", area, object, ref site @ ..] => Case::Access {
            site: Cow::Owned(parse_site(site)?),
            area: number(area)?,
            object: number(object)?,
        },
        ["explain", len, area, object, ref site @ ..] => Case::Explain {
            site: Cow::Owned(parse_site(site)?),
            area: number(area)?,
            object: number(object)?,
            buffer_len: number(len)?,
        },
        ["write", len, block, ref site @ ..] => Case::Write {
            site: Cow::Owned(parse_site(site)?),
            block: Cow::Owned(parse_bytes(block)?),
            buffer_len: number(len)?,
        },
        _ => return parse_run(words),
    };
    Ok(case)
}

/// A case of many instructions over a site.
fn parse_run(words: &[&str]) -> Result<Case<'static>, String> {
    let case = match *words {
        ["list", list, ref site @ ..] => Case::List {
            site: Cow::Owned(parse_site(site)?),
            list: Cow::Owned(items(list, ",").map(parse_four).collect::<Result<_, String>>()?),
        },
        ["commands", list, ref site @ ..] => Case::Commands {
            site: Cow::Owned(parse_site(site)?),
            list: Cow::Owned(items(list, ",").map(parse_command).collect::<Result<_, String>>()?),
        },
        _ => return Err(format!("no case begins and goes on like this: {:?}", words.first())),
    };
    Ok(case)
}

fn number<T: std::str::FromStr>(text: &str) -> Result<T, String> {
    text.parse()
        .map_err(|_| format!("{text:?} is no number, or out of range"))
}

/// The items of a text with `between` between them; none for `-`.
fn items<'a>(text: &'a str, between: &'a str) -> impl Iterator<Item = &'a str> {
    text.split(between).filter(move |_| text != "-")
}

fn parse_instruction([code, activator, a, b]: [&str; 4]) -> Result<[u8; 4], String> {
    Ok([number(code)?, number(activator)?, number(a)?, number(b)?])
}

/// Numbers with a point between them.
fn parse_numbers(text: &str) -> Result<Vec<u8>, String> {
    text.split('.').map(number).collect()
}

fn parse_four(text: &str) -> Result<[u8; 4], String> {
    let numbers = parse_numbers(text)?;
    numbers.try_into().map_err(|_| format!("{text:?} has not four numbers"))
}

fn parse_command(text: &str) -> Result<Command, String> {
    if !text.contains(':') {
        return parse_four(text).map(Command::Single);
    }
    let (bytes, call) = parse_recipe(text)?;
    Ok(Command::Recipe { bytes, call })
}

fn parse_recipe(text: &str) -> Result<(Vec<u8>, Call), String> {
    let (call, runs) = text.split_once(':').ok_or(format!("{text:?} has no ':'"))?;
    let [activator, parameters @ ..]: [u8; 5] = parse_numbers(call)?
        .try_into()
        .map_err(|_| format!("{call:?} has not five numbers"))?;
    let mut bytes = Vec::new();
    for run in items(runs, ";") {
        let (one, times) = run.split_once('*').unwrap_or((run, "1"));
        bytes.extend(parse_numbers(one)?.repeat(number(times)?));
    }
    Ok((bytes, Call { activator, parameters }))
}

fn parse_site(words: &[&str]) -> Result<Site, String> {
    let mut parts: BTreeMap<&str, &str> = BTreeMap::new();
    for word in words {
        let (name, text) = word.split_once('=').ok_or(format!("{word:?} has no '='"))?;
        parts.insert(name, text);
    }
    if let Some(bytes) = parts.get("bytes") {
        return Ok(Site::of_bytes(parse_bytes(bytes)?));
    }
    let part = |name: &str| parts.get(name).copied().ok_or(format!("{name} is missing"));
    let list = |name: &str| parse_list(part(name)?);
    let relation = |name: &str| parse_relation(part(name)?);
    Ok(Site::of_state(&State {
        users: list("users")?,
        areas: list("areas")?,
        objects: list("objects")?,
        owners: relation("owners")?,
        definitions: relation("definitions")?,
        structure: relation("structure")?,
        imports: relation("imports")?,
        exports: relation("exports")?,
    }))
}

fn parse_list(text: &str) -> Result<BTreeSet<u8>, String> {
    let mut list = BTreeSet::new();
    for range in items(text, ",") {
        let (first, last) = range.split_once('-').unwrap_or((range, range));
        list.extend(number::<u8>(first)?..=number(last)?);
    }
    Ok(list)
}

fn parse_relation(text: &str) -> Result<BTreeSet<(u8, u8)>, String> {
    let mut pairs = BTreeSet::new();
    for row in items(text, ";") {
        let (first, seconds) = row.split_once(':').ok_or(format!("{row:?} has no ':'"))?;
        let first = number(first)?;
        pairs.extend(parse_list(seconds)?.into_iter().map(|second| (first, second)));
    }
    Ok(pairs)
}

fn parse_bytes(text: &str) -> Result<Vec<u8>, String> {
    let mut bytes = Vec::new();
    for piece in items(text, ",") {
        let (hex, times) = piece.split_once('*').unwrap_or((piece, "1"));
        bytes.extend(parse_hex(hex)?.repeat(number(times)?));
    }
    Ok(bytes)
}

fn parse_input(text: &str) -> Result<Vec<u8>, String> {
    let mut pieces = text.split('\\');
    let mut input = pieces.next().unwrap_or_default().as_bytes().to_vec();
    for piece in pieces {
        let (byte, rest) = match piece.as_bytes() {
            [b'n', ..] => (b'\n', &piece[1..]),
            [b'x', _, _, ..] if piece.is_ascii() => (parse_hex(&piece[1..3])?[0], &piece[3..]),
            _ => return Err(format!("{piece:?} stands behind a backslash")),
        };
        input.push(byte);
        input.extend(rest.bytes());
    }
    Ok(input)
}

fn parse_hex(text: &str) -> Result<Vec<u8>, String> {
    let digits: Vec<char> = text.chars().collect();
    let byte = |two: &[char]| u8::from_str_radix(&String::from_iter(two), 16);
    digits
        .chunks(2)
        .map(|two| byte(two).map_err(|_| format!("{two:?} is not hexadecimal")))
        .collect()
}
