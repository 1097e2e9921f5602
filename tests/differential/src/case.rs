//! One case: what both sides are asked, and both answers.

use crate::answer::Answer;
use crate::site::Site;
use crate::{commands, expected, explaining, lending, library, program, reasons, taking_back};
use reference::{Call, Command};
use std::borrow::Cow;

#[derive(Clone, Debug, PartialEq, Eq)]
pub enum Case<'a> {
    /// The founding state into a buffer of so many bytes.
    Founding {
        buffer_len: usize,
    },
    Step {
        site: Cow<'a, Site>,
        instruction: [u8; 4],
    },
    /// An add, and at once the matching remove.
    Back {
        site: Cow<'a, Site>,
        add: [u8; 4],
    },
    /// A recipe, and what comes with the call.
    Recipe {
        site: Cow<'a, Site>,
        bytes: Cow<'a, [u8]>,
        call: Call,
    },
    Access {
        site: Cow<'a, Site>,
        area: u32,
        object: u32,
    },
    /// Why an area has access or not, into a buffer of so many bytes.
    Explain {
        site: Cow<'a, Site>,
        area: u32,
        object: u32,
        buffer_len: usize,
    },
    /// Why an instruction is refused.
    Reason {
        site: Cow<'a, Site>,
        instruction: [u8; 4],
    },
    /// A list of instructions, one after the other, and what demand 3 says of it.
    List {
        site: Cow<'a, Site>,
        list: Cow<'a, [[u8; 4]]>,
    },
    /// The same of a list that has recipes beside instructions.
    Commands {
        site: Cow<'a, Site>,
        list: Cow<'a, [Command]>,
    },
    /// A site file, read into a buffer of so many bytes.
    Read {
        file: Cow<'a, [u8]>,
        buffer_len: usize,
    },
    Label {
        file: Cow<'a, [u8]>,
        area: u32,
    },
    /// Where the label block of a site file stands.
    Labels {
        file: Cow<'a, [u8]>,
    },
    /// A record and a label block, written into a buffer of so many bytes.
    Write {
        site: Cow<'a, Site>,
        block: Cow<'a, [u8]>,
        buffer_len: usize,
    },
    Mark {
        marks: u8,
    },
    /// Standard input of PanelRights.
    Program {
        input: Cow<'a, [u8]>,
    },
}

impl<'a> Case<'a> {
    pub fn step(site: &'a Site, instruction: [u8; 4]) -> Case<'a> {
        Case::Step {
            site: Cow::Borrowed(site),
            instruction,
        }
    }

    pub fn back(site: &'a Site, add: [u8; 4]) -> Case<'a> {
        Case::Back {
            site: Cow::Borrowed(site),
            add,
        }
    }

    pub fn recipe(site: &'a Site, bytes: &'a [u8], call: Call) -> Case<'a> {
        Case::Recipe {
            site: Cow::Borrowed(site),
            bytes: Cow::Borrowed(bytes),
            call,
        }
    }

    pub fn access(site: &'a Site, area: u32, object: u32) -> Case<'a> {
        Case::Access {
            site: Cow::Borrowed(site),
            area,
            object,
        }
    }

    pub fn explain(site: &'a Site, area: u32, object: u32, buffer_len: usize) -> Case<'a> {
        Case::Explain {
            site: Cow::Borrowed(site),
            area,
            object,
            buffer_len,
        }
    }

    pub fn reason(site: &'a Site, instruction: [u8; 4]) -> Case<'a> {
        Case::Reason {
            site: Cow::Borrowed(site),
            instruction,
        }
    }

    pub fn list(site: &'a Site, list: &'a [[u8; 4]]) -> Case<'a> {
        Case::List {
            site: Cow::Borrowed(site),
            list: Cow::Borrowed(list),
        }
    }

    pub fn commands(site: &'a Site, list: &'a [Command]) -> Case<'a> {
        Case::Commands {
            site: Cow::Borrowed(site),
            list: Cow::Borrowed(list),
        }
    }

    pub fn read(file: &'a [u8], buffer_len: usize) -> Case<'a> {
        Case::Read {
            file: Cow::Borrowed(file),
            buffer_len,
        }
    }

    pub fn label(file: &'a [u8], area: u32) -> Case<'a> {
        Case::Label {
            file: Cow::Borrowed(file),
            area,
        }
    }

    pub fn labels(file: &'a [u8]) -> Case<'a> {
        Case::Labels {
            file: Cow::Borrowed(file),
        }
    }

    pub fn write(site: &'a Site, block: &'a [u8], buffer_len: usize) -> Case<'a> {
        Case::Write {
            site: Cow::Borrowed(site),
            block: Cow::Borrowed(block),
            buffer_len,
        }
    }

    pub fn program(input: &'a [u8]) -> Case<'a> {
        Case::Program {
            input: Cow::Borrowed(input),
        }
    }

    /// The word that its text begins with.
    pub fn kind(&self) -> &'static str {
        match self {
            Case::Founding { .. } => "founding",
            Case::Step { .. } => "step",
            Case::Back { .. } => "back",
            Case::Recipe { .. } => "recipe",
            Case::Access { .. } => "access",
            Case::Explain { .. } => "explain",
            Case::Reason { .. } => "reason",
            Case::List { .. } => "list",
            Case::Commands { .. } => "commands",
            Case::Read { .. } => "read",
            Case::Label { .. } => "label",
            Case::Labels { .. } => "labels",
            Case::Write { .. } => "write",
            Case::Mark { .. } => "mark",
            Case::Program { .. } => "program",
        }
    }

    pub fn by_library(&self) -> Answer {
        match self {
            Case::Founding { buffer_len } => library::founding(*buffer_len),
            Case::Step { site, instruction } => library::step(&site.record, *instruction),
            Case::Back { site, add } => taking_back::by_library(site, *add),
            Case::Recipe { site, bytes, call } => library::recipe(&site.record, bytes, call),
            Case::Access { site, area, object } => library::access(&site.record, *area, *object),
            Case::Explain {
                site,
                area,
                object,
                buffer_len,
            } => explaining::by_library(site, *area, *object, *buffer_len),
            Case::Reason { site, instruction } => reasons::by_library(site, *instruction),
            Case::List { site, list } => lending::run_by_library(site, list),
            Case::Commands { site, list } => commands::run_by_library(site, list),
            Case::Read { file, buffer_len } => library::read_file(file, *buffer_len),
            Case::Label { file, area } => library::label(file, *area),
            Case::Labels { file } => library::labels(file),
            Case::Write {
                site,
                block,
                buffer_len,
            } => library::write_file(&site.record, block, *buffer_len),
            Case::Mark { marks } => Answer::new(library::lowest_mark(*marks), vec![]),
            Case::Program { input } => program::run_program(input),
        }
    }

    pub fn by_reference(&self) -> Answer {
        match self {
            Case::Founding { buffer_len } => expected::founding(*buffer_len),
            Case::Step { site, instruction } => expected::step(site, *instruction),
            Case::Back { site, add } => expected::back(site, *add),
            Case::Recipe { site, bytes, call } => expected::recipe(site, bytes, call),
            Case::Access { site, area, object } => expected::access(site, *area, *object),
            Case::Explain {
                site,
                area,
                object,
                buffer_len,
            } => expected::explain(site, *area, *object, *buffer_len),
            Case::Reason { site, instruction } => expected::reason(site, *instruction),
            Case::List { site, list } => expected::run(site, list),
            Case::Commands { site, list } => expected::run_commands(site, list),
            Case::Read { file, buffer_len } => expected::read_file(file, *buffer_len),
            Case::Label { file, area } => expected::label(file, *area),
            Case::Labels { file } => expected::labels(file),
            Case::Write {
                site,
                block,
                buffer_len,
            } => expected::write_file(site, block, *buffer_len),
            Case::Mark { marks } => Answer::new(reference::lowest_mark(*marks), vec![]),
            Case::Program { input } => Answer::new(0_u32, reference::transcript(input)),
        }
    }
}
