//! The lines of a run: printed as they come, and at the end written with a text around them to docs/BENCHMARKS.md.

use crate::timing::{Race, PASSES, ROUND, ROUNDS};
use std::fs;
use std::process::Command;

const DOCUMENT: &str = concat!(env!("CARGO_MANIFEST_DIR"), "/../docs/BENCHMARKS.md");

/// The limits on steps, questions, explanations, readings and writings: the library takes at most so many times what
/// ideal takes, and less than so many times what plain takes.
const BY_IDEAL: f64 = 2.0;
const BY_PLAIN: f64 = 0.5;

#[derive(Default)]
pub struct Report {
    lines: Vec<String>,
    /// The lines that do not keep the limit by ideal, and the limit by plain.
    over_ideal: Vec<String>,
    over_plain: Vec<String>,
}

impl Report {
    pub fn say(&mut self, line: String) {
        println!("{line}");
        self.lines.push(line);
    }

    /// The line of a race; and where it does not keep a limit, that is kept in mind.
    pub fn race(&mut self, race: &Race) {
        let name = &race.name;
        let [library, plain, ideal] = race.times();
        let (by_plain, by_ideal) = (library / plain, library / ideal);
        let mut line = format!(
            "bench {name}: library {library:.2} us, plain {plain:.2} us, ideal {ideal:.2} us, \
             ratio {by_plain:.2}, {by_ideal:.2}"
        );
        for (other, time) in race.others() {
            let ratio = library / time;
            line += &format!("; {other} {time:.2} us, ratio {ratio:.2}");
        }
        self.say(line);
        if race.limited && by_ideal > BY_IDEAL {
            self.over_ideal.push(format!("{name} ({by_ideal:.2})"));
        }
        if race.limited && by_plain >= BY_PLAIN {
            self.over_plain.push(format!("{name} ({by_plain:.2})"));
        }
    }

    /// The lines on the limits.
    pub fn limits(&mut self) {
        let [by_ideal, by_plain] = [&self.over_ideal, &self.over_plain].map(|over| match over.join("; ") {
            none if none.is_empty() => "held".to_string(),
            over => format!("not held by {over}"),
        });
        let lines = "on every line of step, access, explain, read and write";
        self.say(format!(
            "bench limits: library at most {BY_IDEAL:.2} ideal {lines}: {by_ideal}"
        ));
        self.say(format!(
            "bench limits: library below {BY_PLAIN:.2} plain {lines}: {by_plain}"
        ));
    }

    pub fn write(&self) {
        let text = format!(
            include_str!("benchmarks.md"),
            date = printed("date", &["-u", "+%Y-%m-%d"]),
            machine = machine(),
            compiler = printed("rustc", &["--version"]),
            passes = PASSES,
            rounds = ROUNDS,
            round = ROUND.as_millis(),
            by_ideal = BY_IDEAL,
            by_plain = BY_PLAIN,
            lines = self.lines.join("\n")
        );
        fs::write(DOCUMENT, text).expect("docs/BENCHMARKS.md can be written");
    }
}

/// What a command prints, without the end of its line.
fn printed(command: &str, arguments: &[&str]) -> String {
    let output = Command::new(command)
        .args(arguments)
        .output()
        .expect("the command runs");
    String::from_utf8(output.stdout)
        .expect("it prints text")
        .trim_end()
        .to_string()
}

/// The processor's name, and the number of its cores.
fn machine() -> String {
    let text = fs::read_to_string("/proc/cpuinfo").expect("the system tells of its processors");
    let names: Vec<&str> = text
        .lines()
        .filter(|line| line.starts_with("model name"))
        .filter_map(|line| line.split(": ").nth(1))
        .collect();
    let name = names.first().copied().unwrap_or("a processor without a name");
    format!("{name}, {} cores", names.len())
}
