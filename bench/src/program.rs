//! The program PanelRights, run as anyone runs it, and timed beside a session in plain Rust.

use crate::report::Report;
use crate::sessions;
use std::io::Write;
use std::process::{Command, Stdio};
use std::time::Instant;

const PROGRAM: &str = concat!(env!("CARGO_MANIFEST_DIR"), "/../target/bin/panelrights");
const ROUNDS: usize = 5;

/// What it prints for the input.
fn run(input: &str) -> String {
    let mut program = Command::new(PROGRAM)
        .stdin(Stdio::piped())
        .stdout(Stdio::piped())
        .spawn()
        .expect("target/bin/panelrights, which `make bench` builds");
    let mut stdin = program.stdin.take().expect("a pipe");
    stdin.write_all(input.as_bytes()).expect("the program reads its input");
    drop(stdin);
    let output = program.wait_with_output().expect("the program ends");
    assert!(output.status.success(), "the program fails");
    String::from_utf8(output.stdout).expect("it prints text")
}

/// The program from start to end, beside a session in plain Rust: the least time of each, in milliseconds.
pub fn sessions(report: &mut Report) {
    let cases = [
        ("accepted", sessions::accepted(), " 0"),
        ("dense", sessions::dense(), " 0"),
        ("empty lines", sessions::empty_lines(), " 13"),
    ];
    for (name, input, result) in cases {
        let lines = input.split_terminator('\n').count();
        let mut least = [f64::INFINITY; 2];
        for _ in 0..ROUNDS {
            let began = Instant::now();
            let printed = run(&input);
            least[0] = least[0].min(began.elapsed().as_secs_f64() * 1e3);
            let began = Instant::now();
            let expected = sessions::transcript(&input);
            least[1] = least[1].min(began.elapsed().as_secs_f64() * 1e3);
            assert!(printed == expected, "{name}: the program prints something else");
            assert!(
                printed.lines().take(lines).all(|line| line.ends_with(result)),
                "{name}: a line has another result"
            );
        }
        let [program, plain] = least;
        let ratio = program / plain;
        report.say(format!(
            "bench panelrights {name} ({lines} lines): program {program:.1} ms, plain {plain:.1} ms, ratio {ratio:.2}"
        ));
    }
}
