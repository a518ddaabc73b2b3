//! Runs another sheet printer on random inputs and compares what it writes with our text.

use crate::generate::Case;
use crate::sheet;
use std::io::Write;
use std::path::PathBuf;
use std::process::{Command, Output, Stdio};
use std::{env, fs, process, thread};

/// How many inputs were compared, and for how many the texts differ.
#[derive(Clone, Copy, PartialEq, Eq, Debug)]
pub struct Outcome {
    /// Inputs compared.
    pub compared: usize,
    /// Inputs for which the texts differ.
    pub differ: usize,
}

/// Runs the program on these inputs, which were made with this seed. Each difference is told with a line; its input is
/// kept. Words after the first in `program` are its arguments.
pub fn compare(
    program: &str,
    seed: u64,
    cases: impl Iterator<Item = Case>,
    tell: &mut dyn Write,
) -> Result<Outcome, String> {
    let mut outcome = Outcome {
        compared: 0,
        differ: 0,
    };
    for (number, case) in cases.enumerate() {
        let ours = sheet::print(&case.bytes);
        let theirs = run(program, &case.bytes)?;
        outcome.compared += 1;
        if theirs != ours.as_bytes() {
            outcome.differ += 1;
            let path = keep(&case, seed, number)?;
            let report = format!(
                "{}: {}\n  {}",
                path.display(),
                case.name,
                difference(&ours, &String::from_utf8_lossy(&theirs))
            );
            writeln!(tell, "{report}").map_err(|error| format!("the report can't be written: {error}"))?;
        }
    }
    writeln!(tell, "{} compared, {} differ", outcome.compared, outcome.differ)
        .map_err(|error| format!("the report can't be written: {error}"))?;
    Ok(outcome)
}

/// What the program writes for this input. Words after the first in `program` are its arguments.
pub fn run(program: &str, input: &[u8]) -> Result<Vec<u8>, String> {
    let mut words = program.split_whitespace();
    let name = words.next().ok_or("no program is named")?;
    let mut child = Command::new(name)
        .args(words)
        .stdin(Stdio::piped())
        .stdout(Stdio::piped())
        .spawn()
        .map_err(|error| format!("the program {name} can't be started: {error}"))?;
    let stdin = child.stdin.take();
    thread::scope(|scope| {
        // The program may answer before it has read everything, so a write that fails is no fault.
        scope.spawn(move || stdin.map(|mut pipe| pipe.write_all(input)));
        let output = child.wait_with_output();
        output
            .map(written)
            .map_err(|error| format!("{name} can't be waited for: {error}"))
    })
}

/// What a program wrote. If it ended badly, a line that no sheet has says how, so that its text differs.
fn written(output: Output) -> Vec<u8> {
    let mut text = output.stdout;
    if !output.status.success() {
        text.extend(format!("{}\n", output.status).into_bytes());
    }
    text
}

/// Keeps an input in a file of the folder for temporary files.
fn keep(case: &Case, seed: u64, number: usize) -> Result<PathBuf, String> {
    let name = format!("prep-tools-{}-{seed}-{number}-{}", process::id(), case.name);
    let path = env::temp_dir().join(name);
    fs::write(&path, &case.bytes)
        .map_err(|error| format!("the file {} can't be written: {error}", path.display()))?;
    Ok(path)
}

/// The first line at which two texts differ.
fn difference(ours: &str, theirs: &str) -> String {
    let mut line = 1;
    let (mut our_lines, mut their_lines) = (ours.split('\n'), theirs.split('\n'));
    loop {
        match (our_lines.next(), their_lines.next()) {
            (None, None) => return "no line differs".to_string(),
            (our, their) if our != their => {
                let text =
                    |side: Option<&str>| side.map_or("no line".to_string(), |text| format!("{text:?}"));
                return format!("line {line}: ours is {}, theirs is {}", text(our), text(their));
            }
            _ => line += 1,
        }
    }
}
