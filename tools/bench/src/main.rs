//! Times the built library against the other implementation: against its linear algorithm, which tests the counts of
//! each pair once for both typings, and against its naive rounds, in one process, on the same inputs. Each does both
//! typings for one desk, from words to grids, refusals tested. Most sheets have an aim, at most how many times the
//! linear algorithm's time the library should take; whether it is reached is told, and doesn't matter to the exit code.
//! Then the library's judge is timed against its largest typing, and its tidying of bookings against its reading.
//!
//! | module    | what                                              |
//! |-----------|---------------------------------------------------|
//! | `inputs`  | the sheets that are timed                         |
//! | `library` | the library's call, through the Rust wrapper      |
//! | `judging` | the library's judge against its largest typing    |
//! | `tidying` | the library's tidying of bookings                 |
//! | `runs`    | warm-up, many runs by turns, the medians          |

mod inputs;
mod judging;
mod library;
mod runs;
mod tidying;

use inputs::Input;
use library::{Buffers, DESK};
use prep_tools::typing::{self, Both};
use std::process::ExitCode;

fn main() -> ExitCode {
    let inputs = match inputs::first() {
        Ok(inputs) => inputs,
        Err(error) => {
            eprintln!("prep-bench: {error}");
            return ExitCode::from(2);
        }
    };
    let further = inputs::further();
    print_head();
    // All sheets are timed, whether or not one before differs.
    let timed = inputs.iter().chain(&further);
    let differ = timed.filter(|input| !time(input)).count();
    println!();
    if inputs.iter().any(|input| !input.naive) {
        println!(
            "skipped: naive rounds look at every pair left in each round, some 537 million pairs on that sheet."
        );
    }
    println!();
    let kept = inputs::kept();
    let refused = time_judging(inputs.iter().chain(&kept).chain(&further));
    println!();
    let untidy = time_tidying();
    println!();
    conclude(&[
        (refused, "A largest typing is not accepted."),
        (untidy, "A tidied list differs."),
        (differ, "Answers or grids differ."),
    ])
}

/// Tells what went wrong; each fault comes with how often it happened.
fn conclude(faults: &[(usize, &str)]) -> ExitCode {
    let happened: Vec<&str> = faults
        .iter()
        .filter(|fault| fault.0 > 0)
        .map(|fault| fault.1)
        .collect();
    if happened.is_empty() {
        println!("All answers, grids and lists agree.");
        return ExitCode::SUCCESS;
    }
    println!("{}", happened.join("\n"));
    ExitCode::FAILURE
}

/// Times the judge on these sheets; how many of their largest typings it did not accept.
fn time_judging<'a>(inputs: impl Iterator<Item = &'a Input>) -> usize {
    judging::print_head();
    inputs.filter(|input| !judging::time(input)).count()
}

/// Times the tidying pass; how many lists it did not tidy as owed.
fn time_tidying() -> usize {
    tidying::print_head();
    let lists = inputs::listed();
    lists.iter().filter(|listed| !tidying::time(listed)).count()
}

/// What the columns are.
fn print_head() {
    println!("Both typings from words to grids, in ms: the median of many runs after a warm-up. The library's grids");
    println!("are its caller's and aren't cleared before a call; the other implementation makes new ones each time.");
    println!("The library and the linear algorithm take turns. The aim is for library/linear.");
    if cfg!(debug_assertions) {
        println!("This isn't a release build (`--release`), so the numbers mean little.");
    }
    println!();
    println!(
        "{:34} {:>10} {:>10} {:>12} {:>14} {:>14} {:>12} {:>8}",
        "sheet", "library", "linear", "naive", "naive/library", "library/linear", "aim", "reached"
    );
}

/// Times one sheet, prints its line, and tells whether all answers and grids agree.
fn time(input: &Input) -> bool {
    let files = &input.files;
    let desk = DESK.number();
    let ours = || typing::both(&files.template, &files.script, &files.bookings, desk);
    let naive = || typing::both_by_rounds(&files.template, &files.script, &files.bookings, desk);
    let Ok(expected) = ours() else {
        println!("{:34} is refused", input.name);
        return false;
    };
    let mut buffers = Buffers::new(expected.largest.1.len());
    let mut agree = library_agrees(&expected, input, &mut buffers);
    let [library, linear] = runs::medians(|| library::both(files, &mut buffers), ours);
    let naive = input.naive.then(|| {
        agree &= naive().as_ref() == Ok(&expected);
        runs::median(naive)
    });
    let ratio = library / linear;
    println!(
        "{:34} {library:>10.4} {linear:>10.4} {:>12} {:>14} {ratio:>14.2} {:>12} {:>8}{}",
        input.name,
        naive.map_or("skipped".to_string(), |time| format!("{time:.4}")),
        naive.map_or("-".to_string(), |time| format!("{:.2}", time / library)),
        input.aim.map_or("-".to_string(), |aim| format!("at most {aim}")),
        input
            .aim
            .map_or("-", |aim| if ratio <= aim { "yes" } else { "no" }),
        if agree { "" } else { "  DIFFERS" }
    );
    agree
}

/// Whether the library's answer and grids are those of the other implementation.
fn library_agrees(expected: &Both, input: &Input, buffers: &mut Buffers) -> bool {
    library::both(&input.files, buffers) == library::owed(expected)
        && buffers.large == expected.largest.1
        && buffers.small == expected.smallest.1
}
