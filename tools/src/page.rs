//! Runs the examples of a page, such as docs/FORMAT.md, and compares what the page says with what this implementation
//! answers and, where a sheet printer is given, with what that prints.
//!
//! | module      | what                                                                        |
//! |-------------|-----------------------------------------------------------------------------|
//! | `markdown`  | the tables and the blocks of a page, with their lines                       |
//! | `cells`     | a cell's words, names and grids                                             |
//! | `examples`  | which tables are examples, and what each row asks                           |
//! | `texts`     | what tables ask by names about a text above them                            |
//! | `answers`   | what this implementation answers                                            |
//! | `printed`   | which input shows a printer the same question, and what its text then says  |

pub mod answers;
pub mod cells;
pub mod examples;
pub mod markdown;
pub mod printed;
pub mod texts;

use crate::compare;
use examples::Example;
use std::io::{self, Write};

/// What came out of a page's examples.
#[derive(Clone, Copy, PartialEq, Eq, Debug, Default)]
pub struct Outcome {
    /// Examples run.
    pub checked: usize,
    /// Those of them that were shown to the printer too.
    pub shown: usize,
    /// Those of them for which the page is wrong, or the printer.
    pub differ: usize,
}

/// The command: runs a page with the options `--printer PROGRAM` or none, and tells whether all is right.
pub fn run(name: &str, page: &str, options: &[&str]) -> Result<bool, String> {
    let printer = match options {
        [] => None,
        ["--printer", program] => Some(*program),
        _ => return Err("after the page only `--printer PROGRAM` is known".to_string()),
    };
    let outcome = check(name, page, printer, &mut io::stdout())?;
    Ok(outcome.differ == 0)
}

/// Runs every example of a page. Each difference is told with a line that starts with the page's name and line.
pub fn check(name: &str, page: &str, printer: Option<&str>, tell: &mut dyn Write) -> Result<Outcome, String> {
    let examples = examples::read(page).map_err(|error| format!("{name}:{error}"))?;
    if examples.is_empty() {
        return Err(format!("{name}: the page has no examples"));
    }
    let mut outcome = Outcome::default();
    let mut say = |text: String| writeln!(tell, "{text}").map_err(|error| error.to_string());
    for example in &examples {
        outcome.checked += 1;
        let (faults, shown) =
            faults(example, printer).map_err(|error| format!("{name}:{}: {error}", example.line))?;
        outcome.shown += usize::from(shown);
        outcome.differ += usize::from(!faults.is_empty());
        for fault in faults {
            say(format!("{name}:{}: {fault}", example.line))?;
        }
    }
    if printer.is_some() {
        say(format!("{} examples shown to the printer", outcome.shown))?;
    }
    say(format!(
        "{} examples checked, {} differ",
        outcome.checked, outcome.differ
    ))?;
    Ok(outcome)
}

/// What is wrong with an example, and whether it was shown to the printer.
fn faults(example: &Example, printer: Option<&str>) -> Result<(Vec<String>, bool), String> {
    let page = &example.answer;
    let ours = answers::answer(&example.question)?;
    let mut faults = Vec::new();
    if ours != *page {
        faults.push(format!("the page says `{page}`, the tools say `{ours}`"));
    }
    if let Some(number) = &example.number {
        if answers::number(page).as_ref() != Some(number) {
            faults.push(format!("the row is about {number}, its answer is `{page}`"));
        }
    }
    let show = printer.and_then(|program| Some((program, printed::input(&example.question)?)));
    let Some((program, input)) = show else {
        return Ok((faults, false));
    };
    let text = compare::run(program, &input)?;
    let text = String::from_utf8_lossy(&text);
    let (wanted, said) = (
        printed::wanted(&example.question, page),
        printed::said(&example.question, &text),
    );
    if wanted != said {
        faults.push(format!("the page says `{wanted}`, the printer says `{said}`"));
    }
    Ok((faults, true))
}
