//! The command line of the tools.

mod commands;
mod files;
mod usage;

use std::process::ExitCode;
use usage::Outcome;

fn main() -> ExitCode {
    let arguments: Result<Vec<String>, _> = std::env::args_os()
        .skip(1)
        .map(|argument| argument.into_string())
        .collect();
    let outcome = match &arguments {
        Ok(words) => commands::run(&words.iter().map(String::as_str).collect::<Vec<_>>()),
        Err(argument) => Err(format!("the argument {argument:?} isn't Unicode")),
    };
    match outcome {
        Ok(Outcome::Fine) => ExitCode::SUCCESS,
        Ok(Outcome::Noticed) => ExitCode::FAILURE,
        Ok(Outcome::Failed) => ExitCode::from(2),
        Err(error) => {
            eprintln!("prep-tools: {error}");
            ExitCode::from(2)
        }
    }
}
