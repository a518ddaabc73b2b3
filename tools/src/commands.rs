//! The commands: how each is called, and which one is.
//!
//! | here      | what                                                               |
//! |-----------|--------------------------------------------------------------------|
//! | `sheets`  | commands that take a sheet                                         |
//! | `explain` | what is wrong with a sheet, and what a printed refusal means there |
//! | `cases`   | commands that make, run and compare cases                          |

mod cases;
mod explain;
mod sheets;

use crate::files::show;
use crate::usage::{self, perhaps, Command, Failure, Given, Outcome, Switch};
use prep_tools::text::json::Json;
use prep_tools::text::machine;

/// The option for machines.
const JSON: Switch = Switch {
    name: "--json",
    value: None,
    about: "write the outcome as JSON; docs/JSON.md tells the fields",
};

/// All commands.
const COMMANDS: &[Command] = &[
    Command {
        name: "check",
        forms: &[&["FILE"]],
        options: &[JSON],
        about: "run a sheet and tell the outcome, or the faults, in words",
        more: "Each desk's bookings are told apart. Of the faults of a text the first 20 are told.\n\
               Exit code: 0 if the bookings of both desks are met, 1 if not, 2 if the file isn't a sheet.",
        run: sheets::check,
    },
    Command {
        name: "draw",
        forms: &[&["FILE", "OUT.svg"]],
        options: &[
            Switch {
                name: "--booked",
                value: None,
                about: "only what a booking touches",
            },
            Switch {
                name: "--around",
                value: Some("CARD"),
                about: "only a card, by name or number, and what is linked with it",
            },
            Switch {
                name: "--steps",
                value: Some("N"),
                about: "how many links away from CARD, 1 if it isn't given",
            },
        ],
        about: "draw a sheet and its typings",
        more: "A sheet that takes several pages is written as OUT-1.svg, OUT-2.svg and so on.",
        run: sheets::draw,
    },
    Command {
        name: "explain",
        forms: &[
            &["FILE"],
            &["NUMBER", "PLACE", "FILE"],
            &["50", "CARD", "SHAPE", "FILE"],
            &["62", "CARD", "SHAPE", "FILE"],
        ],
        options: &[JSON],
        about: "say what is wrong with a sheet, or what a refusal means for it",
        more: "With FILE alone the exit code is 1 if something is wrong. NUMBER and PLACE are those of a refusal\n\
               that some program printed for the sheet; the places of 50 and 62 are a card and a shape. The place\n\
               of 61 is a byte of a grid. If no operation refuses the sheet so, that is told, and the exit code is 1.",
        run: explain::explain,
    },
    Command {
        name: "judge",
        forms: &[&["FILE", "GRID"], &["FILE", "GRID", "DESK"]],
        options: &[JSON],
        about: "judge a typing of a sheet that some program made",
        more: "GRID is a file with the typing's bytes: for each card, for each shape, 1 if the card has it, else 0.\n\
               DESK, 0 or radio, 1 or television, is whose bookings it has to hold; without it that is the radio.\n\
               Exit code: 0 if it is a sound typing that holds them, 1 if it isn't, 2 if FILE isn't a sheet.",
        run: sheets::judge,
    },
    Command {
        name: "grid",
        forms: &[&["FILE", "TYPING", "OUT"], &["FILE", "TYPING", "OUT", "DESK"]],
        options: &[],
        about: "write a typing of a sheet as a grid",
        more: "TYPING is largest or smallest. DESK, 0 or radio, 1 or television, is whose smallest it is; without it\n\
               that is the radio's. If that desk's bookings can't be met, nothing is written; the exit code is 1.",
        run: sheets::grid,
    },
    Command {
        name: "judged",
        forms: &[&["FILE", "GRID", "DESK", "OUT"]],
        options: &[],
        about: "write the grid judge's input: a sheet, a desk and a grid",
        more: "GRID is a file with a typing's bytes, as grid writes it. DESK is 0 or radio, 1 or television.",
        run: sheets::judged,
    },
    Command {
        name: "stored",
        forms: &[&["FILE", "OUT"]],
        options: &[],
        about: "write the list tidier's input: a sheet whose bookings are a stored list",
        more: "The list has the bookings of both desks in their order, without their desks. So a pair that both book\n\
               stands in it twice.",
        run: sheets::stored,
    },
    Command {
        name: "words",
        forms: &[&["FILE", "OUT"]],
        options: &[],
        about: "text to words",
        more: "Nothing is written for a text that is refused. Bookings that can't be met are no refusal of the text.",
        run: sheets::words,
    },
    Command {
        name: "text",
        forms: &[&["FILE"]],
        options: &[],
        about: "words to text",
        more: "Kinds, shapes and cards of words are named by their numbers. A text is written out evenly:\n\
               names and titles stay, comments go, links are put in order.",
        run: sheets::text,
    },
    Command {
        name: "tidy",
        forms: &[&["FILE", "OUT"]],
        options: &[JSON],
        about: "drop the bookings that repeat an earlier one; give those of a stored list a desk",
        more: "In words the bookings have to be a stored list, two words for each; those that are kept are written\n\
               as bookings of desk 0, the radio. A text stays as it is, but for the lines of the bookings that\n\
               repeat one of the same desk; a comment on such a line stays. How many go is told on standard error.\n\
               OUT may be FILE. Nothing is written for a sheet that is refused for another fault.",
        run: sheets::tidy,
    },
    Command {
        name: "print",
        forms: &[&["FILE"]],
        options: &[],
        about: "print the sheet",
        more: "What is printed is what the sheet printer owes for the same words.",
        run: sheets::print,
    },
    Command {
        name: "fit",
        forms: &[&[]],
        options: &[],
        about: "answer lines `T w w ... | shape | c c c` from standard input, by intervals",
        more: "The words after T are those of a template. The counts are those of the links that start at a card,\n\
               kind by kind, and then those of the links that arrive there.",
        run: cases::fit,
    },
    Command {
        name: "samples",
        forms: &[&[]],
        options: &[],
        about: "print P1 to P12, each answer computed both ways",
        more: "",
        run: cases::samples,
    },
    Command {
        name: "cases",
        forms: &[&["IN", "OUT"], &["IN", "OUT", "SEED", "COUNT"]],
        options: &[],
        about: "write what operations are asked, and what is owed for it",
        more: "These are the stored cases, for all who implement the format; docs/FORMAT.md tells their form.\n\
               With SEED and COUNT they are COUNT cases of each operation that has random ones: fixed ones first,\n\
               then random ones, of which long ones are left out.",
        run: cases::cases,
    },
    Command {
        name: "program-cases",
        forms: &[&["IN", "OUT"]],
        options: &[],
        about: "write inputs of the grid judge and of the list tidier, and what is owed for them",
        more: "These are the stored cases of the two programs, in the form of the others: the tag is 8 or 9, and the\n\
               one section is the input. What the list tidier writes is told as numbers, after a colon.",
        run: cases::program_cases,
    },
    Command {
        name: "desk-pairs",
        forms: &[&["OUT", "SEED", "COUNT"]],
        options: &[],
        about: "write COUNT pairs of sheets on which one desk books the same",
        more: "The sheets stand one after the other, as cases of the sheet printer. Both of a pair have the same\n\
               template and script, and the same bookings of one desk: desk 0 in the first pair, 1 in the second,\n\
               and so in turn. So that desk's smallest typing is the same on both.",
        run: cases::desk_pairs,
    },
    Command {
        name: "compare",
        forms: &[&["PROGRAM", "SEED", "COUNT"]],
        options: &[Switch {
            name: "--alike",
            value: None,
            about: "only random sheets on which many cards are alike or nearly so",
        }],
        about: "run PROGRAM on COUNT inputs and compare its text with ours",
        more: "The exit code is 1 if texts differ.",
        run: cases::compare,
    },
    Command {
        name: "page",
        forms: &[&["FILE.md"]],
        options: &[Switch {
            name: "--printer",
            value: Some("PROGRAM"),
            about: "put the examples to a sheet printer too",
        }],
        about: "run every example of a page such as docs/FORMAT.md",
        more: "The exit code is 1 if an answer differs from the page.",
        run: cases::page,
    },
    Command {
        name: "input",
        forms: &[&["NAME"]],
        options: &[],
        about: "write one of the printer's inputs that have names, such as limits or chain-1024",
        more: "",
        run: cases::input,
    },
    Command {
        name: "longest",
        forms: &[&["CARDS", "SHAPES"]],
        options: &[Switch {
            name: "--back",
            value: None,
            about: "strike against the links; all cards keep one shape more",
        }],
        about: "write an input on which each round strikes one pair until none is left",
        more: "CARDS and SHAPES must have no common factor.",
        run: cases::longest,
    },
];

/// Does what the words ask for.
pub fn run(words: &[&str]) -> Result<Outcome, String> {
    let (first, rest) = match words {
        [] => return Err(format!("COMMAND is missing\n{}", usage::help(COMMANDS))),
        [first, rest @ ..] => (*first, rest),
    };
    match (first, rest) {
        ("--version" | "-V" | "version", []) => {
            show(concat!("prep-tools ", env!("CARGO_PKG_VERSION"), "\n"))?;
        }
        ("--help" | "-h" | "help", []) => show(usage::help(COMMANDS))?,
        ("--help" | "-h" | "help", [name]) => show(command(name)?.help())?,
        _ => {
            let command = command(first)?;
            if !rest.iter().any(|word| ["--help", "-h"].contains(word)) {
                return obey(command, &command.read(rest)?);
            }
            show(command.help())?;
        }
    }
    Ok(Outcome::Fine)
}

/// The command with this name.
fn command(name: &str) -> Result<&'static Command, String> {
    let found = COMMANDS.iter().find(|command| command.name == name);
    found.ok_or_else(|| {
        let hint = perhaps(name, COMMANDS.iter().map(|command| command.name));
        format!("no command is named {name}{hint}; prep-tools --help names them all")
    })
}

/// A call of the command with this name is wrong.
fn wrong(name: &str, what: &str) -> Failure {
    Failure::Words(command(name).map_or_else(|error| error, |command| command.wrong(what)))
}

/// Does what a command does with what is given. If a file isn't a sheet, that is told as JSON if it is asked for.
fn obey(command: &Command, given: &Given) -> Result<Outcome, String> {
    (command.run)(given).or_else(|failure| match failure {
        Failure::Words(words) => Err(words),
        Failure::Trouble(trouble) if given.has(JSON.name) => {
            tell_json(machine::trouble(&trouble))?;
            Ok(Outcome::Failed)
        }
        Failure::Trouble(trouble) => Err(trouble.to_string()),
    })
}

/// Writes JSON on a line of its own.
fn tell_json(json: Json) -> Result<(), String> {
    show(format!("{json}\n"))
}

/// What a script should notice.
fn noticed(something: bool) -> Outcome {
    if something {
        Outcome::Noticed
    } else {
        Outcome::Fine
    }
}
