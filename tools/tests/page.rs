//! The page of the formats: every example on it is right, and a page that is wrong is noticed.

use prep_tools::page::examples::{self, Example, Operation};
use prep_tools::page::{self, answers, Outcome};
use prep_tools::samples;
use std::collections::BTreeSet;
use std::env;
use std::fs;
use std::process::{self, Command, Output};

const PROGRAM: &str = env!("CARGO_BIN_EXE_prep-tools");
const PAGE: &str = concat!(env!("CARGO_MANIFEST_DIR"), "/../docs/FORMAT.md");

fn the_page() -> String {
    fs::read_to_string(PAGE).expect("the page can be read")
}

/// What comes out of a page, and what is told.
fn checked(page: &str) -> (Result<Outcome, String>, String) {
    let mut told = Vec::new();
    let outcome = page::check("page", page, None, &mut told);
    (outcome, String::from_utf8_lossy(&told).into_owned())
}

fn run(words: &[&str]) -> (Output, String) {
    let output = Command::new(PROGRAM)
        .args(words)
        .output()
        .expect("the program starts");
    let text = String::from_utf8_lossy(&output.stdout).into_owned();
    (output, text)
}

#[test]
fn every_example_of_the_page_is_right() {
    let (outcome, told) = checked(&the_page());
    let outcome = outcome.expect("the page can be read");
    assert_eq!(outcome.differ, 0, "{told}");
    assert!(outcome.checked >= 200, "{told}");
}

#[test]
fn the_page_has_an_example_of_every_refusal() {
    let examples = examples::read(&the_page()).expect("the page can be read");
    let shown: BTreeSet<String> = examples
        .iter()
        .filter_map(|example| answers::number(&example.answer))
        .collect();
    let listed = (1..=12)
        .chain(20..=25)
        .chain(30..=33)
        .chain(40..=43)
        .chain([50])
        .chain(60..=66);
    assert_eq!(shown, listed.map(|number: u16| number.to_string()).collect());
}

#[test]
fn the_page_shows_links_that_arrive_and_open_shapes() {
    let examples = examples::read(&the_page()).expect("the page can be read");
    for word in [320, 18] {
        let with_word = examples
            .iter()
            .filter(|example| example.question.template.contains(&word));
        let shown: Vec<Operation> = with_word.map(|example| example.question.operation).collect();
        for operation in [
            Operation::Template,
            Operation::Fit,
            Operation::Sheet,
            Operation::Closure,
            Operation::Met,
            Operation::Judge,
        ] {
            assert!(shown.contains(&operation), "{word}: {operation:?}");
        }
    }
}

#[test]
fn a_printer_is_shown_counts_both_ways() {
    let head = "| template | shape | counts | answer |\n|---|---|---|---|\n";
    for (row, wrong) in [
        ("| `1 1 4 320 0 1 2` | 0 | `0 2` | `yes` |\n", 0),
        ("| `1 1 4 320 0 1 2` | 0 | `0 3` | `no` |\n", 0),
        ("| `1 1 4 320 0 1 2` | 0 | `1 2` | `no` |\n", 0),
        ("| `2 1 4 320 0 1 2` | 0 | `0 0 2 9` | `yes` |\n", 0),
        ("| `64 1 1 0` | 0 | `0*64 1*64` | `yes` |\n", 0),
        ("| `2 1 5 18 320 0 1 2` | 0 | `3 4 2 9` | `yes` |\n", 0),
        ("| `2 1 5 18 256 0 1 2` | 0 | `3 4 2 9` | `no` |\n", 0),
        ("| `2 1 5 18 256 0 1 2` | 0 | `3 4 0 0` | `yes` |\n", 1),
        ("| `1 1 4 320 0 1 2` | 0 | `0 3` | `yes` |\n", 1),
    ] {
        let mut told = Vec::new();
        let printer = format!("{PROGRAM} print -");
        let outcome = page::check("page", &format!("{head}{row}"), Some(&printer), &mut told);
        let outcome = outcome.expect("the page can be read");
        assert_eq!((outcome.shown, outcome.differ), (1, wrong), "{row}");
        let told = String::from_utf8_lossy(&told);
        assert_eq!(told.contains("the printer says `no`"), wrong == 1, "{told}");
    }
}

#[test]
fn the_page_has_the_count_samples_and_no_others() {
    let examples = examples::read(&the_page()).expect("the page can be read");
    let on_the_page: Vec<_> = examples
        .into_iter()
        .filter_map(|example| {
            let question = example.question;
            Some((
                example.sample?,
                question.template,
                question.counts,
                example.answer,
            ))
        })
        .collect();
    let table = samples::table().into_iter().map(|sample| {
        let answer = if sample.fits { "yes" } else { "no" };
        (
            sample.label.to_string(),
            sample.template(),
            sample.counts.to_vec(),
            answer.to_string(),
        )
    });
    assert_eq!(on_the_page, table.collect::<Vec<_>>());
}

#[test]
fn the_command_shows_the_page_to_a_printer() {
    let (output, text) = run(&["page", PAGE, "--printer", &format!("{PROGRAM} print -")]);
    assert!(output.status.success(), "{text}");
    assert!(text.ends_with(" examples checked, 0 differ\n"), "{text}");
    let shown = text.lines().next().and_then(|line| line.split(' ').next());
    let shown: usize = shown
        .and_then(|word| word.parse().ok())
        .expect("a number is told");
    assert!(shown >= 130, "{text}");
}

#[test]
fn an_option_that_is_not_known_is_an_error() {
    let (output, text) = run(&["page", PAGE, "--printer"]);
    assert_eq!((output.status.code(), text.as_str()), (Some(2), ""));
}

#[test]
fn a_printer_that_prints_something_else_is_noticed() {
    let (output, text) = run(&["page", PAGE, "--printer", &format!("{PROGRAM} samples")]);
    assert_eq!(output.status.code(), Some(1));
    assert!(
        text.contains("the printer says `P1 nothing: 0,0,0,0 yes"),
        "{text}"
    );
}

#[test]
fn a_page_with_the_wrong_order_is_noticed() {
    let head = "| number | template | script | answer |\n|---|---|---|---|\n";
    for (row, wrong) in [
        ("| 21 | `1 1 1 0` | `1025 0 7` | `refused 21 0` |\n", 0),
        ("| 20 | `1 1 1 0` | `1025 0 7` | `refused 20 0` |\n", 1),
        ("| 20 | `1 1 1 0` | `1025 0 7` | `refused 21 0` |\n", 1),
        ("| 22 | `1 1 1 0` | `0 9000` | `refused 22 1` |\n", 0),
        ("| 20 | `1 1 1 0` | `0 9000` | `refused 20 0` |\n", 1),
    ] {
        let (outcome, told) = checked(&format!("{head}{row}"));
        let outcome = outcome.expect("the page can be read");
        assert_eq!((outcome.checked, outcome.differ), (1, wrong), "{row}{told}");
        assert_eq!(told.contains("page:3: "), wrong == 1, "{told}");
    }
}

#[test]
fn a_page_that_judges_a_grid_wrongly_is_noticed() {
    let head = "| number | template | script | bookings | grid | answer |\n|---|---|---|---|---|---|\n";
    let row = |grid: &str, number: u16, answer: &str| {
        format!("| {number} | `1 1 1 0` | `12 1 3 0 4` | `1 0 3 0` | `{grid}` | `{answer}` |\n")
    };
    for (row, wrong) in [
        (row("1*12", 62, "refused 62 3 0"), 0),
        (row("1*12", 62, "refused 62 3"), 1),
        (row("1*12", 63, "refused 62 3 0"), 1),
        (row("1*11 255", 61, "refused 61 11"), 0),
        (row("0*12", 63, "refused 63 2"), 0),
        (row("-", 40, "refused 40 0"), 0),
        (row("0*12", 63, "accepted"), 1),
    ] {
        let (outcome, told) = checked(&format!("{head}{row}"));
        let outcome = outcome.expect("the page can be read");
        assert_eq!((outcome.checked, outcome.differ), (1, wrong), "{row}{told}");
    }
}

#[test]
fn a_column_for_the_desk_asks_for_it_and_a_printer_shows_it() {
    let head = "| template | script | bookings | desk | bytes | answer |\n|---|---|---|---|---|---|\n";
    let row = |desk: u16, bytes: usize, answer: &str| {
        format!("{head}| `1 1 1 0` | `2 1 0 0 1` | `2 1 1 0 0 0 0` | {desk} | {bytes} | `{answer}` |\n")
    };
    let printer = format!("{PROGRAM} print -");
    for (page, shown, wrong) in [
        (row(0, 2, "smallest no 0 0"), 1, 0),
        (row(1, 2, "smallest 1 / card 0: / card 1: 0"), 1, 0),
        (row(1, 2, "smallest no 0 0"), 1, 1),
        (row(2, 1, "refused 66 0"), 0, 0),
        (row(1, 1, "refused 40 0"), 0, 0),
    ] {
        let mut told = Vec::new();
        let outcome = page::check("page", &page, Some(&printer), &mut told).expect("the page can be read");
        let told = String::from_utf8_lossy(&told);
        assert_eq!((outcome.shown, outcome.differ), (shown, wrong), "{told}");
    }
    // Read a script asks for no desk.
    let page =
        "| template | script | desk | answer |\n|---|---|---|---|\n| `1` | `1` | 0 | `refused 1 0` |\n";
    let error = "page:3: nothing is asked by the columns \"template script desk\"";
    assert_eq!(checked(page).0, Err(error.to_string()));
    // Without the column it is desk 0.
    let head = "| template | script | bookings | grid | answer |\n|---|---|---|---|---|\n";
    let row = "| `1 1 1 0` | `2 0` | `2 1 0 0 0 1 0` | `0 0` | `refused 63 5` |\n";
    let (outcome, told) = checked(&format!("{head}{row}"));
    assert_eq!(outcome.map(|outcome| outcome.differ), Ok(0), "{told}");
}

#[test]
fn a_page_that_tidies_a_list_wrongly_is_noticed() {
    let head = "| number | template | script | bookings | words | answer |\n|---|---|---|---|---|---|\n";
    let row = |bookings: &str, words: usize, answer: &str| {
        let number = answer.split(' ').nth(1).expect("an answer has a number");
        format!("| {number} | `1 1 1 0` | `2 0` | `{bookings}` | {words} | `{answer}` |\n")
    };
    for (row, wrong) in [
        (row("2 1 0 1 0", 6, "refused 40 0"), 0),
        (row("2 1 0 1 0", 5, "refused 40 0"), 0),
        (row("2 1 0 1 0", 7, "refused 65 3"), 1),
        (row("2 1 0 2 0", 5, "refused 32 3"), 0),
        (row("-", 0, "refused 30 0"), 0),
        (row("-", 0, "refused 30 1"), 1),
    ] {
        let (outcome, told) = checked(&format!("{head}{row}"));
        let outcome = outcome.expect("the page can be read");
        assert_eq!((outcome.checked, outcome.differ), (1, wrong), "{row}{told}");
    }
    let head = "| template | script | bookings | words | answer |\n|---|---|---|---|---|\n";
    for (answer, wrong) in [
        ("written 4 : 1 0 1 0 7 7 7", 0),
        ("written 4 : 1 0 1 0 0 1 0", 1),
        ("written 7 : 1 0 1 0 7 7 7", 1),
        ("written 4", 1),
    ] {
        let (outcome, told) = checked(&format!(
            "{head}| `1 1 1 0` | `2 0` | `2 1 0 1 0` | 7 | `{answer}` |\n"
        ));
        let outcome = outcome.expect("the page can be read");
        assert_eq!((outcome.checked, outcome.differ), (1, wrong), "{answer}: {told}");
    }
}

/// A sheet on which the largest typing is `0 0 0 0 0 1`, and a list that is not met, with two sizes of grids.
#[test]
fn a_page_that_says_wrongly_what_50_leaves_is_noticed() {
    let head = "| template | script | bookings | desk | smallest | largest | answer |\n|---|---|---|---|---|---|---|\n";
    let largest = "largest 4 5 2 / card 0: / card 1: / card 2: 1";
    for (sizes, answer, wrong) in [
        ("6 | 6", format!("{largest} / smallest no 0 1"), 0),
        ("6 | 6", "smallest no 0 1".to_string(), 1),
        ("6 | 6", format!("{largest} / smallest no 0 0"), 1),
        ("5 | 6", "refused 40 0".to_string(), 0),
        ("6 | 5", "refused 40 0".to_string(), 0),
    ] {
        let sheet = "`2 2 10 17 2 256 1 1 1 257 0 0 1 1 0` | `3 3 0 0 2 0 1 1 1 0 0` | `1 0 0 0`";
        let page = format!("{head}| {sheet} | 0 | {sizes} | `{answer}` |\n");
        let mut told = Vec::new();
        let printer = format!("{PROGRAM} print -");
        let outcome = page::check("page", &page, Some(&printer), &mut told).expect("the page can be read");
        let shown = usize::from(sizes == "6 | 6");
        assert_eq!((outcome.shown, outcome.differ), (shown, wrong), "{answer}");
    }
    let examples = examples::read(&the_page()).expect("the page can be read");
    let both = examples
        .iter()
        .filter(|one| one.question.operation == Operation::Both);
    let refused = both.filter(|one| one.answer.contains("smallest no "));
    assert!(refused.count() > 0, "the page doesn't show what 50 leaves");
}

#[test]
fn the_page_has_a_file_as_bytes() {
    let stored = concat!(env!("CARGO_MANIFEST_DIR"), "/../crates/sheet_printer/");
    let stored = |name: &str| fs::read(format!("{stored}{name}")).expect("the file is there");
    let examples = examples::read(&the_page()).expect("the page can be read");
    let printed = String::from_utf8_lossy(&stored("stdout"))
        .trim_end()
        .replace('\n', " / ");
    let is_stored = |one: &Example| one.question.input == stored("stdin") && one.answer == printed;
    assert!(examples.iter().any(is_stored));
}

#[test]
fn the_command_tells_the_line_that_is_wrong() {
    let path = env::temp_dir().join(format!("prep-tools-page-{}.md", process::id()));
    let head = "| template | script | bookings | answer |\n|---|---|---|---|\n";
    let wrong = format!("{head}| `1 1 1 0` | `0 0` | `1025` | `refused 30 0` |\n");
    fs::write(&path, wrong).expect("the file can be written");
    let (output, text) = run(&["page", &path.to_string_lossy()]);
    fs::remove_file(&path).expect("the file can be removed");
    assert_eq!(output.status.code(), Some(1));
    let told = "the page says `refused 30 0`, the tools say `refused 31 0`";
    assert_eq!(
        text,
        format!("{}:3: {told}\n1 examples checked, 1 differ\n", path.display())
    );
}

#[test]
fn a_page_that_cannot_be_read_is_an_error_with_its_line() {
    for (page, error) in [
        ("No table.\n", "page: the page has no examples"),
        (
            "| template | answer |\n| `1` | `refused 1 0` |\n",
            "page:1: the table has no rule below its head",
        ),
        (
            "| template | answer |\n|---|---|\n| `1` |\n",
            "page:3: the row has 1 cells under 2 columns",
        ),
        (
            "| template | colour | answer |\n|---|---|---|\n| `1` | red | `refused 1 0` |\n",
            "page:3: no example has a column \"colour\"",
        ),
        (
            "| script | answer |\n|---|---|\n| `1` | `refused 20 0` |\n",
            "page:3: nothing is asked by the columns \"script\"",
        ),
        (
            "| template | answer |\n|---|---|\n| `65536` | `refused 1 0` |\n",
            "page:3: \"65536\" isn't a number that fits, nor a name",
        ),
        (
            "| template | script | bookings | grid | answer |\n|---|---|---|---|---|\n\
             | `1` | `0` | `0` | `256` | `x` |\n",
            "page:3: 256 isn't a byte",
        ),
        ("\n```sheet\ntemplate 1\n", "page:2: the block doesn't end"),
        (
            "\n```sheet\ntemplate 1\n```\n",
            "page:2: the sheet has no line `prints`",
        ),
        (
            "\n```hex\n00 0x\nprints\n```\n",
            "page:2: \"0x\" isn't a byte in hex",
        ),
        (
            "\n```hex\n00 +1\nprints\n```\n",
            "page:2: \"+1\" isn't a byte in hex",
        ),
    ] {
        assert_eq!(checked(page).0, Err(error.to_string()));
    }
}
