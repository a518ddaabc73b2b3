//! The grid judge and the list tidier: their inputs, what they write for the worked sheet and for inputs at fault, the
//! commands that write inputs, and the files of the example.

use prep_tools::generate::special::{document, DOCUMENT_SCRIPT, DOCUMENT_TEMPLATE};
use prep_tools::programs::{judge_line, question, tidy_list, Question, MOST_JUDGED};
use prep_tools::sheet::Files;
use prep_tools::text::check;
use std::fs;
use std::path::{Path, PathBuf};
use std::process::{self, Command, Output};

const PAGE: &str = concat!(env!("CARGO_MANIFEST_DIR"), "/../docs/FORMAT.md");

/// The worked sheet, on which the radio books card 2 for shape 1, with a grid for a desk.
fn worked(desk: u16, grid: &[u8]) -> Question {
    Question {
        files: document(&[1, 0, 2, 1]),
        desk,
        grid: grid.to_vec(),
    }
}

/// What the grid judge writes for it.
fn line(desk: u16, grid: &[u8]) -> String {
    judge_line(&worked(desk, grid).bytes().expect("a small grid"))
}

/// The tidier's input with the worked sheet and a stored list.
fn list(stored: &[u16]) -> Vec<u8> {
    let files = Files {
        template: DOCUMENT_TEMPLATE.to_vec(),
        script: DOCUMENT_SCRIPT.to_vec(),
        bookings: stored.to_vec(),
    };
    files.bytes()
}

#[test]
fn a_grid_of_the_worked_sheet_is_judged() {
    assert_eq!(line(0, &[0, 0, 0, 0, 0, 1]), "accepted\n");
    assert_eq!(line(0, &[0, 0, 0, 0, 0, 0]), "refused 63 2\n");
    assert_eq!(line(1, &[0, 0, 0, 0, 0, 0]), "accepted\n");
    assert_eq!(line(0, &[0, 0, 1, 0, 0, 1]), "refused 62 1 0\n");
    assert_eq!(line(0, &[0, 2, 0, 0, 0, 1]), "refused 61 1\n");
    assert_eq!(line(0, &[0, 0, 0, 0, 0]), "refused 40 0\n");
    assert_eq!(line(2, &[0, 0, 0, 0, 0, 1]), "refused 66 0\n");
}

#[test]
fn a_judged_input_at_fault_is_refused() {
    let whole = worked(0, &[0, 0, 0, 0, 0, 1]).bytes().expect("a small grid");
    for end in 0..whole.len() {
        assert_eq!(judge_line(&whole[..end]), "refused 60 0\n", "{end} bytes");
    }
    let further = [&whole[..], &[0]].concat();
    assert_eq!(judge_line(&further), "refused 60 0\n");
    let read = question(&whole).map(|asked| (asked.files, asked.desk, asked.grid));
    assert_eq!(read, Ok((document(&[1, 0, 2, 1]), 0, vec![0, 0, 0, 0, 0, 1])));
}

#[test]
fn a_judged_input_can_be_as_long_as_the_limit() {
    let words = |count: usize| vec![0; count];
    let mut asked = Question {
        files: Files {
            template: words(0),
            script: words(32000),
            bookings: words(995),
        },
        desk: 0,
        grid: vec![0; 65072],
    };
    let full = asked.bytes().expect("a word counts them");
    assert_eq!(
        (full.len(), &judge_line(&full)[..]),
        (MOST_JUDGED, "refused 1 0\n")
    );
    asked.grid.push(0);
    let over = asked.bytes().expect("a word counts them");
    assert_eq!(judge_line(&over), "refused 60 0\n");
    asked.grid = vec![0; 65536];
    assert!(asked.bytes().is_none());
}

#[test]
fn a_stored_list_is_tidied() {
    assert_eq!(tidy_list(&list(&[2, 2, 1, 2, 1])), [1, 0, 0, 0, 2, 0, 1, 0]);
    assert_eq!(tidy_list(&list(&[0])), [0, 0]);
    assert_eq!(tidy_list(&list(&[])), b"refused 30 0\n");
    assert_eq!(tidy_list(&list(&[1025])), b"refused 31 0\n");
    assert_eq!(tidy_list(&list(&[1, 0, 2])), b"refused 33 2\n");
    let whole = list(&[1, 2, 1]);
    assert_eq!(tidy_list(&whole[..whole.len() - 2]), b"refused 60 0\n");
}

/// The rows of the tables of a section of the page, without the marks of code; `-` stands for nothing.
fn rows(section: &str) -> Vec<Vec<String>> {
    let page = fs::read_to_string(PAGE).expect("the page is there");
    let (_, from) = page
        .split_once(&format!("\n## {section}\n"))
        .expect("the section");
    let (text, _) = from.split_once("\n## ").expect("a section after it");
    let lines = text.lines().filter(|line| line.starts_with("| `"));
    let cells = |line: &str| {
        line.split('|')
            .map(|cell| cell.trim().replace(['`', '-'], ""))
            .collect()
    };
    lines.map(cells).collect()
}

/// The numbers of a cell.
fn numbers(cell: &str) -> Vec<u16> {
    let each = cell.split_whitespace();
    each.map(|word| word.parse().expect("a number")).collect()
}

/// Their bytes, low byte first.
fn low_first(words: &[u16]) -> Vec<u8> {
    words.iter().flat_map(|word| word.to_le_bytes()).collect()
}

#[test]
fn the_page_is_right_about_the_grid_judge() {
    let rows = rows("The grid judge");
    assert_eq!(rows.len(), 9);
    for row in rows {
        let mut input = low_first(&numbers(&row[1]));
        input.extend(numbers(&row[2]).iter().map(|byte| *byte as u8));
        assert_eq!(judge_line(&input), format!("{}\n", row[3]), "{row:?}");
    }
}

#[test]
fn the_page_is_right_about_the_list_tidier() {
    let rows = rows("The list tidier");
    assert_eq!(rows.len(), 5);
    for row in rows {
        let written = match row[2].starts_with("refused") {
            true => format!("{}\n", row[2]).into_bytes(),
            false => low_first(&numbers(&row[2])),
        };
        assert_eq!(tidy_list(&low_first(&numbers(&row[1]))), written, "{row:?}");
    }
}

/// A file of the example.
fn example(name: &str) -> PathBuf {
    Path::new(env!("CARGO_MANIFEST_DIR"))
        .join("../examples/prep")
        .join(name)
}

/// Runs a command of the tools.
fn run(words: &[&str]) -> Output {
    let mut command = Command::new(env!("CARGO_BIN_EXE_prep-tools"));
    command.args(words).output().expect("the program starts")
}

/// What a command writes to standard output for the text of the example.
fn made(command: &[&str]) -> Vec<u8> {
    let output = run(command);
    assert!(output.status.success(), "{command:?}: {output:?}");
    output.stdout
}

#[test]
fn the_inputs_of_the_example_are_those_that_the_commands_write() {
    let text = example("programme.txt");
    let text = text.to_str().expect("a path in words");
    let folder = std::env::temp_dir().join(format!("prep-tools-grids-{}", process::id()));
    fs::create_dir_all(&folder).expect("the folder can be made");
    let grid = folder.join("grid");
    let grid = grid.to_str().expect("a path in words");
    assert_eq!(made(&["grid", text, "largest", grid]), []);
    let judged = made(&["judged", text, grid, "0", "-"]);
    assert_eq!(fs::read(example("programme.judged")).ok(), Some(judged.clone()));
    assert_eq!(judge_line(&judged), "accepted\n");
    let stored = made(&["stored", text, "-"]);
    assert_eq!(fs::read(example("programme.stored")).ok(), Some(stored.clone()));
    fs::remove_dir_all(folder).expect("the folder can be removed");

    // Both desks book Rosa Klein; the list of all bookings has her twice, the tidied one once.
    let source = fs::read_to_string(example("programme.txt")).expect("the text is there");
    let sheet = check::run("programme.txt", &source).expect("the text is a sheet");
    assert_eq!((sheet.booked.len(), tidy_list(&stored).len()), (5, 2 + 6 * 4));
}

#[test]
fn grid_writes_the_typing_that_is_asked_for() {
    let text = example("programme.txt");
    let text = text.to_str().expect("a path in words");
    let source = fs::read_to_string(example("programme.txt")).expect("the text is there");
    let typings = check::run("programme.txt", &source)
        .expect("the text is a sheet")
        .typings;
    assert_eq!(made(&["grid", text, "largest", "-"]), typings.largest.1);
    assert_eq!(made(&["grid", text, "smallest", "-"]), typings.smallest[0].1);
    assert_eq!(
        made(&["grid", text, "smallest", "-", "television"]),
        typings.smallest[1].1
    );
    assert_eq!(run(&["grid", text, "greatest", "-"]).status.code(), Some(2));
    assert_eq!(run(&["grid", text, "smallest", "-", "2"]).status.code(), Some(2));
    let draft = example("draft.txt");
    let draft = draft.to_str().expect("a path in words");
    assert_eq!(run(&["grid", draft, "smallest", "-"]).status.code(), Some(1));
    assert_eq!(run(&["judged", "-", "-", "0", "-"]).status.code(), Some(2));
}
