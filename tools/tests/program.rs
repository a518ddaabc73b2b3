//! The program: its commands, run as a user runs them.

use prep_tools::cases;
use prep_tools::fit::lines::answer;
use prep_tools::generate::special::{chain, document};
use prep_tools::sheet;
use std::env;
use std::fs;
use std::path::PathBuf;
use std::process::{self, Command, Output};

const PROGRAM: &str = env!("CARGO_BIN_EXE_prep-tools");

fn run(words: &[&str]) -> Output {
    Command::new(PROGRAM)
        .args(words)
        .output()
        .expect("the program starts")
}

fn text(output: &Output) -> String {
    String::from_utf8_lossy(&output.stdout).into_owned()
}

/// A new folder for one test, among the temporary files.
fn folder(name: &str) -> PathBuf {
    let path = env::temp_dir().join(format!("prep-tools-test-{}-{name}", process::id()));
    fs::create_dir_all(&path).expect("the folder can be made");
    path
}

#[test]
fn print_prints_the_sheet() {
    let folder = folder("print");
    let file = folder.join("sheet");
    fs::write(&file, document(&[1, 0, 0, 0]).bytes()).expect("the file can be written");
    let output = run(&["print", &file.to_string_lossy()]);
    assert_eq!(
        text(&output),
        "largest 4 5 2\ncard 0:\ncard 1:\ncard 2: 1\nsmallest no 0 1\nsmallest 0\ncard 0:\ncard 1:\ncard 2:\n"
    );
    assert!(output.status.success());
    fs::remove_dir_all(folder).expect("the folder can be removed");
}

#[test]
fn samples_prints_the_table() {
    let printed = text(&run(&["samples"]));
    assert_eq!(printed.lines().count(), 18);
    assert!(printed.contains("P10 plus a[0;1]: 0,0,0,0 yes\n"));
    assert!(printed.contains("P9 choice(a[1;1], b[1;1]): 1,1,0,0 no\n"));
}

#[test]
fn fit_answers_lines() {
    for (asked, owed) in [
        ("T 2 1 4 256 0 2 3 | 0 | 2 0 0 0", "yes"),
        ("T 2 1 4 256 0 2 3 | 0 | 4 0 0 0", "no"),
        ("T 2 1 4 256 0 2 3 | 1 | 2 0 0 0", "refused 42 0"),
    ] {
        assert_eq!(answer(asked), Ok(format!("{asked} | {owed}")));
    }
}

#[test]
fn cases_writes_what_is_asked_and_what_is_owed() {
    let folder = folder("cases");
    let path = |name: &str| folder.join(name).to_string_lossy().into_owned();
    let (questions, answers) = (path("in"), path("out"));
    assert!(run(&["cases", &questions, &answers, "9", "25"]).status.success());
    let owed: String = cases::generated(9, 25)
        .into_iter()
        .map(|(_, answer)| answer)
        .collect();
    assert_eq!(
        fs::read_to_string(&answers).expect("the answers are written"),
        owed
    );
    // The first case is one of Fit counts.
    let bytes = fs::read(&questions).expect("the questions are written");
    assert!(bytes.starts_with(&[2, 0]));
    assert!(error(&["cases", &questions, &answers, "9"]).contains("COUNT is missing"));
    fs::remove_dir_all(folder).expect("the folder can be removed");
}

#[test]
fn compare_finds_no_difference_to_ourselves() {
    let output = run(&["compare", &format!("{PROGRAM} print -"), "3", "200"]);
    assert_eq!(text(&output), "200 compared, 0 differ\n");
    assert!(output.status.success());
}

#[test]
fn compare_takes_alike_cards_alone() {
    let printer = format!("{PROGRAM} print -");
    let output = run(&["compare", &printer, "3", "40", "--alike"]);
    assert_eq!(text(&output), "40 compared, 0 differ\n");
    let output = run(&["compare", &format!("{PROGRAM} samples"), "3", "2", "--alike"]);
    let printed = text(&output);
    assert_eq!(printed.lines().last(), Some("2 compared, 2 differ"));
    for line in printed.lines().filter(|line| line.contains("prep-tools-")) {
        let (path, name) = line.split_once(": ").expect("a file and a name");
        assert!(name.starts_with("alike-"), "{line}");
        fs::remove_file(path).expect("the file can be removed");
    }
}

#[test]
fn compare_keeps_the_inputs_that_differ() {
    let output = run(&["compare", &format!("{PROGRAM} samples"), "3", "2"]);
    let printed = text(&output);
    assert_eq!(printed.lines().last(), Some("2 compared, 2 differ"));
    assert!(!output.status.success());
    let first = printed
        .lines()
        .next()
        .and_then(|line| line.split(": ").next())
        .expect("a file is named");
    assert_eq!(
        fs::read(first).expect("the input is kept"),
        document(&[1, 0, 2, 1]).bytes()
    );
    for line in printed.lines().filter(|line| line.contains("prep-tools-")) {
        let file = line.split(": ").next().expect("a file is named");
        fs::remove_file(file).expect("the file can be removed");
    }
}

#[test]
fn longest_writes_sheets_that_strike_one_pair_a_round() {
    let folder = folder("longest");
    let file = folder.join("sheet");
    for (words, start) in [
        (&["longest", "7", "3"][..], "largest 22 21 7\n"),
        (&["longest", "7", "3", "--back"], "largest 22 21 0\ncard 0: 3\n"),
    ] {
        fs::write(&file, run(words).stdout).expect("the file can be written");
        let printed = text(&run(&["print", &file.to_string_lossy()]));
        assert!(printed.starts_with(start), "{printed}");
    }
    assert!(error(&["longest", "7", "32", "--back"]).contains("the shapes 1 to 31"));
    fs::remove_dir_all(folder).expect("the folder can be removed");
}

#[test]
fn longest_keeps_its_own_rule() {
    for (cards, shapes, factor) in [("6", "3", 3), ("6", "4", 2), ("1024", "32", 32)] {
        for more in [&[][..], &["--back"]] {
            let words = [&["longest", cards, shapes], more].concat();
            let told = error(&words);
            let rule = format!("{cards} and {shapes} have the common factor {factor}");
            assert!(
                told.contains(&rule) || more == ["--back"] && shapes == "32",
                "{told}"
            );
        }
    }
    assert!(run(&["longest", "7", "1"]).status.success());
}

#[test]
fn wrong_words_are_an_error_in_words() {
    for words in [
        &["print"][..],
        &["print", "/no/such/file"],
        &["cases", "x", "y", "1"],
        &["longest", "1", "1"],
    ] {
        let output = run(words);
        assert_eq!(output.status.code(), Some(2));
        assert!(String::from_utf8_lossy(&output.stderr).starts_with("prep-tools: "));
    }
}

#[test]
fn a_short_file_is_told_as_such() {
    let folder = folder("short");
    let path = |name: &str| folder.join(name).to_string_lossy().into_owned();
    let (file, out) = (path("x"), path("out"));
    for (bytes, told) in [
        (&b""[..], "the file is empty"),
        (
            b"x",
            "the file has only 1 byte; no sheet is that short, be it text or words",
        ),
        (
            b"ab\n",
            "the file has only 3 bytes; no sheet is that short, be it text or words",
        ),
    ] {
        fs::write(&file, bytes).expect("the file can be written");
        for words in [
            &["check", &file][..],
            &["text", &file],
            &["draw", &file, &out],
            &["tidy", &file, &out],
            &["judge", &file, &out],
        ] {
            assert_eq!(error(words), format!("prep-tools: {file}: {told}\n"), "{words:?}");
        }
        // The printer's answer is what it is.
        assert_eq!(text(&run(&["print", &file])), "refused 60 0\n");
    }
    fs::remove_dir_all(folder).expect("the folder can be removed");
}

#[test]
fn words_that_cannot_be_cut_are_told_why() {
    let folder = folder("cut");
    let file = folder.join("x").to_string_lossy().into_owned();
    for (bytes, why) in [
        (&[1][..], "its 1 byte isn't a whole word"),
        (&[1, 0, 0], "its 3 bytes aren't whole words"),
        (
            &[1, 0, 1, 0],
            "it ends at word 2, where the script's count would be",
        ),
        (
            &[3, 0, 1, 0],
            "word 0, the template's count, is 3, but only 1 word follows",
        ),
        (&[0; 8], "the bookings end before word 3, but 1 word follows"),
        (&[0; 10], "the bookings end before word 3, but 2 words follow"),
    ] {
        fs::write(&file, bytes).expect("the file can be written");
        let explained = text(&run(&["explain", "60", "0", &file]));
        assert!(explained.ends_with(&format!("\n  {why}\n")), "{explained}");
    }
    fs::remove_dir_all(folder).expect("the folder can be removed");
}

#[test]
fn input_writes_an_input_by_its_name() {
    let written = run(&["input", "chain-1024"]);
    assert!(written.status.success());
    assert_eq!(written.stdout, chain(1024, false).bytes());
    assert!(error(&["input", "limit"]).contains("no input is named limit, perhaps limits"));
}

#[test]
fn each_package_says_which_compiler_it_needs() {
    let version = env!("CARGO_PKG_RUST_VERSION");
    assert_eq!(version, "1.85");
    let bench = concat!(env!("CARGO_MANIFEST_DIR"), "/bench/Cargo.toml");
    let bench = fs::read_to_string(bench).expect("the file is there");
    assert!(
        bench.contains(&format!("\nrust-version = \"{version}\"\n")),
        "{bench}"
    );
}

#[test]
fn the_version_is_the_library_s() {
    let header = concat!(env!("CARGO_MANIFEST_DIR"), "/../include/prep.h");
    let header = fs::read_to_string(header).expect("the file is there");
    let bench = concat!(env!("CARGO_MANIFEST_DIR"), "/bench/Cargo.toml");
    let bench = fs::read_to_string(bench).expect("the file is there");
    let part = |name: &str| {
        let start = format!("#define PREP_VERSION_{name} ");
        let mut lines = header.lines();
        lines
            .find_map(|line| line.strip_prefix(&start))
            .expect("the header has it")
    };
    let version = format!("{}.{}.{}", part("MAJOR"), part("MINOR"), part("PATCH"));
    assert_eq!(version, env!("CARGO_PKG_VERSION"));
    assert!(bench.contains(&format!("\nversion = \"{version}\"\n")), "{bench}");
    let changes = concat!(env!("CARGO_MANIFEST_DIR"), "/../CHANGELOG.md");
    let changes = fs::read_to_string(changes).expect("the file is there");
    let newest = changes.lines().find_map(|line| line.strip_prefix("## "));
    assert_eq!(newest, Some(version.as_str()));
}

/// Each command with its arguments.
const COMMANDS: [(&str, &[&str]); 18] = [
    ("check", &["FILE"]),
    ("draw", &["FILE", "OUT.svg"]),
    ("explain", &["FILE"]),
    ("judge", &["FILE", "GRID"]),
    ("words", &["FILE", "OUT"]),
    ("text", &["FILE"]),
    ("tidy", &["FILE", "OUT"]),
    ("print", &["FILE"]),
    ("grid", &["FILE", "TYPING", "OUT"]),
    ("judged", &["FILE", "GRID", "DESK", "OUT"]),
    ("stored", &["FILE", "OUT"]),
    ("fit", &[]),
    ("samples", &[]),
    ("cases", &["IN", "OUT"]),
    ("desk-pairs", &["OUT", "SEED", "COUNT"]),
    ("compare", &["PROGRAM", "SEED", "COUNT"]),
    ("input", &["NAME"]),
    ("longest", &["CARDS", "SHAPES"]),
];

fn error(words: &[&str]) -> String {
    let output = run(words);
    assert_eq!(output.status.code(), Some(2), "{words:?}");
    String::from_utf8_lossy(&output.stderr).into_owned()
}

#[test]
fn a_missing_argument_is_named() {
    for (command, arguments) in COMMANDS {
        for (count, name) in arguments.iter().enumerate() {
            let mut words = vec![command];
            words.extend(vec!["1"; count]);
            let start = format!("prep-tools: {command}: {name} is missing\n  prep-tools {command}");
            let told = error(&words);
            assert!(told.starts_with(&start), "{told}");
        }
    }
    assert!(error(&[]).starts_with("prep-tools: COMMAND is missing\n"));
    assert!(error(&["explain", "10", "5"]).contains("FILE is missing"));
    assert!(error(&["explain", "50", "1", "x"]).contains("CARD and SHAPE"));
    assert!(error(&["explain", "62", "1", "x"]).contains("the place of 62 is CARD and SHAPE"));
    assert!(error(&["explain", "10", "1", "2", "x"]).contains("only the places of 50 and 62"));
    assert!(error(&["explain", "x", "1", "y"]).contains("NUMBER isn't a number that fits: x"));
    assert!(error(&["check", "x", "y"]).contains("y is one argument too many"));
    assert!(error(&["chek", "x"]).contains("no command is named chek, perhaps check"));
    assert!(error(&["check", "--jsn", "x"]).contains("no option --jsn, perhaps --json"));
}

#[test]
fn each_command_has_help() {
    let all = text(&run(&["--help"]));
    assert_eq!(all, text(&run(&["help"])));
    for (command, _) in COMMANDS {
        let call = format!("prep-tools {command}");
        assert!(all.contains(&call), "{all}");
        for words in [
            &[command, "--help"][..],
            &[command, "x", "-h"],
            &["help", command],
        ] {
            let output = run(words);
            assert!(output.status.success());
            assert!(text(&output).starts_with(&format!("  {call}")), "{words:?}");
            assert!(text(&output).lines().all(|line| line.len() < 120));
        }
    }
    let version = format!("prep-tools {}\n", env!("CARGO_PKG_VERSION"));
    assert_eq!(text(&run(&["--version"])), version);
}

/// A text whose booking is met, with a title that has quotation marks.
const SHEET: &str = "\
title \"The \\\"hour\\\"\"
kinds: guest
shape Item = guest[1;2]@Guest
shape Guest = nothing
card quiz \"The quiz\"
card ann
link quiz guest ann
book quiz Item
";

#[test]
fn text_and_words_serve_alike_whatever_their_names() {
    let folder = folder("alike");
    // The names say the opposite of what is in the files.
    let (text_file, words_file) = (folder.join("sheet.bin"), folder.join("sheet.txt"));
    let (in_text, in_words) = (text_file.to_string_lossy(), words_file.to_string_lossy());
    for (source, code) in [(SHEET.to_string(), 0), (SHEET.replace("[1;2]", "[2;2]"), 1)] {
        fs::write(&text_file, &source).expect("the file can be written");
        assert!(run(&["words", &in_text, &in_words]).status.success());
        let printed = text(&run(&["print", &in_text]));
        assert!(printed.starts_with("largest 2 "));
        assert_eq!(text(&run(&["print", &in_words])), printed);
        for file in [&in_text, &in_words] {
            assert_eq!(run(&["check", file]).status.code(), Some(code));
            assert_eq!(run(&["check", file, "--json"]).status.code(), Some(code));
            assert_eq!(run(&["explain", file]).status.code(), Some(code));
            let out = folder.join("out.svg");
            assert!(run(&["draw", file, &out.to_string_lossy()]).status.success());
            let drawing = fs::read_to_string(&out).expect("the drawing is there");
            assert!(drawing.starts_with("<svg"));
        }
        let written = text(&run(&["text", &in_text]));
        assert!(
            written.starts_with("title \"The \\\"hour\\\"\"\n\nkinds: guest\n"),
            "{written}"
        );
        assert!(text(&run(&["text", &in_words])).starts_with("kinds: kind0\n"));
    }
    assert!(error(&["words", &in_words, "-"]).contains("doesn't hold a text"));
    fs::remove_dir_all(folder).expect("the folder can be removed");
}

#[test]
fn words_of_a_refused_text_are_not_written() {
    let folder = folder("refused");
    let (file, out) = (folder.join("sheet"), folder.join("out"));
    let (file_name, out_name) = (file.to_string_lossy(), out.to_string_lossy());
    for (source, told) in [
        (SHEET.replace("[1;2]", "[2;1]"), ":3:20: refused 10 5: "),
        (
            SHEET.replace("[1;2]", "[1;2"),
            ":3:19: this `[` isn't closed before line 4, column 1",
        ),
    ] {
        fs::write(&file, source).expect("the file can be written");
        for command in ["words", "draw"] {
            let message = error(&[command, &file_name, &out_name]);
            assert!(message.contains(told), "{message}");
        }
        assert!(!out.exists());
        assert!(error(&["check", &file_name]).contains(told));
        assert!(error(&["text", &file_name]).contains(told));
        let json = run(&["check", "--json", &file_name]);
        assert_eq!((json.status.code(), json.stderr.len()), (Some(2), 0));
        assert!(text(&json).starts_with("{\"format\":1,\"file\":"));
        let explained = run(&["explain", &file_name]);
        assert_eq!(explained.status.code(), Some(1));
        assert!(text(&explained).contains(told));
    }
    fs::remove_dir_all(folder).expect("the folder can be removed");
}

#[test]
fn bookings_that_stand_twice_are_told_and_dropped() {
    let folder = folder("tidy");
    let path = |name: &str| folder.join(name).to_string_lossy().into_owned();
    let (in_text, in_words, out) = (path("sheet.txt"), path("sheet.bin"), path("out"));
    let twice = SHEET.replace("book quiz Item", "book quiz Item\nbook quiz Item # again");
    fs::write(&in_text, &twice).expect("the file can be written");
    fs::write(&in_words, document(&[3, 2, 1, 0, 0, 2, 1]).bytes()).expect("the file can be written");
    assert!(error(&["check", &in_text]).contains(":9:6: refused 65 5: a desk books a pair a second time"));
    assert!(error(&["words", &in_text, &out]).contains("it is booked at line 8, column 6 already"));
    assert_eq!(text(&run(&["print", &in_words])), "refused 30 0\n");
    assert!(text(&run(&["explain", "65", "5", &in_text])).contains(":9:6: refused 65 5: "));
    let tidied = |file: &str, out: &str, told: &str| {
        let output = run(&["tidy", file, out]);
        assert_eq!(output.status.code(), Some(0));
        assert_eq!(
            String::from_utf8_lossy(&output.stderr),
            format!("{file}: {told} dropped\n")
        );
        output.stdout
    };
    assert_eq!(tidied(&in_text, &out, "1 of 2 bookings"), b"");
    let left = SHEET.to_string() + "# again\n";
    assert_eq!(fs::read_to_string(&out).expect("a text is written"), left);
    assert_eq!(tidied(&out, "-", "0 of 1 booking"), left.as_bytes());
    let words = document(&[2, 0, 2, 1, 0, 0, 0]).bytes();
    assert_eq!(tidied(&in_words, "-", "1 of 3 bookings"), words);
    // In place.
    tidied(&in_words, &in_words, "1 of 3 bookings");
    assert_eq!(fs::read(&in_words).expect("words are written"), words);
    fs::remove_dir_all(folder).expect("the folder can be removed");
}

#[test]
fn a_sheet_that_is_refused_otherwise_is_not_tidied() {
    let folder = folder("untidy");
    let path = |name: &str| folder.join(name).to_string_lossy().into_owned();
    let (file, out) = (path("sheet"), path("out"));
    for (bytes, told) in [
        (document(&[3, 2, 1, 2, 1, 9, 9]).bytes(), "sheet: refused 32 5: "),
        (vec![0; 5], "sheet: refused 60 0: "),
        (
            SHEET.replace("[1;2]", "[2;1]").into_bytes(),
            ":3:20: refused 10 5: ",
        ),
    ] {
        fs::write(&file, bytes).expect("the file can be written");
        assert!(error(&["tidy", &file, &out]).contains(told));
        assert!(!folder.join("out").exists());
    }
    fs::remove_dir_all(folder).expect("the folder can be removed");
}

#[test]
fn desk_pairs_writes_two_sheets_for_each_pair() {
    let folder = folder("desk-pairs");
    let out = folder.join("out").to_string_lossy().into_owned();
    assert!(run(&["desk-pairs", &out, "3", "4"]).status.success());
    let bytes = fs::read(&out).expect("the sheets are written");
    let (mut sheets, mut rest) = (0, &bytes[..]);
    // Each sheet is a case: its tag, its length in four bytes, and its bytes.
    while let Some(([5, 0, length @ ..], after)) = rest.split_first_chunk::<6>() {
        let (input, after) = after.split_at(u32::from_le_bytes(*length) as usize);
        assert!(sheet::print(input).starts_with("largest "));
        (sheets, rest) = (sheets + 1, after);
    }
    assert_eq!((sheets, rest.len()), (8, 0));
    assert!(error(&["desk-pairs", &out, "3"]).contains("COUNT is missing"));
    fs::remove_dir_all(folder).expect("the folder can be removed");
}

#[test]
fn twenty_thousand_brackets_are_told_and_not_a_crash() {
    let folder = folder("deep");
    let file = folder.join("sheet");
    let deep = format!("kinds: a\nshape A = {}", "(".repeat(20_000));
    fs::write(&file, deep).expect("the file can be written");
    for words in [
        &["check"][..],
        &["check", "--json"],
        &["explain"],
        &["text"],
        &["print"],
    ] {
        let output = run(&[words, &[&file.to_string_lossy()]].concat());
        let told = [output.stdout, output.stderr].concat();
        let told = String::from_utf8_lossy(&told);
        assert!(told.contains("more than 64 brackets"), "{words:?}: {told}");
        assert!(matches!(output.status.code(), Some(1 | 2)));
    }
    fs::remove_dir_all(folder).expect("the folder can be removed");
}
