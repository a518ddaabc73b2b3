//! The outcome as JSON: well-formed for every sheet, and its fields say what the words say.

use prep_tools::generate;
use prep_tools::text::check::run;
use prep_tools::text::json::Json;
use prep_tools::text::load::load_sheet;
use prep_tools::text::machine;
use std::env;
use std::fs;
use std::iter::Peekable;
use std::path::PathBuf;
use std::process::{self, Command};
use std::str::Chars;

/// Reads one JSON value and the blanks after it; none if it isn't well-formed.
fn value(text: &mut Peekable<Chars>) -> Option<()> {
    match text.next()? {
        '{' => items(text, '}', |text| {
            (text.next()? == '"').then_some(())?;
            string(text)?;
            (text.next()? == ':').then_some(())?;
            value(text)
        }),
        '[' => items(text, ']', value),
        '"' => string(text),
        'n' => (text.take(3).collect::<String>() == "ull").then_some(()),
        '0'..='9' => {
            while text.next_if(char::is_ascii_digit).is_some() {}
            Some(())
        }
        _ => None,
    }
}

/// Values with commas between them, up to this end.
fn items(text: &mut Peekable<Chars>, end: char, item: fn(&mut Peekable<Chars>) -> Option<()>) -> Option<()> {
    if text.next_if_eq(&end).is_some() {
        return Some(());
    }
    loop {
        item(text)?;
        match text.next()? {
            ',' => {}
            other => return (other == end).then_some(()),
        }
    }
}

/// The rest of a string after its first quotation mark.
fn string(text: &mut Peekable<Chars>) -> Option<()> {
    loop {
        match text.next()? {
            '"' => return Some(()),
            '\\' => match text.next()? {
                'u' => {
                    let digits: String = text.take(4).collect();
                    u32::from_str_radix(&digits, 16).ok()?;
                }
                other => "\"\\/bfnrt".contains(other).then_some(())?,
            },
            other if other < ' ' => return None,
            _ => {}
        }
    }
}

fn is_json(text: &str) -> bool {
    let mut characters = text.chars().peekable();
    value(&mut characters).is_some() && characters.next().is_none()
}

#[test]
fn strings_are_escaped() {
    let all: String = (0..=0x7f_u8)
        .map(char::from)
        .chain(['é', '\u{2028}', '😀'])
        .collect();
    let written = Json::text(all).to_string();
    assert!(is_json(&written), "{written}");
    assert!(written.starts_with("\"\\u0000\\u0001"));
    assert!(written.contains("\\t\\n\\u000b\\u000c\\u000d"));
    assert!(written.contains(" !\\\"#") && written.contains("[\\\\]"));
    assert!(written.ends_with("\\u007fé\\u2028😀\""));
}

#[test]
fn every_outcome_is_well_formed() {
    for case in generate::cases(51, 400) {
        let json = match load_sheet("a \"file\"\\\n", &case.bytes) {
            Ok(sheet) => machine::outcome(&sheet, "a \"file\"\\\n"),
            Err(trouble) => machine::trouble(&trouble),
        };
        let written = json.to_string();
        assert!(is_json(&written), "{}: {written}", case.name);
        assert!(
            written.starts_with(
                "{\"format\":1,\"file\":\"a \\\"file\\\"\\\\\\n\",\"form\":\"words\",\"outcome\":\""
            ),
            "{written}"
        );
    }
}

const SHEET: &str = "\
title \"Say \\\"hello\\\"\"
kinds: guest
shape Item = guest[1;2]@Guest
shape Guest = nothing
card quiz \"The quiz\"
card ann
link quiz guest ann
book quiz Item
";

#[test]
fn a_sheet_that_is_met() {
    let sheet = run("x.txt", SHEET).expect("the text is a sheet");
    let typing = "\"typing\":{\"quiz\":[\"Item\"],\"ann\":[\"Guest\"]}";
    let expected = format!(
        "{{\"format\":1,\"file\":\"x.txt\",\"form\":\"text\",\"outcome\":\"met\",\
         \"title\":\"Say \\\"hello\\\"\",\"kinds\":[\"guest\"],\"shapes\":[\"Item\",\"Guest\"],\"links\":1,\
         \"bookings\":[{{\"desk\":0,\"desk_name\":\"radio\",\
         \"card\":0,\"card_name\":\"quiz\",\"shape\":0,\"shape_name\":\"Item\"}}],\
         \"largest\":{{\"rounds\":2,\"struck\":2,\"bare\":0,{typing}}},\
         \"desks\":[{{\"desk\":0,\"desk_name\":\"radio\",\"smallest\":{{\"pairs\":2,{typing}}},\
         \"unmet\":null,\"also_unmet\":[]}},\
         {{\"desk\":1,\"desk_name\":\"television\",\"smallest\":{{\"pairs\":0,\"typing\":{{}}}},\
         \"unmet\":null,\"also_unmet\":[]}}],\
         \"bare\":[],\
         \"cards\":[{{\"name\":\"quiz\",\"title\":\"The quiz\",\"line\":5,\"column\":6}},\
         {{\"name\":\"ann\",\"title\":null,\"line\":6,\"column\":6}}]}}"
    );
    assert_eq!(machine::outcome(&sheet, "x.txt").to_string(), expected);
}

#[test]
fn a_sheet_that_is_not_met() {
    let source = SHEET
        .replace("guest[1;2]", "guest[2;2]")
        .replace("book quiz", "book 1 quiz");
    let sheet = run("x.txt", &source).expect("the text is a sheet");
    let written = machine::outcome(&sheet, "x.txt").to_string();
    assert!(is_json(&written));
    let lacks =
        "\"lacks\":[{\"kind\":\"guest\",\"direction\":\"outgoing\",\"low\":2,\"high\":2,\"there\":1}]";
    let unmet = format!(
        "\"outcome\":\"unmet\",\"title\":\"Say \\\"hello\\\"\",\"kinds\":[\"guest\"],\
         \"shapes\":[\"Item\",\"Guest\"],\"links\":1,\
         \"bookings\":[{{\"desk\":1,\"desk_name\":\"television\",\
         \"card\":0,\"card_name\":\"quiz\",\"shape\":0,\"shape_name\":\"Item\"}}],\
         \"largest\":{{\"rounds\":2,\"struck\":3,\"bare\":1,\"typing\":{{\"ann\":[\"Guest\"]}}}},\
         \"desks\":[{{\"desk\":0,\"desk_name\":\"radio\",\"smallest\":{{\"pairs\":0,\"typing\":{{}}}},\
         \"unmet\":null,\"also_unmet\":[]}},\
         {{\"desk\":1,\"desk_name\":\"television\",\"smallest\":null,\
         \"unmet\":{{\"card\":0,\"card_name\":\"quiz\",\"shape\":0,\"shape_name\":\"Item\",\"line\":5,\"column\":6,\
         \"reason\":\"2 guest wanted, 1 there\",{lacks},\"way\":[]}},\
         \"also_unmet\":[]}}],\"bare\":[{{\"card\":0,\"card_name\":\"quiz\",\"line\":5,\"column\":6,\"reasons\":[\
         {{\"shape\":0,\"shape_name\":\"Item\",\"distance\":1,\"reason\":\"2 guest wanted, 1 there\",\
         \"root\":{{\"card\":0,\"card_name\":\"quiz\",\"shape\":0,\"shape_name\":\"Item\",\
         \"reason\":\"2 guest wanted, 1 there\",{lacks}}}}},"
    );
    assert!(written.contains(&unmet), "{written}");
}

#[test]
fn what_arrives_is_told_by_its_direction() {
    let source = SHEET
        .replace("guest[1;2]@Guest", "guest[1;1]@Guest")
        .replace("Guest = nothing", "Guest = ^guest[2;]@Item")
        .replace(
            "book quiz Item",
            "book quiz Item\ncard bob\nlink bob guest ann\nlink bob guest bob",
        );
    let sheet = run("x.txt", &source).expect("the text is a sheet");
    let written = machine::outcome(&sheet, "x.txt").to_string();
    assert!(is_json(&written));
    for told in [
        "\"way\":[{\"card\":0,\"card_name\":\"quiz\",\"shape\":0,\"shape_name\":\"Item\",\
         \"kind\":\"guest\",\"direction\":\"outgoing\"},\
         {\"card\":1,\"card_name\":\"ann\",\"shape\":1,\"shape_name\":\"Guest\",\
         \"kind\":\"guest\",\"direction\":\"incoming\"}]",
        "{\"kind\":\"guest\",\"direction\":\"incoming\",\"low\":2,\"high\":null,\"there\":1}",
    ] {
        assert!(written.contains(told), "{written}");
    }
}

#[test]
fn a_file_that_is_no_sheet() {
    let told = |bytes: &[u8]| match load_sheet("x", bytes) {
        Ok(_) => panic!("the file isn't a sheet"),
        Err(trouble) => machine::trouble(&trouble).to_string(),
    };
    assert_eq!(
        told(b"kinds: a\nshape A = all(a[0;1]@A"),
        "{\"format\":1,\"file\":\"x\",\"form\":\"text\",\"outcome\":\"fault\",\
         \"faults\":[{\"line\":2,\"column\":14,\"message\":\"this `(` is never closed\"}],\"more\":0}"
    );
    assert_eq!(
        told(b"kinds: a\nshape A = a[2;1]@A"),
        "{\"format\":1,\"file\":\"x\",\"form\":\"text\",\"outcome\":\"refused\",\
         \"refusals\":[{\"number\":10,\"place\":5,\
         \"message\":\"a link's low or high is out of bounds\",\"section\":\"template\",\"word\":2,\
         \"role\":\"the low of the link a in shape A\",\
         \"note\":\"the low 2 is above the high 1\",\"line\":2,\"column\":13}],\"more\":0}"
    );
    assert_eq!(
        told(b""),
        "{\"format\":1,\"file\":\"x\",\"form\":\"words\",\"outcome\":\"fault\",\
         \"faults\":[{\"line\":null,\"column\":null,\"message\":\"the file is empty\"}],\"more\":0}"
    );
    let words = told(&[0, 0, 0, 0]);
    assert!(
        words.contains("\"section\":null,\"word\":null,\"role\":null,\"note\":\"it ends at word 2,"),
        "{words}"
    );
}

#[test]
fn all_faults_and_refusals_are_there() {
    let told = |source: &str| {
        let trouble = load_sheet("x", source.as_bytes()).expect_err("the text has faults");
        let written = machine::trouble(&trouble).to_string();
        assert!(is_json(&written), "{written}");
        written
    };
    let written = told("kinds: a\nshape A = b[0;1]@A\nshape B = c[0;1]@A\n");
    assert_eq!(written.matches("\"message\":\"no kind is named").count(), 2);
    let written = told("kinds: a\nshape A = a[2;1]@A\nshape B = a[3;1]@A\n");
    assert_eq!(written.matches("\"number\":10,").count(), 2);
    let many: String = (0..33).map(|number| format!("book x S{number}\n")).collect();
    let written = told(&format!("kinds: a\nshape A = nothing\ncard x\n{many}"));
    assert_eq!(written.matches("\"message\":").count(), 20);
    assert!(written.ends_with("],\"more\":13}"), "{written}");
}

/// A new folder with the text of a sheet, and a grid of it; removed with what is in it.
struct Folder(PathBuf);

impl Folder {
    fn new(name: &str, source: &str, grid: &[u8]) -> Folder {
        let path = env::temp_dir().join(format!("prep-tools-json-{}-{name}", process::id()));
        fs::create_dir_all(&path).expect("the folder can be made");
        fs::write(path.join("x.txt"), source).expect("the file can be written");
        fs::write(path.join("grid"), grid).expect("the file can be written");
        Folder(path)
    }

    /// What a command with `--json` writes, which has to be JSON on one line, and its exit code.
    fn run(&self, words: &[&str]) -> (String, Option<i32>) {
        let output = Command::new(env!("CARGO_BIN_EXE_prep-tools"))
            .args(words)
            .arg("--json")
            .current_dir(&self.0)
            .output()
            .expect("the program starts");
        let written = String::from_utf8_lossy(&output.stdout).into_owned();
        assert_eq!(output.stderr, b"", "{words:?}");
        let line = written.strip_suffix('\n').expect("a line");
        assert!(is_json(line), "{written}");
        assert!(line.starts_with("{\"format\":1,\"file\":\"x.txt\",\"form\":\"text\",\"outcome\":"));
        (written, output.status.code())
    }
}

impl Drop for Folder {
    fn drop(&mut self) {
        let _ = fs::remove_dir_all(&self.0);
    }
}

#[test]
fn judge_has_json() {
    for (grid, outcome, code, fields) in [
        (
            &[1, 0, 0, 1][..],
            "accepted",
            0,
            "\"desk\":0,\"desk_name\":\"radio\",\"booked\":1,\"pairs\":2,\"smallest\":2,\"largest\":2}",
        ),
        (
            &[1, 0, 0, 0],
            "not_accepted",
            1,
            "\"card\":0,\"card_name\":\"quiz\",\"shape\":0,\"shape_name\":\"Item\",\"line\":5,\"column\":6,\
             \"reason\":\"The quiz isn't Item under the grid: its guest ann isn't Guest\",\"lacks\":[],\
             \"missing\":[{\"card\":1,\"card_name\":\"ann\",\"shape\":1,\"shape_name\":\"Guest\"}],\"never\":null}}",
        ),
        (&[0, 0, 0, 1], "not_accepted", 1, "\"refusal\":{\"number\":63,\"place\":2,"),
        (&[0, 0, 0, 7], "not_accepted", 1, "\"refusal\":{\"number\":61,\"place\":3,"),
        (&[0, 0, 0], "not_accepted", 1, "\"refusal\":{\"number\":40,\"place\":0,"),
    ] {
        let (written, ended) = Folder::new("judge", SHEET, grid).run(&["judge", "x.txt", "grid"]);
        assert!(written.contains(&format!("\"outcome\":\"{outcome}\"")), "{written}");
        assert!(written.contains(fields), "{written}");
        assert_eq!(ended, Some(code));
    }
    let (written, ended) = Folder::new("judge", "kinds: a\n=", &[]).run(&["judge", "x.txt", "grid"]);
    assert!(
        written.contains("\"outcome\":\"fault\"") && ended == Some(2),
        "{written}"
    );
}

#[test]
fn explain_has_json() {
    let folder = Folder::new("explain", SHEET, &[]);
    for (words, code, fields) in [
        (&["x.txt"][..], 0, "\"outcome\":\"met\",\"desks\":["),
        (
            &["10", "5", "x.txt"],
            1,
            "\"outcome\":\"not_so\",\"number\":10,\"place\":[5],\"refusal\":null,\"told\":[\"x.txt: this isn't",
        ),
        (
            &["61", "3", "x.txt"],
            0,
            "\"outcome\":\"explained\",\"number\":61,\"place\":[3],\"refusal\":{\"number\":61,\"place\":3,",
        ),
        (
            &["50", "0", "1", "x.txt"],
            1,
            "\"outcome\":\"not_so\",\"number\":50,\"place\":[0,1],",
        ),
        (
            &["62", "0", "0", "x.txt"],
            0,
            "\"outcome\":\"explained\",\"number\":62,\"place\":[0,0],",
        ),
    ] {
        let (written, ended) = folder.run(&[&["explain"], words].concat());
        assert!(written.contains(fields), "{written}");
        assert_eq!(ended, Some(code));
    }
    let refused = Folder::new("explain-refused", &SHEET.replace("[1;2]", "[2;1]"), &[]);
    let (written, ended) = refused.run(&["explain", "x.txt"]);
    assert!(
        written.contains("\"outcome\":\"refused\"") && ended == Some(1),
        "{written}"
    );
    let (written, ended) = refused.run(&["explain", "10", "5", "x.txt"]);
    assert!(
        written.contains("\"outcome\":\"explained\"") && ended == Some(0),
        "{written}"
    );
}

#[test]
fn tidy_has_json() {
    let folder = Folder::new("tidy", &(SHEET.to_string() + "book quiz Item\n"), &[]);
    let (written, ended) = folder.run(&["tidy", "x.txt", "out"]);
    assert!(
        written.ends_with("\"outcome\":\"tidied\",\"bookings\":2,\"dropped\":1}\n"),
        "{written}"
    );
    let page = include_str!("../../docs/JSON.md");
    assert!(page.contains(&format!("\n    {written}")), "{written}");
    assert_eq!(ended, Some(0));
    assert_eq!(
        fs::read_to_string(folder.0.join("out")).expect("it is written"),
        SHEET
    );
    fs::write(folder.0.join("x.txt"), "kinds: a\n=\n&").expect("the file can be written");
    let (written, ended) = folder.run(&["tidy", "x.txt", "out"]);
    assert!(
        written.contains("\"outcome\":\"fault\"") && ended == Some(2),
        "{written}"
    );
}
