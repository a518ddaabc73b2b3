//! Cases in one form for all operations: the form itself, the stored ones, and those that are worked out by hand.

use prep_tools::cases::{self, made, programs, worked, Case, Question, Tag, MOST_BYTES};
use prep_tools::fit::{fit, lines::written};
use prep_tools::generate::tidying::UNTOUCHED;
use prep_tools::generate::{judging, tidying};
use prep_tools::page::cells::hex_byte;
use prep_tools::page::markdown::{items, Item};
use prep_tools::programs::{judge_line, tidy_list, MOST_JUDGED};
use prep_tools::refusal::Refusal;
use prep_tools::script::{self, links_of_card};
use prep_tools::typing::judge::{self, judge};
use prep_tools::typing::tidying::{answer, tidy};
use prep_tools::{sheet, template};
use std::collections::BTreeMap;
use std::fs;

const PAGE: &str = concat!(env!("CARGO_MANIFEST_DIR"), "/../docs/FORMAT.md");
/// The stored cases.
const QUESTIONS: &str = concat!(env!("CARGO_MANIFEST_DIR"), "/../crates/cases/stdin");
const ANSWERS: &str = concat!(env!("CARGO_MANIFEST_DIR"), "/../crates/cases/stdout");
/// Those of the grid judge and of the list tidier.
const INPUTS: &str = concat!(env!("CARGO_MANIFEST_DIR"), "/../crates/program_cases/stdin");
const OUTPUTS: &str = concat!(env!("CARGO_MANIFEST_DIR"), "/../crates/program_cases/stdout");

/// Each operation, and how many sections it takes.
const OPERATIONS: [(Tag, usize); 9] = [
    (Tag::Template, 1),
    (Tag::Fit, 3),
    (Tag::Script, 2),
    (Tag::Links, 3),
    (Tag::Sheet, 1),
    (Tag::Judge, 5),
    (Tag::Tidy, 4),
    (Tag::GridJudge, 1),
    (Tag::ListTidier, 1),
];

/// Takes so many bytes as a number, low byte first.
fn number(bytes: &mut &[u8], count: usize) -> usize {
    let (first, rest) = bytes.split_at(count);
    *bytes = rest;
    let digits = first.iter().rev();
    digits.fold(0, |number, byte| 256 * number + usize::from(*byte))
}

/// The tag and the sections of each question.
fn read(mut bytes: &[u8]) -> Vec<(Tag, Vec<Vec<u8>>)> {
    let mut questions = Vec::new();
    while !bytes.is_empty() {
        let tag = number(&mut bytes, 2);
        let (tag, count) = OPERATIONS[tag - 1];
        let mut sections = Vec::new();
        for _ in 0..count {
            let length = number(&mut bytes, 4);
            let (section, rest) = bytes.split_at(length);
            sections.push(section.to_vec());
            bytes = rest;
        }
        questions.push((tag, sections));
    }
    questions
}

fn counts(read: Result<(u16, usize), Refusal>) -> String {
    match read {
        Ok((first, second)) => format!("counts {first} {second}"),
        Err(refusal) => format!("refused {} {}", refusal.number, refusal.place),
    }
}

/// What this implementation answers by its quick methods: by intervals, and by the shapes that are named for links.
fn answered(tag: Tag, sections: &[Vec<u8>]) -> String {
    let words = |index: usize| -> Vec<u16> {
        let two = sections[index].chunks_exact(2);
        two.map(|two| u16::from_le_bytes([two[0], two[1]])).collect()
    };
    let one = |index: usize| {
        assert_eq!(sections[index].len(), 2);
        words(index)[0]
    };
    let line = match tag {
        Tag::Template => counts(template::read(&words(0)).map(|read| (read.kinds, read.shapes().into()))),
        Tag::Fit => written(fit(&words(0), one(1), &words(2))),
        Tag::Script => counts(script::read(&words(0), &words(1)).map(|read| (read.cards, read.links.len()))),
        Tag::Links => {
            let (template, script) = (words(0), words(1));
            let links = links_of_card(&template, &script, one(2)).iter();
            "links".to_string() + &links.map(|word| format!(" {word}")).collect::<String>()
        }
        Tag::Sheet => return sheet::print(&sections[0]),
        Tag::Judge => judge::answer(judge(&words(0), &words(1), &words(2), one(3), &sections[4])),
        Tag::Tidy => {
            let mut buffer = vec![UNTOUCHED; one(3).into()];
            let said = tidy(&words(0), &words(1), &words(2), &mut buffer);
            answer(said, &buffer)
        }
        Tag::GridJudge => return judge_line(&sections[0]),
        Tag::ListTidier => {
            let bytes = tidy_list(&sections[0]);
            ":".to_string() + &bytes.iter().map(|byte| format!(" {byte}")).collect::<String>()
        }
    };
    line + "\n"
}

/// A question that is written and read is the same.
fn check_form(cases: &[Case]) {
    for (question, answer) in cases {
        let bytes = question.bytes().expect("no section is too long");
        let same = (question.tag, question.sections.clone());
        assert_eq!(read(&bytes), [same], "{}", question.name);
        assert!(answer.ends_with('\n'), "{}", question.name);
    }
}

/// The cases are those that are stored.
fn check_stored(cases: &[Case], questions_at: &str, answers_at: &str) {
    check_form(cases);
    let questions = cases.iter().map(|(question, _)| question.bytes());
    let questions: Vec<Vec<u8>> = questions
        .collect::<Result<_, _>>()
        .expect("no section is too long");
    let answers: String = cases.iter().map(|(_, answer)| answer.as_str()).collect();
    let stored = fs::read(questions_at).expect("the questions are stored");
    assert!(questions.concat() == stored, "the stored questions are older");
    let stored = fs::read_to_string(answers_at).expect("the answers are stored");
    assert!(answers == stored, "the stored answers are older");
}

#[test]
fn the_stored_cases_are_those_of_the_command() {
    let cases = cases::stored().expect("the cases can be made");
    check_stored(&cases, QUESTIONS, ANSWERS);
}

#[test]
fn the_stored_cases_of_the_programs_are_those_of_the_command() {
    let cases = programs::cases();
    check_stored(&cases, INPUTS, OUTPUTS);
    let count = |tag: Tag| cases.iter().filter(|(question, _)| question.tag == tag).count();
    assert_eq!((count(Tag::GridJudge), count(Tag::ListTidier)), (1257, 485));
    let is_60 = |answer: &String| answer == "refused 60 0\n";
    let lines = |test: fn(&String) -> bool| cases.iter().filter(|(_, answer)| test(answer)).count();
    assert!(lines(|answer| answer == "accepted\n") > 20 && lines(|answer| answer == "refused 60 0\n") > 20);
    let longest: Vec<bool> = cases
        .iter()
        .filter(|(question, _)| question.size() > MOST_JUDGED - 1)
        .map(|(_, answer)| is_60(answer))
        .collect();
    assert_eq!(longest, [false, true]);
}

#[test]
fn both_methods_give_each_stored_answer() {
    for (question, answer) in cases::stored().expect("the cases can be made") {
        let Question { name, tag, sections } = question;
        assert_eq!(answered(tag, &sections), answer, "{tag:?} {name}");
    }
}

#[test]
fn each_operation_has_as_many_as_the_documents_say() {
    let mut tally = BTreeMap::new();
    for (question, _) in cases::stored().expect("the cases can be made") {
        *tally.entry(question.tag).or_insert(0) += 1;
    }
    let counts: Vec<usize> = tally.into_values().collect();
    assert_eq!(counts, [130, 889, 41, 12, 1088, 1325, 650]);
}

#[test]
fn the_worked_cases_have_names_of_their_own() {
    let mut seen = Vec::new();
    for (question, _) in worked::cases().expect("the lines can be read") {
        let name = (question.tag, question.name);
        assert!(!seen.contains(&name) || name.1 == "largest-script", "{name:?}");
        seen.push(name);
    }
    assert_eq!(seen.len(), 279);
}

#[test]
fn a_line_that_is_wrong_is_told() {
    let fit = "fit | both | a | 0 | 1 1 | yes";
    let good = format!("# A case.\n\nname | a | 1 1 1*3 0\n{fit}\n");
    let cases = worked::read(&good).expect("the lines are right");
    assert_eq!(cases[0].1, "yes\n");
    assert_eq!(cases[0].0.sections[0], [1, 0, 1, 0, 1, 0, 1, 0, 1, 0, 0, 0]);
    for (line, told) in [
        (fit, "1: \"a\" isn't a number that fits, nor a name"),
        ("fit | both | 1 1 | yes", "1: fit takes 3 sections, not 1"),
        ("fits | both | 1 1 | yes", "1: no operation is called \"fits\""),
        ("\nfit", "2: the line has too few fields"),
    ] {
        assert_eq!(worked::read(line), Err(told.to_string()));
    }
}

#[test]
fn a_section_that_is_too_long_is_an_error() {
    let long = |bytes: usize| made::sheet("long".to_string(), vec![0; bytes]).bytes();
    assert!(long(MOST_BYTES).is_ok());
    assert_eq!(long(MOST_BYTES + 1), Err("the case long is too long".to_string()));
}

#[test]
fn random_cases_that_are_long_are_left_out() {
    let grids = judging::fixed().len();
    let lists = tidying::fixed().len();
    for (cases, fixed) in [
        (made::grids(5, grids + 150), grids),
        (made::lists(5, lists + 150), lists),
    ] {
        check_form(&cases);
        assert!(cases.len() < fixed + 150 && cases.len() > fixed + 90);
        assert!(cases[fixed..].iter().all(|(question, _)| question.size() <= 3000));
        assert!(cases[..fixed].iter().any(|(question, _)| question.size() > 3000));
    }
    let sheets = made::sheets(5, 1200);
    check_form(&sheets);
    assert!(sheets.len() < 1200 && sheets.len() > 1000);
}

#[test]
fn the_page_shows_a_stored_case() {
    let page = fs::read_to_string(PAGE).expect("the page can be read");
    let stored = read(&fs::read(QUESTIONS).expect("the questions are stored"));
    let mut shown = 0;
    for item in items(&page).expect("the page can be read") {
        let Item::Block(word, _, lines) = item else {
            continue;
        };
        if word != "case" {
            continue;
        }
        let (text, answer) = lines.split_at(lines.len() - 1);
        assert_eq!(text[text.len() - 1], "is answered by");
        let bytes = text[..text.len() - 1].iter().flat_map(|line| line.split(' '));
        let bytes: Result<Vec<u8>, _> = bytes.map(hex_byte).collect();
        let questions = read(&bytes.expect("the bytes are in hex"));
        let (tag, sections) = &questions[0];
        assert_eq!(answered(*tag, sections), answer[0].clone() + "\n");
        assert!(questions.len() == 1 && stored.contains(&questions[0]));
        shown += 1;
    }
    assert_eq!(shown, 1);
}
