//! Cases that are worked out by hand: those of cases/worked.txt, which tells its own form, and those of a script that
//! has as much of everything as it can have.

use super::{section, Case, Question, Tag};
use crate::generate::special::DOCUMENT_TEMPLATE;
use crate::page::cells::{self, Names};

const LINES: &str = include_str!("../../cases/worked.txt");

/// All of them.
pub fn cases() -> Result<Vec<Case>, String> {
    Ok([read(LINES)?, of_the_largest_script()].concat())
}

/// The cases of lines. An error starts with the number of the line.
pub fn read(lines: &str) -> Result<Vec<Case>, String> {
    let (mut names, mut cases) = (Names::new(), Vec::new());
    for (number, line) in lines.lines().enumerate() {
        if line.is_empty() || line.starts_with('#') {
            continue;
        }
        let fields: Vec<&str> = line.split('|').map(str::trim).collect();
        let told = |error: String| format!("{}: {error}", number + 1);
        match fields[..] {
            ["name", name, words] => {
                let words = cells::words(&names, words).map_err(told)?;
                names.insert(name.to_string(), words);
            }
            [operation, label, ref sections @ .., answer] => {
                let case = case(&names, operation, label, sections, answer);
                cases.push(case.map_err(told)?);
            }
            _ => return Err(told("the line has too few fields".to_string())),
        }
    }
    Ok(cases)
}

/// The case of a line's fields.
fn case(
    names: &Names,
    operation: &str,
    label: &str,
    sections: &[&str],
    answer: &str,
) -> Result<Case, String> {
    let (tag, count) = match operation {
        "template" => (Tag::Template, 1),
        "fit" => (Tag::Fit, 3),
        "script" => (Tag::Script, 2),
        "links" => (Tag::Links, 3),
        _ => return Err(format!("no operation is called {operation:?}")),
    };
    if sections.len() != count {
        return Err(format!(
            "{operation} takes {count} sections, not {}",
            sections.len()
        ));
    }
    let words: Result<Vec<_>, _> = sections.iter().map(|cell| cells::words(names, cell)).collect();
    Ok(owed(tag, label, &words?, answer))
}

/// The case of these words, and of a line that is owed.
fn owed(tag: Tag, name: &str, words: &[Vec<u16>], line: &str) -> Case {
    let question = Question {
        name: name.to_string(),
        tag,
        sections: words.iter().map(|words| section(words)).collect(),
    };
    (question, format!("{line}\n"))
}

/// A script with 1,024 cards and 8 links from each, to the cards 0 to 7.
fn of_the_largest_script() -> Vec<Case> {
    let links = (0..8192).flat_map(|link| [link / 8, 0, link % 8]);
    let script: Vec<u16> = [1024, 8192].into_iter().chain(links).collect();
    let read = [DOCUMENT_TEMPLATE.to_vec(), script];
    let links_of = |card: u16| {
        let links = (0..8).map(|to| format!(" {card} 0 {to}"));
        let line: String = if card < 1024 {
            links.collect()
        } else {
            String::new()
        };
        let words = [&read[..], &[vec![card]]].concat();
        owed(Tag::Links, "largest-script", &words, &format!("links{line}"))
    };
    let read_it = owed(Tag::Script, "largest-script", &read, "counts 1024 8192");
    vec![read_it, links_of(0), links_of(1023), links_of(1024)]
}
