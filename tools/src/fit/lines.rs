//! Questions for *Fit counts* as lines of text: `T w w ... | shape | c c c`. The answer is written behind it: yes,
//! no or refused NUMBER PLACE. An answer that already stands there is replaced.

use super::fit;
use crate::refusal::Refusal;

/// The line with its answer by intervals; empty lines and comments stay as they are.
pub fn answer(line: &str) -> Result<String, String> {
    let content = line.trim();
    if content.is_empty() || content.starts_with('#') {
        return Ok(line.to_string());
    }
    let fields: Vec<&str> = content.split('|').map(str::trim).collect();
    let (template, shape, counts) = match fields[..] {
        [template, shape, counts] | [template, shape, counts, _] => (template, shape, counts),
        _ => return Err(format!("the line has {} fields, not 3 or 4", fields.len())),
    };
    let words = template
        .strip_prefix('T')
        .ok_or("the line doesn't start with T and the words of a template")?;
    let (words, counts) = (numbers(words)?, numbers(counts)?);
    let [shape] = numbers(shape)?[..] else {
        return Err(format!("{shape:?} isn't one shape"));
    };
    let answer = written(fit(&words, shape, &counts));
    Ok(format!("{} | {answer}", fields[..3].join(" | ")))
}

/// An answer as it is written.
pub fn written(answer: Result<bool, Refusal>) -> String {
    match answer {
        Ok(true) => "yes".to_string(),
        Ok(false) => "no".to_string(),
        Err(refusal) => format!("refused {} {}", refusal.number, refusal.place),
    }
}

/// The words of a field.
fn numbers(field: &str) -> Result<Vec<u16>, String> {
    let number = |word: &str| {
        word.parse()
            .map_err(|_| format!("{word:?} isn't a word of 16 bits"))
    };
    field.split_whitespace().map(number).collect()
}
