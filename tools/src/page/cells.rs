//! What a cell holds: words in base ten, a name for words, `w*n` for n words w, bytes in the same way, or a typing as
//! digits.

use std::collections::BTreeMap;

/// Names for words, as a table of the page gives them.
pub type Names = BTreeMap<String, Vec<u16>>;

/// The most words that a cell may stand for.
const MOST: usize = 100_000;

/// The words of a cell; `-` or nothing at all is no words.
pub fn words(names: &Names, cell: &str) -> Result<Vec<u16>, String> {
    let mut words = Vec::new();
    for token in cell.split_whitespace().filter(|token| *token != "-") {
        match (names.get(token), token.split_once('*')) {
            (Some(named), _) => words.extend(named),
            (None, Some((word, times))) => {
                let times: usize = number(times)?;
                if times > MOST {
                    return Err(format!("{times} words are too many for an example"));
                }
                words.resize(words.len() + times, number(word)?);
            }
            (None, None) => words.push(number(token)?),
        }
    }
    Ok(words)
}

/// The bytes of a printer's input: words, low byte first, and one byte more for each `byte` at the end.
pub fn bytes(names: &Names, cell: &str) -> Result<Vec<u8>, String> {
    let mut content = cell.trim();
    let mut more = 0;
    while let Some(shorter) = content.strip_suffix("byte") {
        content = shorter.trim();
        more += 1;
    }
    let words = words(names, content)?;
    let mut bytes: Vec<u8> = words.iter().flat_map(|word| word.to_le_bytes()).collect();
    bytes.resize(bytes.len() + more, 0);
    Ok(bytes)
}

/// A byte, as two digits in base sixteen.
pub fn hex_byte(token: &str) -> Result<u8, String> {
    let is_hex = token.len() == 2 && token.bytes().all(|sign| sign.is_ascii_hexdigit());
    let byte = is_hex.then(|| u8::from_str_radix(token, 16).ok()).flatten();
    byte.ok_or(format!("{token:?} isn't a byte in hex"))
}

/// The bytes of a grid that is judged, in base ten; `w*n` is n bytes w, `-` or nothing at all is no bytes.
pub fn judged_grid(cell: &str) -> Result<Vec<u8>, String> {
    let byte = |word: u16| u8::try_from(word).map_err(|_| format!("{word} isn't a byte"));
    words(&Names::new(), cell)?.into_iter().map(byte).collect()
}

/// A typing: a digit for each pair, in the order of places; spaces are only for the eye.
pub fn grid(cell: &str) -> Result<Vec<u8>, String> {
    let digit = |sign: char| match sign {
        '0' => Ok(0),
        '1' => Ok(1),
        _ => Err(format!("{sign:?} isn't 0 or 1, as a typing needs")),
    };
    cell.chars()
        .filter(|sign| !sign.is_whitespace())
        .map(digit)
        .collect()
}

/// A typing as digits, a space after each card's.
pub fn shown(grid: &[u8], shapes: u16) -> String {
    let row = |row: &[u8]| row.iter().map(u8::to_string).collect::<String>();
    let rows: Vec<String> = grid.chunks(usize::from(shapes)).map(row).collect();
    rows.join(" ")
}

/// A number of a cell.
pub fn number<T: std::str::FromStr>(text: &str) -> Result<T, String> {
    text.parse()
        .map_err(|_| format!("{text:?} isn't a number that fits, nor a name"))
}
