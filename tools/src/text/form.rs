//! What a file holds, text or words, told by what is in it and not by its name.

/// What a file holds.
#[derive(Clone, Copy, PartialEq, Eq, Debug)]
pub enum Form {
    /// The text form of a sheet.
    Text,
    /// Words, the sheet printer's input.
    Words,
}

/// How many bytes at the start of a file tell what it holds.
pub const TOLD_BY: usize = 4;

/// What the bytes of a file are: a text if none of the first four is a control character other than a tab or the
/// end of a line. The fourth byte of words that aren't refused is 0, because it belongs to the count of kinds.
pub fn form(bytes: &[u8]) -> Form {
    let of_text = |byte: &u8| matches!(byte, b'\t' | b'\n' | b'\r' | b' '..=b'~' | 0x80..);
    match bytes.first_chunk::<TOLD_BY>() {
        Some(start) if start.iter().all(of_text) => Form::Text,
        _ => Form::Words,
    }
}
