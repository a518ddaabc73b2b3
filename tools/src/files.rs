//! Files that commands read and write; `-` is standard input or output.

use std::fs;
use std::io::{self, Read, Write};

/// The bytes of a file.
pub fn read(file: &str) -> Result<Vec<u8>, String> {
    if file == "-" {
        let mut bytes = Vec::new();
        io::stdin()
            .read_to_end(&mut bytes)
            .map_err(|error| format!("standard input can't be read: {error}"))?;
        return Ok(bytes);
    }
    fs::read(file).map_err(|error| format!("the file {file} can't be read: {error}"))
}

/// Writes a file.
pub fn write(file: &str, bytes: &[u8]) -> Result<(), String> {
    if file == "-" {
        return show(bytes);
    }
    fs::write(file, bytes).map_err(|error| format!("the file {file} can't be written: {error}"))
}

/// Writes to standard output.
pub fn show(bytes: impl AsRef<[u8]>) -> Result<(), String> {
    let mut out = io::stdout();
    out.write_all(bytes.as_ref())
        .and_then(|()| out.flush())
        .map_err(|error| format!("standard output can't be written: {error}"))
}
