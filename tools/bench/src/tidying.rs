//! The library's tidying of booking lists against its reading of the sheet, which is part of it.

use crate::runs;
use prep::raw::{self, WrittenAnswer};
use prep_tools::sheet::Files;

/// What the words of the buffer are before the first call.
const UNTOUCHED: u16 = 7;

/// A sheet whose booking list is tidied.
pub struct Listed {
    /// What it is.
    pub name: &'static str,
    /// Its words. The list is a stored one, without desks, where pairs may stand several times.
    pub files: Files,
    /// The list that is owed.
    pub tidied: Vec<u16>,
}

/// What the columns are.
pub fn print_head() {
    println!("A sheet's template and script read, and 1,024 bookings tidied, in ms, both by the library. To tidy a");
    println!("list, the template and the script are read first. The last column counts the words that are written.");
    println!();
    println!(
        "{:42} {:>10} {:>10} {:>10} {:>10}",
        "sheet", "read", "tidy", "tidy/read", "words"
    );
}

/// Times one list, prints its line, and tells whether what is written is the list that is owed.
pub fn time(listed: &Listed) -> bool {
    let files = &listed.files;
    let mut buffer = vec![UNTOUCHED; 1 + 3 * usize::from(files.bookings[0])];
    let read = || raw::read_script(&files.template, &files.script);
    let tidy = || raw::tidy_bookings(&files.template, &files.script, &files.bookings, &mut buffer);
    let [read, tidy] = runs::medians(read, tidy);
    let tidied = is_tidied(listed, &mut buffer);
    println!(
        "{:42} {read:>10.4} {tidy:>10.4} {:>10.2} {:>10}{}",
        listed.name,
        tidy / read,
        listed.tidied.len(),
        if tidied { "" } else { "  DIFFERS" }
    );
    tidied
}

/// Whether the list that is owed is written, and nothing behind it in any call.
fn is_tidied(listed: &Listed, buffer: &mut [u16]) -> bool {
    let files = &listed.files;
    let answer = raw::tidy_bookings(&files.template, &files.script, &files.bookings, buffer);
    let (written, rest) = buffer.split_at(listed.tidied.len());
    let owed = WrittenAnswer {
        number: 0,
        place: 0,
        written: written.len(),
    };
    answer == owed && written == listed.tidied && rest.iter().all(|&word| word == UNTOUCHED)
}
