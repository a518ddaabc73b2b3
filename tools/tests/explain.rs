//! `explain`: a refusal that some program printed is explained if it is one of the file, and else told not to be.

use std::env;
use std::fs;
use std::path::PathBuf;
use std::process::{self, Command};

/// A text whose booking is met.
const SHEET: &str = "\
kinds: guest
shape Item = guest[1;2]@Guest
shape Guest = nothing
card quiz \"The quiz\"
card ann
link quiz guest ann
book quiz Item
";

/// A new folder with a sheet in it, removed with what is in it.
struct Folder(PathBuf);

impl Folder {
    fn new(name: &str, sheet: &str) -> Folder {
        let path = env::temp_dir().join(format!("prep-tools-explain-{}-{name}", process::id()));
        fs::create_dir_all(&path).expect("the folder can be made");
        fs::write(path.join("x.txt"), sheet).expect("the file can be written");
        Folder(path)
    }

    /// What is said about the refusal with these numbers, and the exit code.
    fn explain(&self, numbers: &str) -> (String, Option<i32>) {
        let output = Command::new(env!("CARGO_BIN_EXE_prep-tools"))
            .arg("explain")
            .args(numbers.split_whitespace())
            .arg("x.txt")
            .current_dir(&self.0)
            .output()
            .expect("the program starts");
        let said = [output.stdout, output.stderr].concat();
        (String::from_utf8_lossy(&said).into_owned(), output.status.code())
    }
}

impl Drop for Folder {
    fn drop(&mut self) {
        let _ = fs::remove_dir_all(&self.0);
    }
}

#[test]
fn a_refusal_of_the_file_is_explained() {
    let (said, code) = Folder::new("so", &SHEET.replace("[1;2]", "[2;1]")).explain("10 5");
    assert!(said.starts_with("x.txt:2:20: refused 10 5: "), "{said}");
    assert!(said.contains("the low 2 is above the high 1"), "{said}");
    assert_eq!(code, Some(0));
    let not_met = Folder::new("so-50", &SHEET.replace("quiz Item", "quiz Guest"));
    let told = "x.txt:4:6: The quiz can't be Guest: no guest wanted, 1 there\n  \
                refused 50 0 1 for radio: its bookings ask for quiz to have shape Guest\n  this is booked by radio\n";
    assert_eq!(not_met.explain("50 0 1"), (told.to_string(), Some(0)));
    let fault = Folder::new("so-fault", &SHEET.replace("[1;2]", "[1;2"));
    let (said, code) = fault.explain("10 5");
    assert!(
        said.contains("x.txt:2:19: this `[` isn't closed before line 3"),
        "{said}"
    );
    assert_eq!(code, Some(2));
}

#[test]
fn a_refusal_that_is_not_the_files_is_told_so() {
    let folder = Folder::new("not", SHEET);
    assert_eq!(folder.explain(""), ("nothing is wrong\n".to_string(), Some(0)));
    for numbers in ["10 5", "60 0", "66 1", "63 1", "61 4", "43 2", "40 1", "99 0"] {
        let well_formed = "template, script and bookings are well-formed";
        let told = format!("x.txt: this isn't refused with {numbers}: {well_formed}\n");
        assert_eq!(folder.explain(numbers), (told, Some(1)));
    }
}

#[test]
fn a_refusal_that_is_up_to_a_call_is_explained_without_it() {
    let folder = Folder::new("call", SHEET);
    for numbers in ["66 0", "63 2", "61 3", "43 1", "41 0", "40 0"] {
        let (said, code) = folder.explain(numbers);
        assert!(said.contains(&format!(": refused {numbers}: ")), "{said}");
        assert_eq!(code, Some(0));
    }
    // It isn't known which call it was.
    let (said, _) = folder.explain("40 0");
    assert!(
        said.contains("\n  Tidy bookings says it of the array for the tidied list"),
        "{said}"
    );
}

#[test]
fn a_50_that_no_desk_has_is_told_so() {
    let folder = Folder::new("not-50", SHEET);
    let told = "x.txt: this isn't refused with 50 0 1\n\
                x.txt:4:6: The quiz can't be Guest: no guest wanted, 1 there\n  no booking asks for this\n";
    assert_eq!(folder.explain("50 0 1"), (told.to_string(), Some(1)));
    let told = "x.txt: this isn't refused with 50 1 1\nx.txt:5:6: ann can be Guest\n";
    assert_eq!(folder.explain("50 1 1"), (told.to_string(), Some(1)));
    let told = "x.txt: this isn't refused with 50 2 0: there is no such card or no such shape\n";
    assert_eq!(folder.explain("50 2 0"), (told.to_string(), Some(1)));
    let other = Folder::new("other-50", &(SHEET.to_string() + "book 1 ann Item\n"));
    let (said, code) = other.explain("50 0 1");
    assert!(
        said.starts_with("x.txt: this isn't refused with 50 0 1; television is with 50 1 0\n"),
        "{said}"
    );
    assert_eq!(code, Some(1));
}

#[test]
fn a_file_that_is_refused_otherwise_is_told_so() {
    let folder = Folder::new(
        "otherwise",
        &(SHEET.to_string() + "book quiz Item\nbook quiz Item\n"),
    );
    for numbers in ["10 5", "50 0 0", "62 0 0", "63 2", "66 0"] {
        let (said, code) = folder.explain(numbers);
        let told = format!("x.txt: this isn't refused with {numbers}, but so:\nx.txt:8:6: refused 65 5: ");
        assert!(said.starts_with(&told), "{said}");
        assert_eq!(code, Some(1));
    }
    // `check` tells the other repeat too. Fit counts reads only the template, Largest no bookings.
    for numbers in ["65 5", "65 8", "41 0", "40 0"] {
        assert_eq!(folder.explain(numbers).1, Some(0), "{numbers}");
    }
}
