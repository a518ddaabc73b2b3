//! The examples: words, sheets and drawings are those that the tools make of their texts.

use prep_tools::draw::choice::Choice;
use prep_tools::draw::draw;
use prep_tools::sheet;
use prep_tools::text::check;
use std::fs;
use std::path::{Path, PathBuf};

fn folder(name: &str) -> PathBuf {
    Path::new(env!("CARGO_MANIFEST_DIR"))
        .join("../examples")
        .join(name)
}

/// The sheet of an example's text.
fn sheet_of(file: &Path) -> check::Sheet {
    let text = fs::read_to_string(file).expect("the text is there");
    check::run("x.txt", &text).expect("the text is a sheet")
}

#[test]
fn the_files_of_the_example_belong_together() {
    for name in ["programme", "draft"] {
        let file = |end: &str| folder("prep").join(format!("{name}.{end}"));
        let read = |end: &str| fs::read(file(end)).expect("the file is there");
        let sheet = sheet_of(&file("txt"));
        let words = sheet.compiled.files().bytes();
        assert_eq!(read("bin"), words, "{name}.bin");
        assert_eq!(read("sheet"), sheet::print(&words).into_bytes(), "{name}.sheet");
        let drawing = draw(&sheet, Choice::All);
        assert_eq!(drawing.pages.len(), 1);
        assert!(
            read("svg") == drawing.pages[0].svg.as_bytes(),
            "{name}.svg isn't the drawing of {name}.txt"
        );
    }
}

#[test]
fn the_larger_drawings_belong_to_their_texts() {
    for (name, cards, pages) in [("row", 40, 1), ("day", 100, 1), ("wiring", 32, 2)] {
        let sheet = sheet_of(&folder("drawings").join(format!("{name}.txt")));
        assert_eq!(sheet.text.cards.len(), cards);
        let files = draw(&sheet, Choice::All).files(&format!("{name}.svg"));
        assert_eq!(files.len(), pages);
        for (file, drawing) in files {
            let stored = fs::read_to_string(folder("drawings").join(&file)).expect("the drawing is there");
            assert!(stored == drawing, "{file} isn't the drawing of {name}.txt");
        }
    }
}
