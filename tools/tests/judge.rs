//! *Judge a grid*: the page's examples, both methods, what the page promises on all grids of tiny sheets, what comes
//! of each damage, and the command.

use prep_tools::desk::Desk;
use prep_tools::generate::judging::{grids, samples};
use prep_tools::generate::special::{document, DOCUMENT_SCRIPT, DOCUMENT_TEMPLATE};
use prep_tools::generate::{self, damage, Scale, SMALL, TINY};
use prep_tools::labels::{Label, Way};
use prep_tools::page::examples::{self, Operation};
use prep_tools::random::Random;
use prep_tools::refusal::Refusal;
use prep_tools::sheet::Files;
use prep_tools::typing::bookings::Booking;
use prep_tools::typing::judge::{answer, can_be_tried, judge, judge_by_choices, Judged};
use prep_tools::typing::met::{chosen_for, holds, lies_below, met_by_choices};
use prep_tools::typing::{self, bookings, closure, links, Grid, Pair, Setting, Smallest};
use std::collections::BTreeMap;
use std::fs;
use std::path::PathBuf;
use std::process::{self, Command};

const PAGE: &str = concat!(env!("CARGO_MANIFEST_DIR"), "/../docs/FORMAT.md");

/// A sheet with at most 12 pairs.
const TINIEST: Scale = Scale {
    name: "tiniest",
    kinds: 2,
    shapes: 3,
    labels_in_shape: 2,
    cards: 4,
    links: 8,
    bookings: 3,
};

/// A random sheet that is well-formed, and a desk.
struct Sheet {
    files: Files,
    setting: Setting,
    desk: Desk,
    /// The bookings of both desks.
    all: Vec<Booking>,
    /// What the desk books.
    booked: Vec<Pair>,
}

impl Sheet {
    fn new(random: &mut Random, scale: Scale) -> Sheet {
        let files = generate::any(random, scale);
        let (setting, all) = typing::read(&files.template, &files.script, &files.bookings)
            .expect("a generated sheet is well-formed");
        let desk = random.pick(&Desk::BOTH);
        Sheet {
            booked: bookings::of(desk, &all),
            files,
            setting,
            desk,
            all,
        }
    }

    /// What both methods say about a grid for the desk.
    fn judged(&self, grid: &[u8]) -> Result<Judged, Refusal> {
        judged(&self.files, self.desk.number(), grid)
    }

    /// The place of the card of the desk's booking of a pair, counted in the whole list.
    fn place(&self, pair: Pair) -> Option<usize> {
        let number = self.all.iter().position(|booking| *booking == (self.desk, pair));
        number.map(|number| 2 + 3 * number)
    }
}

/// What both methods say, which must be the same.
fn judged(files: &Files, desk: u16, grid: &[u8]) -> Result<Judged, Refusal> {
    let Files {
        template,
        script,
        bookings,
    } = files;
    let quick = judge(template, script, bookings, desk, grid);
    let by_choices = judge_by_choices(template, script, bookings, desk, grid);
    assert_eq!(quick, by_choices, "{files:?} {grid:?}");
    quick
}

#[test]
fn the_examples_of_the_page_are_the_samples() {
    let page = fs::read_to_string(PAGE).expect("the page can be read");
    let on_the_page: Vec<_> = examples::read(&page)
        .expect("the page has examples")
        .into_iter()
        .filter(|example| example.question.operation == Operation::Judge)
        .collect();
    let samples = samples::samples();
    assert_eq!(on_the_page.len(), samples.len());
    for (example, sample) in on_the_page.iter().zip(samples) {
        let question = &example.question;
        let files = Files {
            template: question.template.clone(),
            script: question.script.clone(),
            bookings: question.bookings.clone(),
        };
        assert_eq!((&files, &question.grid), (&sample.files, &sample.grid));
        assert_eq!(question.desk, sample.desk, "{files:?}");
        let said = judged(&files, sample.desk, &sample.grid);
        assert_eq!(answer(said), example.answer, "{files:?}");
        assert_eq!(sample.answer(), example.answer);
    }
}

#[test]
fn both_methods_agree() {
    let mut random = Random::new(71);
    let (mut accepted, mut not_met, mut tried, mut left, mut arriving) = (0, 0, 0, 0, 0);
    for number in 0..4000 {
        let scale = if number % 4 == 0 { SMALL } else { TINY };
        let sheet = Sheet::new(&mut random, scale);
        let setting = &sheet.setting;
        let (_, grid) = grids::grid(&mut random, setting, &sheet.booked);
        match sheet.judged(&grid) {
            Ok(Judged::Accepted) => accepted += 1,
            Ok(Judged::NotMet(..)) => not_met += 1,
            Err(_) => continue,
        }
        for pair in setting.pairs().filter(|pair| grid[setting.place(*pair)] == 1) {
            match can_be_tried(setting, &grid, pair) {
                true => tried += 1,
                false => left += 1,
            }
            let ends = chosen_for(setting, pair);
            arriving += usize::from(ends.iter().any(|end| end.label.way == Way::Incoming));
        }
    }
    let told = format!(
        "{accepted} accepted, {not_met} not met; {tried} pairs tried, {left} not; {arriving} arriving"
    );
    assert!(accepted > 700 && not_met > 700, "{told}");
    assert!(tried > 8 * left && tried > 10_000 && arriving > 3000, "{told}");
}

/// All grids of this many bytes 0 or 1.
fn all_grids(size: usize) -> impl Iterator<Item = Grid> {
    (0..1_u32 << size).map(move |bits| (0..size).map(|place| (bits >> place & 1) as u8).collect())
}

/// What the page says about a grid of 0s and 1s, with no other method than trying every choice.
fn by_definition(sheet: &Sheet, grid: &[u8]) -> Result<Judged, Refusal> {
    let setting = &sheet.setting;
    let unmet = |pair: &Pair| grid[setting.place(*pair)] == 1 && !met_by_choices(setting, grid, *pair);
    if let Some((card, shape)) = setting.pairs().find(unmet) {
        return Ok(Judged::NotMet(card, shape));
    }
    let unheld = |pair: &&Pair| !holds(setting, grid, &[**pair]);
    match sheet
        .booked
        .iter()
        .find(unheld)
        .and_then(|pair| sheet.place(*pair))
    {
        Some(place) => Err(Refusal::at(63, place)),
        None => Ok(Judged::Accepted),
    }
}

#[test]
fn all_grids_of_tiny_sheets_are_judged_as_the_page_says() {
    let mut random = Random::new(72);
    let (mut sheets, mut unmet, mut between, mut refused_between) = (0, 0, 0, 0);
    while sheets < 800 {
        let sheet = Sheet::new(&mut random, TINIEST);
        let (files, setting) = (&sheet.files, &sheet.setting);
        if setting.size() > 10 {
            continue;
        }
        sheets += 1;
        let (_, top) = links::largest(setting);
        let (smallest, bottom) = closure::smallest(setting, &sheet.booked);
        let is_met = matches!(smallest, Smallest::Pairs(_));
        unmet += usize::from(!is_met);
        let mut accepted = 0;
        for grid in all_grids(setting.size()) {
            let answer = sheet.judged(&grid);
            assert_eq!(answer, by_definition(&sheet, &grid), "{files:?} {grid:?}");
            let lies_between = is_met && lies_below(&bottom, &grid) && lies_below(&grid, &top);
            if answer == Ok(Judged::Accepted) {
                accepted += 1;
                assert!(lies_between, "{files:?} {grid:?}");
                between += usize::from(grid != top && grid != bottom);
            } else {
                assert!(!is_met || (grid != top && grid != bottom), "{files:?} {grid:?}");
                refused_between += usize::from(lies_between);
            }
        }
        // The smallest is one of them, so some grid is accepted exactly if 50 isn't answered.
        assert_eq!(accepted > 0, is_met, "{files:?}");
    }
    let told = format!("{unmet} unmet, {between} strictly between, {refused_between} between and refused");
    assert!(unmet > 120 && between > 3000 && refused_between > 300, "{told}");
}

/// Whether a pair asks for another one over some link, along it or against it.
fn asks_for(setting: &Setting, (card, shape): Pair, (far, needed): Pair) -> bool {
    let named = setting.template.part(shape).named(setting.template.kinds);
    setting.script.links.iter().any(|link| {
        let along = (link.from, link.to) == (card, far) && named[Label::outgoing(link.kind)] == Some(needed);
        let against =
            (link.to, link.from) == (card, far) && named[Label::incoming(link.kind)] == Some(needed);
        along || against
    })
}

/// Each change of an accepted grid that is one byte or one pair away, and what must be said about it.
fn changes(sheet: &Sheet, grid: &[u8]) -> Vec<(Grid, Result<Judged, Refusal>)> {
    let setting = &sheet.setting;
    let mut changes = Vec::new();
    for pair in setting.pairs() {
        let place = setting.place(pair);
        let with = |byte: u8| {
            let mut changed = grid.to_vec();
            changed[place] = byte;
            changed
        };
        changes.push((with(2), Err(Refusal::at(61, place))));
        changes.push((with(255), Err(Refusal::at(61, place))));
        if grid[place] == 0 {
            // One pair more takes nothing from the others.
            let said = match met_by_choices(setting, &with(1), pair) {
                true => Judged::Accepted,
                false => Judged::NotMet(pair.0, pair.1),
            };
            changes.push((with(1), Ok(said)));
            continue;
        }
        let less = with(0);
        let asking = setting
            .pairs()
            .find(|other| less[setting.place(*other)] == 1 && asks_for(setting, *other, pair));
        let said = match (asking, sheet.place(pair)) {
            (Some((card, shape)), _) => Ok(Judged::NotMet(card, shape)),
            (None, Some(place)) => Err(Refusal::at(63, place)),
            (None, None) => Ok(Judged::Accepted),
        };
        changes.push((less, said));
    }
    changes
}

#[test]
fn a_grid_that_is_one_byte_off_is_told_where() {
    let mut random = Random::new(73);
    let mut tally = [0; 5];
    for _ in 0..600 {
        let sheet = Sheet::new(&mut random, TINY);
        let files = &sheet.files;
        let grid = grids::between(&mut random, &sheet.setting, &sheet.booked);
        if sheet.judged(&grid) != Ok(Judged::Accepted) {
            continue;
        }
        for (changed, said) in changes(&sheet, &grid) {
            assert_eq!(sheet.judged(&changed), said, "{files:?} {grid:?} {changed:?}");
            let number = match said {
                Ok(Judged::Accepted) => 0,
                Ok(Judged::NotMet(..)) => 1,
                Err(refusal) => usize::from(refusal.number) - 61 + 2,
            };
            tally[number] += 1;
        }
        for size in [0, grid.len() - grid.len().min(1), grid.len() + 1] {
            let mut other = grid.clone();
            other.resize(size, 2);
            let said = sheet.judged(&other);
            assert_eq!(said == Err(Refusal::at(40, 0)), size != grid.len(), "{files:?}");
            let no_desk = judged(files, 2, &other);
            assert_eq!(no_desk, Err(Refusal::at(66, 0)), "{files:?}");
        }
    }
    // Accepted, 62, 61 and 63.
    assert!(
        tally[0] > 300 && tally[1] > 1000 && tally[2] > 3000 && tally[4] > 100,
        "{tally:?}"
    );
}

#[test]
fn a_file_that_is_refused_comes_before_the_grid() {
    let mut random = Random::new(74);
    let of_files = |number: &u16| ![50, 60].contains(number);
    let aims: Vec<u16> = damage::AIMS.into_iter().filter(of_files).collect();
    let mut hit = BTreeMap::new();
    for number in aims.iter().cycle().take(1500) {
        let Sheet {
            mut files, setting, ..
        } = Sheet::new(&mut random, TINY);
        damage::aimed(&mut random, &mut files, *number);
        let size = setting.size() + random.below(2);
        let grid: Grid = (0..size).map(|_| random.below(3) as u8).collect();
        let read = Setting::read(&files.template, &files.script)
            .and_then(|setting| bookings::read(&setting, &files.bookings));
        if let Err(refusal) = read {
            let desk = random.word(0, 2);
            assert_eq!(judged(&files, desk, &grid), Err(refusal), "{files:?}");
            *hit.entry(refusal.number).or_insert(0) += 1;
        }
    }
    for number in aims {
        let count = hit.get(&number).copied().unwrap_or(0);
        assert!(count > 10, "{number}: {hit:?}");
    }
}

#[test]
fn the_order_of_the_faults() {
    let files = document(&[3, 1, 0, 0, 0, 1, 0, 0, 2, 1]);
    let said = |grid: &[u8]| answer(judged(&files, 0, grid));
    // The radio's first booking isn't held; card 0 has shape 1 and links; a byte is over 1; a byte is missing.
    assert_eq!(said(&[0, 0, 0, 0, 0, 1]), "refused 63 5");
    assert_eq!(said(&[0, 1, 0, 0, 0, 1]), "refused 62 0 1");
    assert_eq!(said(&[0, 1, 0, 0, 0, 2]), "refused 61 5");
    assert_eq!(said(&[0, 1, 0, 0, 2]), "refused 40 0");
    let with = |desk: u16, words: &[u16]| {
        answer(judge(
            &DOCUMENT_TEMPLATE,
            &DOCUMENT_SCRIPT,
            words,
            desk,
            &[0, 1, 0, 0, 2],
        ))
    };
    assert_eq!(with(2, &[2, 0, 1, 0, 0, 2, 1]), "refused 66 0");
    assert_eq!(with(2, &[2, 0, 1, 0, 0, 1, 0]), "refused 65 5");
    assert_eq!(with(2, &[2, 0, 1, 0, 0, 2, 2]), "refused 33 6");
    assert_eq!(with(2, &[2, 0, 1, 0, 0, 3, 2]), "refused 32 5");
    assert_eq!(with(2, &[2, 0, 1, 0, 2, 3, 2]), "refused 66 4");
    let unread = judge(&DOCUMENT_TEMPLATE, &[1025, 0], &[], 2, &[2]);
    assert_eq!(answer(unread), "refused 21 0");
    assert_eq!(answer(judge(&[1], &[1025, 0], &[], 2, &[2])), "refused 1 0");
}

#[test]
fn what_the_other_desk_books_does_not_matter() {
    let files = document(&[3, 1, 0, 0, 0, 2, 1, 1, 2, 1]);
    let said = |desk: u16, grid: &[u8]| answer(judged(&files, desk, grid));
    assert_eq!(said(0, &[0, 0, 0, 0, 0, 1]), "accepted");
    assert_eq!(said(1, &[0, 0, 0, 0, 0, 1]), "refused 63 2");
    assert_eq!(said(0, &[0, 0, 0, 0, 0, 0]), "refused 63 5");
    // The pair that isn't met comes before the booking that isn't held, for each desk.
    assert_eq!(said(0, &[1, 0, 0, 0, 0, 0]), "refused 62 0 0");
    assert_eq!(said(1, &[1, 0, 0, 0, 0, 0]), "refused 62 0 0");
}

/// A text with titles, one of whose links leads to a card that can't be what it must be.
const TEXT: &str = "\
kinds: a b
shape First = all(a[1;1]@Second, b[0;1]@First)
shape Second = nothing
card zero \"The first card\"
card one
card two
link zero a two
link zero b one
link one a zero
book two Second
";

/// A folder with a text, its words and a grid.
struct Folder {
    folder: PathBuf,
}

impl Folder {
    fn new(name: &str, text: &str) -> Folder {
        let folder = std::env::temp_dir().join(format!("prep-tools-judge-{}-{name}", process::id()));
        fs::create_dir_all(&folder).expect("the folder can be made");
        let folder = Folder { folder };
        fs::write(folder.folder.join("sheet.txt"), text).expect("the file can be written");
        let (_, _, code) = folder.run(&["words", "sheet.txt", "sheet.bin"]);
        assert!(code == Some(0) || code == Some(2));
        folder
    }

    /// What a command writes, what it complains about, and its exit code.
    fn run(&self, words: &[&str]) -> (String, String, Option<i32>) {
        let output = Command::new(env!("CARGO_BIN_EXE_prep-tools"))
            .args(words)
            .current_dir(&self.folder)
            .output()
            .expect("the program starts");
        let text = |bytes: &[u8]| String::from_utf8_lossy(bytes).into_owned();
        (text(&output.stdout), text(&output.stderr), output.status.code())
    }

    /// What is said about a grid of a sheet.
    fn judge(&self, sheet: &str, grid: &[u8]) -> (String, String, Option<i32>) {
        fs::write(self.folder.join("grid"), grid).expect("the file can be written");
        self.run(&["judge", sheet, "grid"])
    }
}

impl Drop for Folder {
    fn drop(&mut self) {
        fs::remove_dir_all(&self.folder).expect("the folder can be removed");
    }
}

/// Grids for the text, the exit code, and what is said.
const OUTCOMES: [(&[u8], i32, &str); 6] = [
    (
        &[0, 0, 0, 0, 0, 1],
        0,
        "sheet.txt: the grid is accepted: a sound typing that holds the one booking of radio\n  \
         it has 1 pair; the smallest typing has 1, the largest 1\n",
    ),
    (
        &[0, 0, 0, 0, 1],
        1,
        "grid: refused 40 0: the grid has not cards x shapes bytes\n  \
         it has 5 bytes; 3 cards times 2 shapes are 6\n",
    ),
    (
        &[0, 2, 0, 0, 0, 255],
        1,
        "sheet.txt:4:6: refused 61 1: a byte of the grid is over 1\n  \
         byte 1 is 2; 0 or 1 there says whether \"The first card\" is Second\n",
    ),
    (
        &[0, 1, 0, 1, 0, 1],
        1,
        "sheet.txt:4:6: The first card can't be Second: no a wanted, 1 there; no b wanted, 1 there\n  \
         refused 62 0 1: a pair of the grid is not met under it\n",
    ),
    (
        &[0, 0, 1, 0, 0, 1],
        1,
        "sheet.txt:5:6: one isn't First under the grid: its a \"The first card\" isn't Second\n  \
         refused 62 1 0: a pair of the grid is not met under it\n  \
         no sound typing has this pair: its a \"The first card\" can't be Second: \
         no a wanted, 1 there; no b wanted, 1 there\n",
    ),
    (
        &[0, 0, 0, 0, 0, 0],
        1,
        "sheet.txt:10:6: refused 63 2: a booked pair is not in the grid\n  \
         two is booked by radio as Second, which it isn't in the grid\n  \
         word 2 of the bookings is 2: the card of the booking two Second\n",
    ),
];

#[test]
fn the_command_tells_the_outcome_in_words() {
    let folder = Folder::new("words", TEXT);
    for (grid, code, told) in OUTCOMES {
        let said = folder.judge("sheet.txt", grid);
        assert_eq!(said, (told.to_string(), String::new(), Some(code)));
        let (_, _, of_words) = folder.judge("sheet.bin", grid);
        assert_eq!(of_words, Some(code));
    }
}

#[test]
fn the_command_tells_words_without_lines_and_columns() {
    let folder = Folder::new("numbers", TEXT);
    for (grid, told) in [
        (
            [0, 0, 0, 0, 3, 0],
            "sheet.bin: refused 61 4: a byte of the grid is over 1\n  \
             byte 4 is 3; 0 or 1 there says whether card2 is Shape0\n",
        ),
        (
            [1, 0, 0, 0, 0, 0],
            "sheet.bin: card0 isn't Shape0 under the grid: its kind0 card2 isn't Shape1; its kind1 card1 \
             isn't Shape0\n",
        ),
        (
            [0, 0, 0, 0, 0, 0],
            "sheet.bin: refused 63 2: a booked pair is not in the grid\n  \
             card2 is booked by radio as Shape1, which it isn't in the grid\n  \
             word 2 of the bookings is 2: the card of booking 0, counted from 0\n",
        ),
    ] {
        let (said, _, code) = folder.judge("sheet.bin", &grid);
        assert!(said.starts_with(told) && code == Some(1), "{said}");
    }
}

#[test]
fn the_command_counts_bookings_and_far_cards() {
    let many = "kinds: a\nshape Hub = a[0;]@Leaf\nshape Leaf = nothing\ncard h\n";
    let names = ["p", "q", "r", "s", "t", "u"];
    let cards: String = names.iter().map(|name| format!("card {name}\n")).collect();
    let text = format!("{many}{cards}link h a {}\n", names.join(" "));
    let folder = Folder::new("many", &text);
    let lone_hub = [vec![1, 0], vec![0; 12]].concat();
    let (said, _, code) = folder.judge("sheet.txt", &lone_hub);
    let told = "sheet.txt:4:6: h isn't Hub under the grid: its a p isn't Leaf; its a q isn't Leaf; \
                its a r isn't Leaf; its a s isn't Leaf; so with 2 more of its links\n  \
                refused 62 0 0: a pair of the grid is not met under it\n";
    assert_eq!((said.as_str(), code), (told, Some(1)));
    let (said, _, code) = folder.judge("sheet.txt", &[0; 14]);
    assert!(said.starts_with("sheet.txt: the grid is accepted: a sound typing; nothing is booked by radio\n"));
    assert_eq!(code, Some(0));
    let folder = Folder::new("two", &format!("{text}book h Hub\nbook p Leaf\n"));
    let (said, _, _) = folder.judge("sheet.txt", &[vec![1, 0], [0, 1].repeat(6)].concat());
    assert!(said.contains("a sound typing that holds all 2 bookings of radio\n  it has 7 pairs; "));
}

/// Two items that point at a guest, who asks for both.
const ARRIVING: &str = "\
kinds: guest
shape Item = guest[1;1]@Guest
shape Guest = ^guest[2;]@Item
card quiz \"The quiz\"
card night
card ann
link quiz guest ann
link night guest ann
book ann Guest
";

#[test]
fn the_command_tells_which_card_points_at_another() {
    let folder = Folder::new("arriving", ARRIVING);
    for (grid, told) in [
        (
            [0, 0, 0, 0, 0, 1],
            "sheet.txt:6:6: ann isn't Guest under the grid: \"The quiz\", which points at it by guest, isn't \
             Item; night, which points at it by guest, isn't Item\n  refused 62 2 1: ",
        ),
        (
            [1, 0, 1, 0, 0, 0],
            "sheet.txt:4:6: The quiz isn't Item under the grid: its guest ann isn't Guest\n  refused 62 0 0: ",
        ),
        (
            [1, 1, 1, 0, 0, 1],
            "sheet.txt:4:6: The quiz can't be Guest: at least 2 arriving guest links wanted, 0 there; \
             no guest wanted, 1 there\n  refused 62 0 1: ",
        ),
        (
            [0, 0, 0, 0, 0, 0],
            "sheet.txt:9:6: refused 63 2: a booked pair is not in the grid\n",
        ),
        (
            [1, 0, 1, 0, 0, 1],
            "sheet.txt: the grid is accepted: a sound typing that holds the one booking of radio\n",
        ),
    ] {
        let (said, _, _) = folder.judge("sheet.txt", &grid);
        assert!(said.starts_with(told), "{said}");
    }
    let (said, _, _) = folder.run(&["explain", "62", "2", "1", "sheet.txt"]);
    assert!(
        said.contains(
            "  \"The quiz\", which points at it by guest, must be Item; night, which points at it by guest, \
             must be Item; `judge FILE GRID` tells"
        ),
        "{said}"
    );
}

#[test]
fn the_command_judges_for_a_desk() {
    let folder = Folder::new("desks", &format!("{TEXT}book 1 zero First\n"));
    for (desk, code, told) in [
        (
            "0",
            0,
            "sheet.txt: the grid is accepted: a sound typing that holds the one booking of radio\n",
        ),
        (
            "1",
            1,
            "sheet.txt:11:8: refused 63 5: a booked pair is not in the grid\n  \
             The first card is booked by television as First, which it isn't in the grid\n  \
             word 5 of the bookings is 0: the card of the booking 1 zero First\n",
        ),
    ] {
        fs::write(folder.folder.join("grid"), [0, 0, 0, 0, 0, 1]).expect("the file can be written");
        let (said, _, ended) = folder.run(&["judge", "sheet.txt", "grid", desk]);
        assert!(said.starts_with(told) && ended == Some(code), "{said}");
    }
    for (name, number) in [("radio", "0"), ("television", "1")] {
        let judged = |desk: &str| folder.run(&["judge", "sheet.txt", "grid", desk]);
        assert_eq!(judged(name), judged(number));
    }
}

#[test]
fn a_desk_that_there_is_not_is_a_wrong_call() {
    let folder = Folder::new("third-desk", TEXT);
    fs::write(folder.folder.join("grid"), [0, 0, 0, 0, 0, 1]).expect("the file can be written");
    for desk in ["2", "65536", "-1", "tv"] {
        let (said, told, code) = folder.run(&["judge", "sheet.txt", "grid", desk]);
        let start =
            format!("prep-tools: judge: DESK is 0 or radio, 1 or television, not {desk}\n  prep-tools judge");
        assert!(
            said.is_empty() && told.starts_with(&start) && code == Some(2),
            "{told}"
        );
    }
}

#[test]
fn a_file_that_is_no_sheet_cannot_be_judged() {
    let folder = Folder::new("no-sheet", &TEXT.replace("[1;1]", "[2;1]"));
    let (said, told, code) = folder.judge("sheet.txt", &[0; 6]);
    assert_eq!((said.as_str(), code), ("", Some(2)));
    assert!(
        told.starts_with("prep-tools: sheet.txt:2:21: refused 10 7: "),
        "{told}"
    );
    let (_, told, code) = folder.run(&["judge", "sheet.txt", "nothing"]);
    assert_eq!(code, Some(2), "{told}");
    let (_, told, code) = folder.run(&["judge", "-", "-"]);
    assert_eq!(code, Some(2));
    assert!(told.contains("can't both be standard input"), "{told}");
}

#[test]
fn a_refusal_of_a_grid_is_explained_without_it() {
    let folder = Folder::new("explain", TEXT);
    let explained = |words: &[&str]| {
        let (said, _, code) = folder.run(&[&["explain"], words, &["sheet.txt"]].concat());
        assert_eq!(code, Some(0), "{words:?}");
        said
    };
    assert_eq!(
        explained(&["61", "5"]),
        "sheet.txt:6:6: refused 61 5: a byte of the grid is over 1\n  \
         0 or 1 there says whether two is Second\n"
    );
    assert_eq!(
        explained(&["63", "2"]),
        "sheet.txt:10:6: refused 63 2: a booked pair is not in the grid\n  \
         two is booked by radio as Second, which it isn't in the grid\n  \
         word 2 of the bookings is 2: the card of the booking two Second\n"
    );
    let pair = explained(&["62", "1", "0"]);
    assert!(
        pair.starts_with("sheet.txt:5:6: one isn't First under the grid that was judged\n"),
        "{pair}"
    );
    assert!(pair.contains("  its a \"The first card\" must be Second; `judge FILE GRID` tells"));
    assert!(
        explained(&["62", "2", "0"]).starts_with("sheet.txt:6:6: two can't be First: 1 a wanted, 0 there\n")
    );
}

#[test]
fn a_refusal_that_no_grid_has_is_told_so() {
    let folder = Folder::new("explain-not", TEXT);
    for (words, told) in [
        (
            &["61", "6"][..],
            "61 6: template, script and bookings are well-formed",
        ),
        (
            &["63", "3"],
            "63 3: template, script and bookings are well-formed",
        ),
        (
            &["62", "3", "0"],
            "62 3 0: there is no such card or no such shape",
        ),
        (
            &["62", "2", "1"],
            "62 2 1: two needs no other card and can be Second under every grid",
        ),
    ] {
        let (said, _, code) = folder.run(&[&["explain"], words, &["sheet.txt"]].concat());
        assert_eq!(said, format!("sheet.txt: this isn't refused with {told}\n"));
        assert_eq!(code, Some(1));
    }
}
