//! Damaged files: whatever is in a file, it is a sheet or it is told why not, and nothing panics.

use prep_tools::desk::Desk;
use prep_tools::generate;
use prep_tools::numbers::{Card, Shape};
use prep_tools::random::Random;
use prep_tools::refusal::Refusal;
use prep_tools::text::check::Sheet;
use prep_tools::text::form::{form, Form};
use prep_tools::text::judged::{self, Verdict};
use prep_tools::text::load::{load_input, load_sheet};
use prep_tools::text::printed;
use prep_tools::text::tidy::tidy;
use prep_tools::text::trouble::{Trouble, Why};
use prep_tools::text::{machine, write};

const TEXTS: [&str; 6] = [
    include_str!("../../examples/prep/programme.txt"),
    include_str!("../../examples/prep/draft.txt"),
    "kinds: a b\nshape A = choice(all(a[1;2]@B, nothing)*, b[0;]@A)+\nshape B = (nothing)?\ncard x \"t \\\" \\\\\"\n\
     card y\nlink x a y x\nlink y b x\nbook x A\ntitle \"T\"\n",
    "kinds: a b\nshape A = all(a[0;2]@B, ^b[0;]@A)\nshape B = choice(^a[1;]@A, all(^b[1;1]@B, b[1;]@A)+)?\n\
     card x\ncard y\ncard z\nlink x a y z\nlink x b x\nlink z b y\nbook y B\n",
    "kinds: a\nshape A = nothing\nshape B = a[0;]@A\ncard x\nbook x A # once\ncard y\nbook y A\nbook x B\n\
     # twice\nlink y a x\nbook x A # more\n\tbook y A\n",
    "kinds: a\nshape A = nothing\nshape B = a[1;]@A\ncard x\ncard y\nlink y a x\nbook 0 x A\nbook 1 x A\nbook 1 y B\n\
     book y B\nbook 1 x B\n",
];

/// Pieces that a text is made of, and some that it isn't.
const PIECES: [&str; 27] = [
    "^",
    "(",
    ")",
    "[",
    "]",
    ";",
    "@",
    "*",
    "+",
    "?",
    "\"",
    "\\",
    "\n",
    "#",
    "choice(",
    "all(",
    "nothing",
    "65535",
    "99999999999",
    "card ",
    "link ",
    "book ",
    "book 1 ",
    "book 2 ",
    "\u{feff}",
    "\u{0}",
    "é",
];

/// Everything that can be said about a file, to see that nothing panics.
fn try_all(bytes: &[u8]) -> bool {
    let _ = load_input("x", bytes);
    let number = [0, 4, 25, 33, 40, 43, 60, 61, 63, 65, 66, 65535][bytes.len() % 12];
    let _ = printed::refusal("x", bytes, Refusal::at(number, usize::from(number) * 7 % 90));
    for number in [50, 62] {
        let _ = printed::pair("x", bytes, number, (Card(number % 7), Shape(number % 3)));
    }
    let loaded = load_sheet("x", bytes);
    try_tidy(bytes, &loaded);
    match loaded {
        Ok(sheet) => {
            assert!(sheet.report("x").starts_with("x: "));
            let _ = machine::outcome(&sheet, "x").to_string();
            try_grids(&sheet);
            let written = write::sheet_text(&sheet);
            let again = load_sheet("x", written.as_bytes()).expect("what is written is read");
            assert_eq!(again.typings, sheet.typings);
            true
        }
        Err(trouble) => {
            assert!(trouble.to_string().starts_with("x:"), "{trouble}");
            let _ = machine::trouble(&trouble).to_string();
            false
        }
    }
}

/// A text that is a sheet is tidied to itself; from other texts a repeat is dropped, and any other fault is told. Words
/// are tidied if their bookings are a stored list, and become a sheet.
fn try_tidy(bytes: &[u8], loaded: &Result<Sheet, Trouble>) {
    let number = |trouble: &Trouble| match &trouble.why {
        Why::Refused(refusals) => refusals.told[0].refusal.number,
        Why::Short(_) | Why::Faults(_) => 0,
    };
    let is_text = form(bytes) == Form::Text;
    match (loaded, tidy("x", bytes)) {
        // Of words only a list without bookings is of both forms.
        (Ok(_), Ok(tidied)) => assert_eq!((&tidied.bytes[..], tidied.dropped), (bytes, 0)),
        (Ok(sheet), Err(trouble)) => assert!(!is_text && number(&trouble) == 30 && !sheet.booked.is_empty()),
        (Err(trouble), Ok(tidied)) => {
            assert_eq!(number(trouble), if is_text { 65 } else { 30 }, "{trouble}");
            assert!(!is_text || tidied.dropped > 0, "{trouble}");
            assert!(load_sheet("x", &tidied.bytes).is_ok(), "{trouble}");
        }
        (Err(trouble), Err(other)) if is_text => {
            let is_same = trouble.to_string().starts_with(&other.to_string());
            assert!((number(trouble) == 65) != is_same, "{trouble} {other}");
        }
        (Err(trouble), Err(other)) => {
            let of_list = |number: u16| (30..=33).contains(&number) || number >= 65;
            let is_same = number(trouble) == number(&other);
            assert!(
                is_same || of_list(number(trouble)) && of_list(number(&other)),
                "{trouble} {other}"
            );
        }
    }
}

/// Everything that can be said about grids of a sheet.
fn try_grids(sheet: &Sheet) {
    let size = sheet.setting.size();
    for grid in [vec![0; size], vec![1; size], vec![1; size + 1], vec![2; size]] {
        for desk in Desk::BOTH {
            let verdict = judged::judge(sheet, desk, &grid);
            let told = judged::words(sheet, desk, ("x", "y"), &verdict);
            let is_accepted = matches!(verdict, Verdict::Accepted(_));
            assert_eq!(is_accepted, told.contains("is accepted"), "{told}");
            let _ = machine::judged(sheet, "x", desk, &verdict).to_string();
        }
    }
    for pair in sheet.setting.pairs().take(20) {
        let byte = judged::byte(sheet, sheet.setting.place(pair), None);
        assert!(byte.note.is_some());
        let told = judged::explain_pair(sheet, "x", pair);
        assert!(told.is_none_or(|told| told.starts_with("x:")));
    }
}

/// One damage: bytes changed, put in, left out, repeated, or the end cut off.
fn damage(random: &mut Random, bytes: &mut Vec<u8>) {
    let start = random.below(bytes.len() + 1);
    let end = (start + random.below(30)).min(bytes.len());
    match random.below(6) {
        0 if start < bytes.len() => bytes[start] = random.bits() as u8,
        1 => {
            bytes.splice(start..start, random.pick(&PIECES).bytes());
        }
        2 => {
            bytes.drain(start..end);
        }
        3 => {
            let piece = bytes[start..end].to_vec();
            let at = random.below(bytes.len() + 1);
            bytes.splice(at..at, piece);
        }
        4 if random.chance(1, 4) => bytes.truncate(start),
        _ => {
            let piece = random.pick(&PIECES).repeat(random.below(100));
            bytes.splice(start..end, piece.bytes());
        }
    }
}

#[test]
fn damaged_texts_never_panic() {
    let mut random = Random::new(61);
    let mut sheets = 0;
    for number in 0..3000 {
        let mut bytes = TEXTS[number % TEXTS.len()].as_bytes().to_vec();
        for _ in 0..random.between(1, 3) {
            damage(&mut random, &mut bytes);
        }
        sheets += u32::from(try_all(&bytes));
    }
    assert!(sheets > 100, "only {sheets} texts are still sheets");
}

#[test]
fn damaged_words_never_panic() {
    let mut random = Random::new(62);
    let mut sheets = 0;
    for case in generate::cases(63, 900) {
        // Large sheets are damaged in other tests and take long.
        if case.bytes.len() > 3000 {
            continue;
        }
        let mut bytes = case.bytes;
        sheets += u32::from(try_all(&bytes));
        damage(&mut random, &mut bytes);
        sheets += u32::from(try_all(&bytes));
    }
    assert!(sheets > 100, "only {sheets} inputs are sheets");
}

#[test]
fn random_bytes_never_panic() {
    let mut random = Random::new(64);
    for _ in 0..3000 {
        let most = random.pick(&[4, 40, 255]);
        let length = random.below(60);
        let bytes: Vec<u8> = (0..length).map(|_| random.below(most + 1) as u8).collect();
        try_all(&bytes);
        let pieces: String = (0..length).map(|_| random.pick(&PIECES)).collect();
        try_all(format!("kinds: a\nshape A = {pieces}").as_bytes());
    }
}
