//! Why a card can't have a shape: the nearest counts, the card that is to blame, and the sentences.

use prep_tools::desk::Desk;
use prep_tools::fit::intervals::fits;
use prep_tools::generate::parts::{small_bounds, PartMaker};
use prep_tools::generate::{self, TINY};
use prep_tools::labels::{Label, Labelled, Way};
use prep_tools::numbers::Kind;
use prep_tools::random::Random;
use prep_tools::script::ScriptLink;
use prep_tools::template::Definition;
use prep_tools::text::check::{run, Sheet};
use prep_tools::text::load::load_sheet;
use prep_tools::text::misfit::misfit;
use prep_tools::text::reasons::{all_not_met, reason};
use prep_tools::text::report::bare;
use prep_tools::text::roots::Roots;
use prep_tools::text::sentences::cannot;

/// Labels of two kinds, one of which starts and both of which arrive.
const LABELS: [Label; 3] = [
    Label {
        way: Way::Outgoing,
        kind: Kind(0),
    },
    Label {
        way: Way::Incoming,
        kind: Kind(0),
    },
    Label {
        way: Way::Incoming,
        kind: Kind(1),
    },
];

/// The counts of these labels; no other link is there.
fn counted(numbers: [u16; 3]) -> Labelled<u16> {
    let mut counts = Labelled::new(2, 0);
    for (label, number) in LABELS.into_iter().zip(numbers) {
        counts[label] = number;
    }
    counts
}

/// How many links must be added or taken away at least, by trying all counts up to `most`.
fn least_distance(shape: &Definition, counts: [u16; 3], most: u16) -> Option<u64> {
    let base = most + 1;
    let numbers = (0..base.pow(3)).map(|code| [code % base, code / base % base, code / base / base]);
    let distance = |other: [u16; 3]| -> u64 {
        let pairs = other.iter().zip(counts);
        pairs.map(|(one, two)| u64::from(one.abs_diff(two))).sum()
    };
    numbers
        .filter(|other| fits(shape, &counted(*other)))
        .map(distance)
        .min()
}

#[test]
fn a_misfit_is_told_by_the_nearest_counts_that_fit() {
    let mut random = Random::new(21);
    let (mut missed, mut arriving) = (0, 0);
    for _ in 0..3000 {
        let mut labels = LABELS;
        random.shuffle(&mut labels);
        let mut maker = PartMaker {
            random: &mut random,
            shapes: 1,
            bounds: small_bounds,
        };
        let part = maker.part(&labels, 4);
        let open = random.chance(1, 4);
        let shape = Definition { open, part };
        let numbers = [0; 3].map(|_: u16| random.word(0, 4));
        let counts = counted(numbers);
        let told = misfit(&shape, &counts);
        assert_eq!(told.is_none(), fits(&shape, &counts), "{shape:?} {counts:?}");
        let distance = told.as_ref().map_or(0, |misfit| misfit.distance());
        missed += u32::from(distance > 0);
        let lacks = told.map_or(Vec::new(), |misfit| misfit.lacks);
        arriving += u32::from(lacks.iter().any(|lack| lack.label.way == Way::Incoming));
        // Nearer counts than those told lie within this many links of the card's.
        let most = 4 + distance.min(7) as u16;
        let least = least_distance(&shape, numbers, most);
        if distance <= 7 {
            assert_eq!(Some(distance), least, "{shape:?} {counts:?}");
        } else {
            assert!(least.is_none_or(|least| least > 7), "{shape:?} {counts:?}");
        }
    }
    let told = format!("{missed} counts don't fit, {arriving} of them by what arrives");
    assert!(missed > 500 && arriving > 300, "{told}");
}

#[test]
fn each_pair_that_is_struck_has_a_root() {
    let mut random = Random::new(22);
    let mut steps = [0, 0];
    for _ in 0..300 {
        let files = generate::any(&mut random, TINY);
        let sheet = load_sheet("x", &files.bytes()).expect("a generated sheet is well-formed");
        let roots = Roots::new(&sheet.setting);
        let named = sheet.setting.template.named();
        for desk in Desk::BOTH {
            let not_met = all_not_met(&sheet, &roots, desk);
            assert_eq!(not_met.first().map(|reason| reason.pair), sheet.not_met(desk));
        }
        for pair in sheet.setting.pairs() {
            let struck = !sheet.has(&sheet.typings.largest.1, pair);
            let reason = reason(&sheet, &roots, pair);
            assert_eq!(reason.is_some(), struck);
            let Some(reason) = reason else { continue };
            assert!(!reason.misfit.lacks.is_empty() && reason.distance > 0);
            let mut at = pair;
            for (label, next) in &reason.steps {
                let (from, to) = match label.way {
                    Way::Outgoing => (at.0, next.0),
                    Way::Incoming => (next.0, at.0),
                };
                let is_step = |link: &ScriptLink| (link.from, link.kind, link.to) == (from, label.kind, to);
                assert!(sheet.setting.script.links.iter().any(is_step));
                assert_eq!(named[at.1.index()][*label], Some(next.1));
                assert!(!sheet.has(&sheet.typings.largest.1, *next));
                steps[label.way as usize] += 1;
                at = *next;
            }
            let counts = sheet.setting.script.counts_of(at.0, sheet.setting.template.kinds);
            assert!(!fits(sheet.setting.template.definition(at.1), &counts));
        }
    }
    assert!(steps.iter().all(|count| *count > 30), "{steps:?}");
}

/// A card x with one link for each of these letters to a card n, which is a None, and its one shape. A letter in upper
/// case is a link that arrives from there.
fn unfit(part: &str, links: &str) -> String {
    let any = "all(a[0;]@Item, b[0;]@Item, c[0;]@Item)";
    let mut source =
        format!("kinds: a b c\nshape None = {any}\nshape Item = {part}\ncard n1\ncard n2\ncard n3\n");
    source += "card x \"The \\\"x\\\"\"\nbook x Item\n";
    for kind in ["a", "b", "c"] {
        let cards = ["n1", "n2", "n3"];
        for card in &cards[..links.matches(kind).count()] {
            source += &format!("link x {kind} {card}\n");
        }
        for card in &cards[..links.matches(&kind.to_uppercase()).count()] {
            source += &format!("link {card} {kind} x\n");
        }
    }
    let sheet = run("x.txt", &source).expect("the text is a sheet");
    let pair = sheet.not_met(Desk::Radio).expect("the booking isn't met");
    let reason = reason(&sheet, &Roots::new(&sheet.setting), pair).expect("the pair isn't met");
    cannot(&sheet.text, &reason)
}

/// A part, the links of a card, and what is wrong with them.
const SENTENCES: &[(&str, &str, &str)] = &[
    ("a[1;1]@None", "", "1 a wanted, 0 there"),
    ("a[1;3]@None", "", "1 to 3 a wanted, 0 there"),
    ("a[2;]@None", "a", "at least 2 a wanted, 1 there"),
    ("a[0;1]@None", "aa", "at most 1 a wanted, 2 there"),
    ("a[0;0]@None", "a", "no a wanted, 1 there"),
    ("nothing", "ab", "no a wanted, 1 there; no b wanted, 1 there"),
    (
        "all(a[1;1]@None, b[2;2]@None)",
        "b",
        "1 a wanted, 0 there; 2 b wanted, 1 there",
    ),
    (
        "choice(a[1;1]@None, all(b[1;1]@None, c[1;1]@None))",
        "b",
        "1 c wanted, 0 there (nearest choice: all(b[1;1]@None, c[1;1]@None))",
    ),
    (
        "choice(a[1;1]@None, b[1;1]@None)",
        "ab",
        "no b wanted, 1 there (nearest choice: a[1;1]@None; as near: b[1;1]@None)",
    ),
    (
        "choice(a[1;1]@None, b[2;2]@None)+",
        "abbb",
        "4 b wanted, 3 there (choice(a[1;1]@None, b[2;2]@None) 3 times)",
    ),
    (
        "all(a[1;1]@None, b[1;1]@None)*",
        "aab",
        "2 b wanted, 1 there (all(a[1;1]@None, b[1;1]@None) 2 times)",
    ),
    (
        "all(a[3;3]@None, b[1;1]@None)?",
        "b",
        "no b wanted, 1 there (without all(a[3;3]@None, b[1;1]@None))",
    ),
    ("^a[1;1]@None", "", "1 arriving a link wanted, 0 there"),
    ("^a[2;2]@None", "A", "2 arriving a links wanted, 1 there"),
    ("^a[1;]@None", "", "at least 1 arriving a link wanted, 0 there"),
    ("^a[2;]@None", "A", "at least 2 arriving a links wanted, 1 there"),
    ("^a[0;1]@None", "AA", "at most 1 arriving a link wanted, 2 there"),
    ("^a[1;3]@None", "", "1 to 3 arriving a links wanted, 0 there"),
    ("^a[0;0]@None", "A", "no arriving a links wanted, 1 there"),
    ("^a[1;1]@None", "aA", "no a wanted, 1 there"),
    (
        "all(a[1;1]@None, ^a[1;1]@None)",
        "BB",
        "1 a wanted, 0 there; 1 arriving a link wanted, 0 there",
    ),
    (
        "choice(a[1;1]@None, all(b[1;1]@None, ^c[1;1]@None))",
        "b",
        "1 arriving c link wanted, 0 there (nearest choice: all(b[1;1]@None, ^c[1;1]@None))",
    ),
    (
        "all(a[1;1]@None, ^b[1;1]@None)*",
        "aaB",
        "2 arriving b links wanted, 1 there (all(a[1;1]@None, ^b[1;1]@None) 2 times)",
    ),
];

#[test]
fn sentences_say_what_is_wanted_and_what_is_there() {
    for (part, links, wrong) in SENTENCES {
        let expected = format!("The \"x\" can't be Item: {wrong}");
        assert_eq!(unfit(part, links), expected, "{part} {links}");
    }
}

/// Items that point at guests and films. One of them, which nobody has booked, has a film too many.
const ARRIVING: &str = "\
kinds: guest film next
shape Item = all(guest[0;2]@Guest, film[0;1]@Film, next[0;1]@Item)
shape Guest = ^guest[1;]@Item
shape Film = ^film[1;]@Item
card opening \"Opening\"
card quiz
card ann \"Ann Lee\"
card f1 \"A film\"
card f2
card night \"Late night\"
link opening next quiz
link quiz guest ann
link quiz film f1
link night film f1 f2
book ann Guest
";

#[test]
fn cards_that_point_at_others_are_told_as_such() {
    let sheet = run("x.txt", ARRIVING).expect("the text is a sheet");
    let report = sheet.report("x.txt");
    for told in [
        "x.txt:10:6: Late night can't be Item: at most 1 film wanted, 2 there\n  \
         refused 50 5 0 for radio: its bookings ask for night to have shape Item\n  \
         booked by radio: ann Guest <-guest- quiz Item -film-> f1 Film <-film- night Item\n",
        "x.txt:6:6: quiz has no shape\n  \
         not Item: \"Late night\" can't be Item: at most 1 film wanted, 2 there; \
         it leads there by film \"A film\", film from \"Late night\"\n",
    ] {
        assert!(report.contains(told), "{report}");
    }
    let films = ARRIVING.replace("film[0;1]@Film, next", "film[0;2]@Film, next");
    assert!(run("x.txt", &films).is_ok_and(|sheet| sheet.is_met()));
}

#[test]
fn a_card_asks_for_the_one_that_points_at_it() {
    let source = "kinds: guest film\nshape Item = all(guest[1;]@Guest, film[1;1]@Film)\n\
                  shape Guest = ^guest[1;1]@Item\nshape Film = nothing\ncard quiz \"The quiz\"\ncard ann\n\
                  link quiz guest ann\nbook ann Guest\n";
    let sheet = run("x.txt", source).expect("the text is a sheet");
    let roots = Roots::new(&sheet.setting);
    let told = |pair| {
        cannot(
            &sheet.text,
            &reason(&sheet, &roots, pair).expect("the pair isn't met"),
        )
    };
    assert_eq!(
        told(sheet.booked[0].1),
        "ann can't be Guest: \"The quiz\", which points at it by guest, can't be Item: 1 film wanted, 0 there"
    );
    assert_eq!(
        told(sheet.not_met(Desk::Radio).expect("the booking isn't met")),
        "The quiz can't be Item: 1 film wanted, 0 there"
    );
}

#[test]
fn links_that_are_not_named_are_a_reason_for_closed_shapes_only() {
    let source = "kinds: a b\nshape End = nothing\nopen shape Item = a[3;3]@End\nshape Pair = a[2;2]@End\n\
                  open shape Any = all(a[4;4]@End, ^b[0;0]@End)\ncard x\ncard y\nlink x b y\nbook x Item\n";
    let report = run("x.txt", source).expect("the text is a sheet").report("x.txt");
    for told in [
        "x.txt:6:6: x can't be Item: 3 a wanted, 0 there\n",
        "x.txt:6:6: x has no shape\n  \
         not End: no b wanted, 1 there\n  \
         not Item: 3 a wanted, 0 there\n  \
         not Any: 4 a wanted, 0 there\n  \
         not Pair: it has links of kinds that aren't wanted there\n",
    ] {
        assert!(report.contains(told), "{report}");
    }
    assert!(!report.contains("y has no shape"), "{report}");
}

#[test]
fn an_open_shape_is_told_by_the_kinds_that_it_names() {
    let source = "kinds: guest film\nopen shape Item = guest[1;1]@Guest\nshape Guest = nothing\ncard quiz\n\
                  card ann\ncard f1\nlink quiz guest ann\nlink quiz film f1\nlink ann film f1\n\
                  link f1 film quiz\nbook quiz Item\n";
    let sheet = run("x.txt", source).expect("the text is a sheet");
    let roots = Roots::new(&sheet.setting);
    let told = cannot(
        &sheet.text,
        &reason(&sheet, &roots, sheet.booked[0].1).expect("the pair isn't met"),
    );
    // The film has no shape either, but it isn't asked for.
    assert_eq!(
        told,
        "quiz can't be Item: its guest ann can't be Guest: no film wanted, 1 there"
    );
    let met = run("x.txt", &source.replace("link ann film f1\n", "")).expect("the text is a sheet");
    assert!(met.is_met());
    assert!(met.bare(2) && !met.bare(0));
}

/// An hour with a song that is booked, by no desk or by some.
fn hour(bookings: &str) -> String {
    let source =
        "kinds: song\nshape Hour = song[1;]@Music\nshape Music = nothing\nopen shape Any = nothing\n\
                  card night \"The night\"\ncard waltz\nlink night song waltz\n";
    let sheet = run("x.txt", &format!("{source}{bookings}")).expect("the text is a sheet");
    sheet.report("x.txt")
}

#[test]
fn typings_are_told_by_names() {
    assert_eq!(
        hour("book night Hour\nbook 1 waltz Any\n"),
        "x.txt: 2 cards, 1 link, 2 bookings; of the cards with links, 0 of 2 have no shape\n\
         smallest for radio: 2 pairs, each of them met\n  night: Hour\n  waltz: Music\n\
         smallest for television: 1 pair, which is met\n  waltz: Any\n\
         largest: 2 rounds, 2 pairs struck\n  night: Hour, Any\n  waltz: Music, Any\n"
    );
}

#[test]
fn a_desk_that_books_nothing_is_told_so() {
    let report = hour("book 1 waltz Music\n");
    let told =
        "\nsmallest for radio: 0 pairs, as it books nothing\nsmallest for television: 1 pair, which is met\n";
    assert!(report.contains(told), "{report}");
    let report = hour("");
    assert_eq!(
        report.matches(": 0 pairs, as it books nothing\n").count(),
        2,
        "{report}"
    );
}

#[test]
fn shapes_have_no_article_that_could_be_wrong() {
    let report = hour("book waltz Hour\n");
    assert!(report.contains("x.txt:6:6: waltz can't be Hour: at least 1 song wanted, 0 there\n"));
    let report = hour("book night Music\n");
    assert!(report.contains("x.txt:5:6: The night can't be Music: no song wanted, 1 there\n"));
}

fn draft() -> Sheet {
    run("draft.txt", include_str!("../../examples/prep/draft.txt")).expect("the draft is a sheet")
}

#[test]
fn the_card_to_blame_is_told_first() {
    let report = draft().report("draft.txt");
    let lines: Vec<&str> = report.lines().collect();
    assert_eq!(
        lines[1],
        "smallest for radio: none, as not all that it books can be met"
    );
    assert_eq!(
        lines[2],
        "draft.txt:41:6: Guest to be found can't be Guest: 1 line wanted, 0 there"
    );
    assert!(lines[3].starts_with("  refused 50 20 4 for radio: its bookings ask for tbc"));
    assert_eq!(lines[5], "smallest for television: 4 pairs, each of them met");
    assert_eq!(lines[6], "  archive62: Film");
    let bare = lines
        .iter()
        .position(|line| *line == "draft.txt:31:6: Quiz has no shape");
    assert_eq!(
        lines[bare.expect("the quiz is told") + 1],
        "  not Item: its guest \"Guest to be found\" can't be Guest: 1 line wanted, 0 there"
    );
    assert!(report.contains(
        "  not Item, Talk: \"Guest to be found\" can't be Guest: 1 line wanted, 0 there; \
         it leads there by next \"Quiz\", guest \"Guest to be found\"\n"
    ));
    assert!(report.contains("by next \"The new harbour\", 7 more links, guest \"Guest to be found\"\n"));
    assert!(!report.contains("bag"));
}

#[test]
fn cards_with_no_shape_come_nearest_to_the_blame_first() {
    let sheet = draft();
    let bare = bare(&sheet, &Roots::new(&sheet.setting));
    let steps: Vec<usize> = bare.iter().map(|(_, reasons)| reasons[0].steps.len()).collect();
    assert_eq!(steps, (1..=10).collect::<Vec<_>>());
    for (_, reasons) in &bare {
        assert_eq!(reasons.len(), 9);
        assert!(reasons.windows(2).all(|two| two[0].distance <= two[1].distance));
    }
}

#[test]
fn all_that_bookings_ask_for_and_is_not_met_is_told() {
    let source = include_str!("../../examples/prep/draft.txt");
    let source = source
        .replace("link theme     source label\n", "")
        .replace("link mara      line  l-mara\n", "");
    let sheet = run("draft.txt", &source).expect("the draft is a sheet");
    let told = all_not_met(&sheet, &Roots::new(&sheet.setting), Desk::Radio);
    assert_eq!(Some(told[0].pair), sheet.not_met(Desk::Radio));
    let told: Vec<String> = told.iter().map(|reason| cannot(&sheet.text, reason)).collect();
    let expected = [
        "Mara Lindholm can't be Host: 1 line wanted, 0 there",
        "Guest to be found can't be Guest: 1 line wanted, 0 there",
        "Theme tune can't be Music: 1 source wanted, 0 there",
    ];
    assert_eq!(told, expected);
    let report = sheet.report("draft.txt");
    for one in expected {
        assert!(report.contains(&format!(": {one}\n")), "{report}");
    }
    assert_eq!(report.matches("refused 50").count(), 2);
    assert!(
        report.contains("refused 50 27 6 for television: its bookings ask for theme"),
        "{report}"
    );
}

#[test]
fn words_are_told_without_lines_and_columns() {
    let words = include_bytes!("../../examples/prep/draft.bin");
    let sheet = load_sheet("draft.bin", words).expect("the draft is a sheet");
    let report = sheet.report("draft.bin");
    assert!(report.contains("\ndraft.bin: card20 can't be Shape4: 1 kind6 wanted, 0 there\n"));
    assert!(!report.contains("draft.bin:4"));
}
