//! The worked sheet and small inputs through the wrapper.

use super::*;
use raw::Call;
use Desk::{Radio, Television};

fn template() -> Template {
    Template::read(vec![2, 2, 10, 17, 2, 256, 1, 1, 1, 257, 0, 0, 1, 1, 0]).unwrap()
}

const SCRIPT: [u16; 11] = [3, 3, 0, 0, 2, 0, 1, 1, 1, 0, 0];

/// An item points at guests, and a guest is pointed at by items.
fn guests() -> Template {
    Template::read(vec![1, 2, 4, 256, 1, 1, 65535, 4, 320, 0, 1, 65535]).unwrap()
}

/// An open shape that wants one link of kind 0 to the other shape, which is nothing.
fn tolerant() -> Template {
    Template::read(vec![2, 2, 5, 18, 256, 1, 1, 1, 1, 0]).unwrap()
}

fn word(number: u16, place: usize) -> Refusal {
    Refusal { number, place: Place::Word(place) }
}

/// A refusal with a card and a shape.
fn unmet(number: u16, card: u16, shape: u16) -> Refusal {
    Refusal { number, place: Place::Pair { card: Card(card), shape: Shape(shape) } }
}

fn booking(desk: Desk, card: u16, shape: u16) -> Booking {
    (desk, Card(card), Shape(shape))
}

fn link(from: u16, kind: u16, to: u16) -> Link {
    Link { from: Card(from), kind: Kind(kind), to: Card(to) }
}

/// A script built from links in any order.
fn linked(cards: u16, links: impl IntoIterator<Item = (u16, u16, u16)>) -> ScriptBuilder {
    let mut builder = ScriptBuilder::with_cards(cards);
    links.into_iter().for_each(|(from, kind, to)| builder.link(Card(from), Kind(kind), Card(to)));
    builder
}

#[test]
fn a_template_has_its_counts() {
    let template = template();
    assert_eq!((template.kinds(), template.shapes()), (2, 2));
    assert_eq!(template.words().len(), 15);
}

#[test]
fn a_template_is_refused_at_its_first_fault() {
    assert_eq!(Template::read(vec![]), Err(word(1, 0)));
    assert_eq!(Template::read(vec![0, 1, 1, 0]), Err(word(2, 0)));
    assert_eq!(Template::read(vec![1, 1, 1, 4]), Err(word(5, 3)));
    assert_eq!(Template::read(vec![1, 1, 1]), Err(word(4, 3)));
}

#[test]
fn codes_of_both_ways_are_read() {
    let read = |words: &[u16]| Template::read(words.to_vec()).map(|template| template.kinds());
    assert_eq!(read(&[1, 1, 4, 320, 0, 0, 1]), Ok(1));
    assert_eq!(read(&[1, 1, 4, 321, 0, 0, 1]), Err(word(7, 3)));
    assert_eq!(read(&[64, 1, 4, 383, 0, 0, 1]), Ok(64));
    assert_eq!(read(&[64, 1, 4, 384, 0, 0, 1]), Err(word(5, 3)));
    assert_eq!(read(&[1, 1, 10, 17, 2, 256, 0, 0, 1, 320, 0, 0, 1]), Ok(1));
    assert_eq!(read(&[1, 1, 10, 17, 2, 320, 0, 0, 1, 320, 0, 0, 1]), Err(word(8, 9)));
}

#[test]
fn the_code_of_an_open_shape_is_read_as_its_first_word() {
    let read = |words: &[u16]| Template::read(words.to_vec()).map(|template| template.shapes());
    assert_eq!(read(&[1, 1, 2, 18, 0]), Ok(1));
    assert_eq!(read(&[1, 1, 1, 18]), Err(word(4, 4)));
    assert_eq!(read(&[1, 1, 3, 18, 18, 0]), Err(word(refusals::TEMPLATE_OPEN, 4)));
    assert_eq!(read(&[1, 1, 3, 1, 18, 0]), Err(word(64, 4)));
    assert_eq!(read(&[1, 1, 5, 17, 2, 0, 18, 0]), Err(word(64, 6)));
    assert_eq!(read(&[1, 1, 4, 17, 18, 0, 0]), Err(word(11, 4)));
    assert_eq!(read(&[1, 1, 6, 18, 256, 0, 1, 1, 0]), Err(word(12, 8)));
    assert_eq!(read(&[1, 1, 1, 19]), Err(word(5, 3)));
}

#[test]
fn counts_fit_or_not() {
    let template = template();
    assert_eq!(template.fits(Shape(0), &[1, 1, 0, 0]), Ok(true));
    assert_eq!(template.fits(Shape(0), &[2, 1, 0, 0]), Ok(false));
    assert_eq!(template.fits(Shape(1), &[0, 0, 0, 0]), Ok(true));
    assert_eq!(template.fits(Shape(1), &[0, 0, 8192, 8192]), Ok(true));
    assert_eq!(template.fits(Shape(2), &[0, 0, 0, 0]), Err(word(42, 0)));
    for length in [0, 1, 2, 3, 5] {
        assert_eq!(template.fits(Shape(0), &vec![8193; length]), Err(word(41, 0)));
    }
    assert_eq!(template.fits(Shape(0), &[0, 8193, 0, 8193]), Err(word(43, 1)));
    assert_eq!(template.fits(Shape(0), &[0, 0, 8193, 0]), Err(word(43, 2)));
}

#[test]
fn what_arrives_counts_if_it_is_named() {
    let template = guests();
    assert_eq!(template.fits(Shape(1), &[0, 1]), Ok(true));
    assert_eq!(template.fits(Shape(1), &[0, 0]), Ok(false));
    assert_eq!(template.fits(Shape(1), &[1, 1]), Ok(false));
    assert_eq!(template.fits(Shape(0), &[1, 7]), Ok(true));
    assert_eq!(template.fits(Shape(0), &[1]), Err(word(41, 0)));
    assert_eq!(template.fits(Shape(0), &[1, 8193]), Err(word(43, 1)));
}

#[test]
fn a_booking_reaches_against_a_link() {
    let script = Script::read(&guests(), vec![2, 1, 0, 0, 1]).unwrap();
    let booked = [booking(Television, 1, 1)];
    let both = script.both(&booked, Television).unwrap();
    assert_eq!((both.largest.rounds, both.largest.struck, both.largest.bare), (2, 2, 0));
    let smallest = both.smallest.unwrap();
    assert_eq!((smallest.pairs, smallest.typing.grid()), (2, &[1, 0, 0, 1][..]));
    assert_eq!(smallest.typing, both.largest.typing);
    assert_eq!(script.judge_typing(&booked, Television, &smallest.typing), Ok(()));
    assert_eq!(script.judge(&booked, Television, &[0, 0, 0, 1]), Err(unmet(62, 1, 1)));
    // Nobody points at card 2.
    let script = Script::read(&guests(), vec![3, 1, 0, 0, 1]).unwrap();
    assert_eq!(script.smallest(&[booking(Radio, 2, 1)], Radio), Err(unmet(50, 2, 1)));
}

#[test]
fn an_open_shape_ignores_what_it_does_not_name() {
    let template = tolerant();
    assert_eq!(template.fits(Shape(0), &[1, 7, 0, 0]), Ok(true));
    assert_eq!(template.fits(Shape(0), &[2, 7, 0, 0]), Ok(false));
    assert_eq!(template.fits(Shape(1), &[0, 7, 0, 0]), Ok(false));
    assert_eq!(template.fits(Shape(0), &[1, 8193, 0, 0]), Err(word(43, 1)));
    let script = Script::read(&template, vec![3, 2, 0, 0, 1, 0, 1, 2]).unwrap();
    let both = script.both(&[booking(Radio, 0, 0)], Radio).unwrap();
    assert_eq!((both.largest.rounds, both.largest.struck, both.largest.bare), (2, 3, 0));
    let smallest = both.smallest.unwrap();
    assert_eq!((smallest.pairs, smallest.typing.grid()), (2, &[1, 0, 0, 1, 0, 0][..]));
    // The ignored link is a link of card 0, and its target need not have a shape.
    assert_eq!(script.links_of(Card(0)).len(), 2);
    assert_eq!(script.judge_typing(&[booking(Radio, 0, 0)], Radio, &smallest.typing), Ok(()));
}

#[test]
fn a_script_has_its_links() {
    let template = template();
    let script = Script::read(&template, SCRIPT.to_vec()).unwrap();
    assert_eq!((script.cards(), script.links().len()), (3, 3));
    assert_eq!(script.links_of(Card(0)), [link(0, 0, 2), link(0, 1, 1)]);
    assert_eq!(script.links_of(Card(2)), []);
    assert_eq!(script.links_of(Card(9)), []);
    assert_eq!(script.template(), &template);
    assert_eq!(script.words(), SCRIPT);
}

#[test]
fn a_script_is_refused_at_its_first_fault() {
    let template = template();
    let read = |words: &[u16]| Script::read(&template, words.to_vec()).map(|s| s.cards());
    assert_eq!(read(&[0, 0]), Ok(0));
    assert_eq!(read(&[1, 1, 0, 0, 0]), Ok(1));
    assert_eq!(read(&[1025, 0]), Err(word(21, 0)));
    assert_eq!(read(&[2, 1, 0, 0, 2]), Err(word(23, 4)));
    assert_eq!(read(&[1, 2, 0, 0, 0, 0, 0, 0]), Err(word(25, 5)));
}

#[test]
fn both_typings_of_the_sheet() {
    let template = template();
    let script = Script::read(&template, SCRIPT.to_vec()).unwrap();
    let largest = script.largest();
    assert_eq!((largest.rounds, largest.struck, largest.bare), (4, 5, 2));
    assert_eq!(largest.typing.grid(), [0, 0, 0, 0, 0, 1]);
    let booked = [booking(Radio, 2, 1)];
    let smallest = script.smallest(&booked, Radio).unwrap();
    assert_eq!(smallest.pairs, 1);
    assert_eq!(smallest.typing.shapes_of(Card(2)).collect::<Vec<_>>(), [Shape(1)]);
    let both = script.both(&booked, Radio).unwrap();
    assert_eq!(both, Both { largest, smallest: Ok(smallest) });
}

#[test]
fn bookings_that_are_not_met() {
    let template = template();
    let script = Script::read(&template, SCRIPT.to_vec()).unwrap();
    let refused = unmet(50, 0, 1);
    let booked = [booking(Radio, 0, 0)];
    assert_eq!(script.smallest(&booked, Radio), Err(refused));
    let both = script.both(&booked, Radio).unwrap();
    assert_eq!(both.smallest, Err(refused));
    assert_eq!(both.largest, script.largest());
    assert_eq!(refused.to_string(), "the bookings are not met (refusal 50, card 0, shape 1)");
}

#[test]
fn bookings_that_are_refused() {
    let template = template();
    let script = Script::read(&template, SCRIPT.to_vec()).unwrap();
    for desk in Desk::BOTH {
        assert_eq!(script.smallest(&[booking(Radio, 3, 1)], desk), Err(word(32, 2)));
        assert_eq!(
            script.smallest(&[booking(Television, 0, 0), booking(Radio, 0, 2)], desk),
            Err(word(33, 6))
        );
        assert_eq!(script.smallest(&vec![booking(Radio, 0, 0); 1025], desk), Err(word(31, 0)));
        assert_eq!(script.smallest(&vec![booking(Radio, 0, 0); 70_000], desk), Err(word(31, 0)));
        assert_eq!(script.both(&[booking(Television, 3, 0)], desk), Err(word(32, 2)));
    }
}

/// The number and the place that each function of `raw` answers on the sheet, with grids of so many bytes, which stay
/// as they were.
fn refused(bookings: &[u16], desk: u16, bytes: usize) -> [(u16, usize); 3] {
    let template = template();
    let (mut small, mut large) = (vec![9; bytes], vec![9; bytes]);
    let alone = raw::smallest(template.words(), &SCRIPT, bookings, desk, &mut small);
    let both = raw::both_typings(template.words(), &SCRIPT, bookings, desk, &mut small, &mut large);
    let judged = raw::judge(template.words(), &SCRIPT, bookings, desk, &large);
    assert!(small.iter().chain(&large).all(|&byte| byte == 9));
    [(alone.number, alone.place), (both.number, both.place), (judged.number, judged.place)]
}

#[test]
fn words_of_bookings_are_refused_for_every_desk() {
    let two_words_each = [1, 2, 1];
    for desk in [0, 1, 2, u16::MAX] {
        for bytes in [5, 6] {
            assert_eq!(refused(&[], desk, bytes), [(30, 0); 3]);
            assert_eq!(refused(&[1025, 2, 9, 9], desk, bytes), [(31, 0); 3]);
            assert_eq!(refused(&two_words_each, desk, bytes), [(30, 0); 3]);
            assert_eq!(refused(&[1, 2, 9, 9], desk, bytes), [(refusals::BOOKINGS_DESK, 1); 3]);
            assert_eq!(refused(&[2, 1, 2, 1, 2, 9, 9], desk, bytes), [(66, 4); 3]);
            assert_eq!(refused(&[1, 0, 3, 1], desk, bytes), [(32, 2); 3]);
            assert_eq!(refused(&[1, 1, 2, 2], desk, bytes), [(33, 3); 3]);
            assert_eq!(refused(&[2, 0, 2, 1, 0, 2, 1], desk, bytes), [(65, 5); 3]);
        }
    }
}

#[test]
fn a_desk_that_there_is_not_is_refused_after_the_list() {
    for bytes in [5, 6] {
        assert_eq!(refused(&[1, 0, 2, 1], 2, bytes), [(66, 0); 3]);
        assert_eq!(refused(&[0], u16::MAX, bytes), [(66, 0); 3]);
    }
    assert_eq!(refused(&[1, 0, 2, 1], Television.number(), 5), [(40, 0); 3]);
    let mut grid = vec![9; 6];
    let answer = raw::smallest(template().words(), &SCRIPT, &[1, 0, 2, 1], Television.number(), &mut grid);
    assert_eq!((answer.number, answer.pairs, grid), (0, 0, vec![0; 6]));
}

#[test]
fn a_pair_is_booked_once_by_a_desk() {
    let script = Script::read(&template(), SCRIPT.to_vec()).unwrap();
    let refused = |bookings: &[Booking], refusal| {
        for desk in Desk::BOTH {
            assert_eq!(script.smallest(bookings, desk), Err(refusal));
            assert_eq!(script.both(bookings, desk), Err(refusal));
            assert_eq!(script.judge(bookings, desk, &[0, 0, 0, 0, 0, 1]), Err(refusal));
            assert_eq!(script.judge(bookings, desk, &[]), Err(refusal));
        }
    };
    let booked = booking(Radio, 2, 1);
    refused(&[booked, booked], word(refusals::BOOKINGS_TWICE, 5));
    refused(&[booked, booking(Radio, 0, 0), booked], word(65, 8));
    refused(&[booked, booking(Television, 2, 1), booked], word(65, 8));
    refused(&[booked, booked, booking(Radio, 9, 9)], word(65, 5));
    refused(&[booked, booking(Radio, 2, 2)], word(33, 6));
    // One card with two shapes is no repeat.
    let unmet = unmet(50, 0, 1);
    assert_eq!(script.smallest(&[booking(Radio, 0, 0), booking(Radio, 0, 1)], Radio), Err(unmet));
}

#[test]
fn what_one_desk_books_changes_nothing_for_the_other() {
    let script = Script::read(&template(), SCRIPT.to_vec()).unwrap();
    let unmet = unmet(50, 0, 1);
    let pairs = |bookings: &[Booking], desk| script.smallest(bookings, desk).map(|found| found.pairs);
    for (one, other) in [(Radio, Television), (Television, Radio)] {
        assert_eq!(pairs(&[booking(one, 2, 1)], one), Ok(1));
        assert_eq!(pairs(&[booking(one, 2, 1)], other), Ok(0));
        assert_eq!(pairs(&[booking(one, 2, 1), booking(other, 2, 1)], one), Ok(1));
        assert_eq!(pairs(&[booking(one, 0, 0), booking(other, 0, 0)], one), Err(unmet));
        let bookings = [booking(other, 0, 0), booking(one, 2, 1)];
        assert_eq!((pairs(&bookings, one), pairs(&bookings, other)), (Ok(1), Err(unmet)));
        for desk in Desk::BOTH {
            let both = script.both(&bookings, desk).unwrap();
            assert_eq!(both, Both { largest: script.largest(), smallest: script.smallest(&bookings, desk) });
        }
        assert_eq!(script.judge(&bookings, one, &[0, 0, 0, 0, 0, 1]), Ok(()));
        assert_eq!(script.judge(&bookings, other, &[0, 0, 0, 0, 0, 1]), Err(word(63, 2)));
        assert_eq!(script.judge(&bookings, one, &[0; 6]), Err(word(63, 5)));
    }
}

#[test]
fn bookings_are_tidied() {
    let script = Script::read(&template(), SCRIPT.to_vec()).unwrap();
    let tidy = |stored: &[(u16, u16)]| {
        let stored: Vec<(Card, Shape)> =
            stored.iter().map(|&(card, shape)| (Card(card), Shape(shape))).collect();
        script.tidy(&stored)
    };
    assert_eq!(tidy(&[]), Ok(vec![]));
    assert_eq!(tidy(&[(2, 1), (0, 0), (2, 1)]), Ok(vec![booking(Radio, 2, 1), booking(Radio, 0, 0)]));
    let several = vec![booking(Radio, 0, 0), booking(Radio, 0, 1), booking(Radio, 1, 0)];
    assert_eq!(tidy(&[(0, 0), (0, 1), (0, 0), (0, 1), (1, 0)]), Ok(several));
    assert_eq!(tidy(&[(2, 1); 1024]), Ok(vec![booking(Radio, 2, 1)]));
    let tidied = tidy(&[(2, 1), (2, 1)]).unwrap();
    assert_eq!(script.smallest(&tidied, Radio).unwrap().pairs, 1);
    assert_eq!(script.smallest(&tidied, Television).unwrap().pairs, 0);
    assert_eq!(tidy(&[(2, 1); 1025]), Err(word(31, 0)));
    assert_eq!(tidy(&[(2, 1); 70_000]), Err(word(31, 0)));
    assert_eq!(tidy(&[(2, 1), (2, 1), (3, 9)]), Err(word(32, 5)));
    assert_eq!(tidy(&[(2, 2)]), Err(word(33, 2)));
}

#[test]
fn words_are_tidied_into_three_for_each_pair() {
    let told = |number, place, written| raw::WrittenAnswer { number, place, written };
    let tidy = |template: &[u16], script: &[u16], stored: &[u16], length| {
        let mut tidied = vec![7; length];
        let answer = raw::tidy_bookings(template, script, stored, &mut tidied);
        assert!(answer.number == 0 || tidied.iter().all(|&word| word == 7));
        (answer, tidied)
    };
    let sheet = |stored: &[u16], length| tidy(template().words(), &SCRIPT, stored, length);
    let written = vec![2, 0, 2, 1, 0, 0, 0, 7, 7, 7];
    assert_eq!(sheet(&[3, 2, 1, 0, 0, 2, 1], 10), (told(0, 0, 7), written));
    assert_eq!(sheet(&[0], 1), (told(0, 0, 1), vec![0]));
    for length in [0, 7, 9, 11] {
        assert_eq!(sheet(&[3, 2, 1, 0, 0, 2, 1], length).0, told(refusals::GRID_SIZE, 0, 0));
    }
    assert_eq!(sheet(&[1, 2, 2], 9).0, told(33, 2, 0));
    assert_eq!(sheet(&[1, 0, 2, 1], 4).0, told(30, 0, 0));
    assert_eq!(sheet(&[], 9).0, told(30, 0, 0));
    assert_eq!(tidy(&[1, 1, 1, 4], &[1025, 0], &[], 9).0, told(5, 3, 0));
    assert_eq!(tidy(template().words(), &[2, 1, 0, 0, 2], &[], 9).0, told(23, 4, 0));
}

#[test]
fn a_grid_is_accepted() {
    let script = Script::read(&template(), SCRIPT.to_vec()).unwrap();
    assert_eq!(script.judge(&[booking(Radio, 2, 1)], Radio, &[0, 0, 0, 0, 0, 1]), Ok(()));
    assert_eq!(script.judge(&[booking(Radio, 2, 1)], Television, &[0; 6]), Ok(()));
    assert_eq!(Script::read(&template(), vec![0, 0]).unwrap().judge(&[], Radio, &[]), Ok(()));
}

#[test]
fn a_grid_is_refused_at_its_first_fault() {
    let script = Script::read(&template(), SCRIPT.to_vec()).unwrap();
    let judge = |pairs: &[(u16, u16)], grid: &[u8]| {
        let bookings: Vec<Booking> = pairs.iter().map(|&(card, shape)| booking(Radio, card, shape)).collect();
        script.judge(&bookings, Radio, grid)
    };
    let pair = unmet(refusals::GRID_NOT_MET, 1, 0);
    assert_eq!(judge(&[(0, 0); 1025], &[2]), Err(word(31, 0)));
    assert_eq!(judge(&[(3, 1)], &[2]), Err(word(32, 2)));
    assert_eq!(judge(&[(2, 2)], &[2]), Err(word(33, 3)));
    assert_eq!(judge(&[(0, 0)], &[2, 1, 1, 0, 0]), Err(word(40, 0)));
    assert_eq!(judge(&[(0, 0)], &[0; 7]), Err(word(40, 0)));
    assert_eq!(judge(&[(1, 0)], &[0, 1, 0, 0, 0, 2]), Err(word(61, 5)));
    assert_eq!(judge(&[(2, 1)], &[0, 2, 0, 0, 0, 255]), Err(word(61, 1)));
    assert_eq!(judge(&[(0, 0)], &[0, 0, 1, 1, 0, 1]), Err(pair));
    assert_eq!(judge(&[(2, 1), (0, 0)], &[0, 0, 0, 0, 0, 1]), Err(word(63, 5)));
}

#[test]
fn a_judged_grid_is_refused_for_its_files_first() {
    let judge = |template: &[u16], script: &[u16]| raw::judge(template, script, &[], 2, &[2]);
    let told = |number, place| raw::JudgeAnswer { number, card: 0, shape: 0, place };
    assert_eq!(judge(&[1, 1, 1, 4], &[1025, 0]), told(5, 3));
    assert_eq!(judge(template().words(), &[2, 1, 0, 0, 2]), told(23, 4));
    assert_eq!(judge(template().words(), &SCRIPT), told(30, 0));
    let accepted = raw::judge(template().words(), &SCRIPT, &[1, 0, 2, 1], 0, &[0, 0, 0, 0, 0, 1]);
    assert_eq!(accepted, told(0, 0));
}

#[test]
fn our_own_typings_are_accepted() {
    let mut builder = TemplateBuilder::new();
    let (next, item) = (builder.kind(), builder.shape());
    builder.define(item, Part::link(next, item, 0..=1));
    let script = linked(3, [(0, next.0, 1)]).read(&builder.read().unwrap()).unwrap();
    let booked = [(Radio, Card(0), item)];
    let both = script.both(&booked, Radio).unwrap();
    let smallest = script.smallest(&booked, Radio).unwrap().typing;
    let largest = script.largest().typing;
    assert_eq!((smallest.grid(), largest.grid()), (&[1, 1, 0][..], &[1, 1, 1][..]));
    for typing in [smallest, largest, both.smallest.unwrap().typing, both.largest.typing] {
        assert_eq!(script.judge_typing(&booked, Radio, &typing), Ok(()));
    }
    // Between the two, but card 0 leads to a card without the shape.
    let unmet = unmet(62, 0, 0);
    assert_eq!(script.judge(&[], Radio, &[1, 0, 0]), Err(unmet));
}

#[test]
fn a_typing_has_no_other_cards_or_shapes() {
    let template = template();
    let script = Script::read(&template, SCRIPT.to_vec()).unwrap();
    let typing = script.largest().typing;
    let has = |card, shape| typing.has(Card(card), Shape(shape));
    assert!(has(2, 1));
    assert!(!has(3, 0) && !has(2, 2) && !has(1, 3));
    assert_eq!(typing.cards(), 3);
}

#[test]
fn a_refusal_says_what_and_where() {
    let message = "a part of the template has an unknown code (refusal 5, word 3)";
    assert_eq!(word(refusals::TEMPLATE_CODE, 3).to_string(), message);
    assert_eq!(word(refusals::SCRIPT_ORDER, 5).file(), File::Script);
    let message = "the code of an open shape is not the first word of a shape (refusal 64, word 4)";
    assert_eq!(word(refusals::TEMPLATE_OPEN, 4).to_string(), message);
    assert_eq!(word(refusals::TEMPLATE_OPEN, 4).file(), File::Template);
    let message = "a desk books a pair a second time (refusal 65, word 5)";
    assert_eq!(word(refusals::BOOKINGS_TWICE, 5).to_string(), message);
    assert_eq!(word(refusals::BOOKINGS_TWICE, 5).file(), File::Bookings);
    let message = "a desk is neither radio, 0, nor television, 1 (refusal 66, word 1)";
    assert_eq!(word(refusals::BOOKINGS_DESK, 1).to_string(), message);
    assert_eq!(word(refusals::BOOKINGS_DESK, 1).file(), File::Bookings);
    let message = "a byte of the grid is over 1 (refusal 61, byte 5)";
    assert_eq!(word(refusals::GRID_BYTE, 5).to_string(), message);
    let message = "a booked pair is not in the grid (refusal 63, word 3)";
    assert_eq!(word(refusals::GRID_NOT_HELD, 3).to_string(), message);
    let pair = unmet(refusals::GRID_NOT_MET, 1, 0);
    assert_eq!(pair.to_string(), "a pair of the grid is not met under it (refusal 62, card 1, shape 0)");
    assert_eq!((pair.file(), word(refusals::GRID_NOT_HELD, 3).file()), (File::Nothing, File::Bookings));
}

#[test]
fn words_are_those_of_the_call_that_refused() {
    // 40 is of one grid, of one of two, or of a list; a desk is a booking's or the call's own.
    assert_eq!(
        word(refusals::GRID_SIZE, 0).to_string(),
        "the grid has not cards x shapes bytes (refusal 40, byte 0)"
    );
    let both = raw::call_reason(Call::BothTypings, refusals::GRID_SIZE, 0);
    assert_eq!(both, "the smallest or the largest grid has not cards x shapes bytes");
    let tidied = raw::call_reason(Call::TidyBookings, refusals::GRID_SIZE, 0);
    assert_eq!(tidied, "the array for the tidied list has not 1 + 3 x bookings words");
    assert_eq!(raw::call_file(Call::TidyBookings, refusals::GRID_SIZE, 0), File::Tidied as u32);
    for call in [Call::Smallest, Call::BothTypings, Call::Judge] {
        let own = raw::call_reason(call, refusals::BOOKINGS_DESK, 0);
        assert_eq!(own, "the desk asked for is neither radio, 0, nor television, 1");
        assert_eq!(raw::call_file(call, refusals::BOOKINGS_DESK, 0), File::Nothing as u32);
        assert_eq!(raw::call_reason(call, refusals::BOOKINGS_DESK, 1), raw::reason(refusals::BOOKINGS_DESK));
        assert_eq!(raw::call_file(call, refusals::BOOKINGS_DESK, 1), File::Bookings as u32);
    }
    let message = "counts are asked for a shape that there is not (refusal 42)";
    assert_eq!(template().fits(Shape(2), &[]).unwrap_err().to_string(), message);
}

#[test]
fn every_refusal_has_the_library_s_words_and_file() {
    for number in 1..=u16::MAX {
        let refusal = word(number, 1);
        assert_eq!(refusal.reason(), raw::reason(number));
        assert_eq!(refusal.file() as u32, raw::file_of(number));
    }
    assert_eq!(File::Tidied as u32, 7);
}

#[test]
fn the_versions_agree() {
    let (major, minor, patch) = version();
    assert_eq!(format!("{major}.{minor}.{patch}"), env!("CARGO_PKG_VERSION"));
}

#[test]
fn an_application_keeps_a_script() {
    struct Application {
        scripts: Vec<Script>,
    }
    fn kept_anywhere<T: Send + Sync + 'static>(_: &T) {}
    let scripts = vec![Script::read(&template(), SCRIPT.to_vec()).unwrap(); 2];
    let application = Application { scripts };
    kept_anywhere(&application);
    assert_eq!(application.scripts[1].largest().bare, 2);
}

#[test]
fn a_template_is_built_from_parts() {
    let mut builder = TemplateBuilder::new();
    let (a, b) = (builder.kind(), builder.kind());
    let (first, second) = (builder.shape(), builder.shape());
    builder.define(first, Part::all([Part::link(a, second, 1), Part::link(b, first, 0..=1)]));
    assert_eq!(builder.read(), Ok(template()));
    builder.define(second, Part::choice([Part::star(Part::link(a, first, 2..)), Part::plus(Part::Nothing)]));
    builder.define(first, Part::optional(Part::Nothing));
    assert_eq!(builder.words(), [2, 2, 2, 3, 0, 9, 16, 2, 1, 256, 0, 2, 65535, 2, 0]);
    assert!(builder.read().is_ok());
}

#[test]
fn what_arrives_is_built_from_parts() {
    let mut builder = TemplateBuilder::new();
    let (guest, item, person) = (builder.kind(), builder.shape(), builder.shape());
    builder.define(item, Part::link(guest, person, 1..));
    builder.define(person, Part::incoming(guest, item, 1..));
    assert_eq!(builder.read(), Ok(guests()));
}

#[test]
fn an_open_shape_is_built_from_its_part() {
    let mut builder = TemplateBuilder::new();
    let (kind, _) = (builder.kind(), builder.kind());
    let (first, second) = (builder.shape(), builder.shape());
    builder.define_open(first, Part::link(kind, second, 1));
    assert_eq!(builder.read(), Ok(tolerant()));
    builder.define_open(second, Part::Nothing);
    assert_eq!(builder.words(), [2, 2, 5, 18, 256, 1, 1, 1, 2, 18, 0]);
    builder.define(first, Part::Nothing);
    assert_eq!(builder.words(), [2, 2, 1, 0, 2, 18, 0]);
}

#[test]
fn what_no_word_holds_is_refused() {
    let mut builder = TemplateBuilder::new();
    assert_eq!(builder.read(), Err(word(refusals::TEMPLATE_KIND_COUNT, 0)));
    let (kind, shape) = (builder.kind(), builder.shape());
    for kind in [64, 128, u16::MAX].map(Kind) {
        builder.define(shape, Part::link(kind, shape, 1));
        assert_eq!(builder.read(), Err(word(refusals::TEMPLATE_CODE, 3)));
        builder.define(shape, Part::incoming(kind, shape, 1));
        assert_eq!(builder.read(), Err(word(refusals::TEMPLATE_CODE, 3)));
    }
    builder.define(shape, Part::all(vec![Part::link(kind, shape, 1); 70_000]));
    assert_eq!(builder.read(), Err(word(refusals::TEMPLATE_SIZE, 0)));
    let mut script = linked(1, [(0, 0, 1)]);
    assert_eq!(script.read(&template()), Err(word(refusals::SCRIPT_NO_CARD, 4)));
    (0..70_000).for_each(|_| _ = script.card());
    assert_eq!(script.read(&template()), Err(word(refusals::SCRIPT_CARD_COUNT, 0)));
}

#[test]
fn a_script_is_built_from_links_in_any_order() {
    let builder = linked(3, [(1, 0, 0), (0, 1, 1), (0, 0, 2), (0, 1, 1)]);
    assert_eq!(builder.words(), SCRIPT);
    assert_eq!(builder.read(&template()).unwrap().words(), SCRIPT);
}

#[test]
fn the_links_of_each_card_are_the_library_s() {
    let builder = linked(60, (0..400).map(|i| (i * 7 % 53, i % 2, i * 11 % 60)));
    let script = builder.read(&template()).unwrap();
    for card in (0..61).map(Card) {
        let mut words = vec![0; script.words().len()];
        let count = raw::links_of_card(template().words(), script.words(), card.0, &mut words);
        let ours: Vec<u16> =
            script.links_of(card).iter().flat_map(|l| [l.from.0, l.kind.0, l.to.0]).collect();
        assert_eq!(ours, words[..count]);
    }
    assert_eq!((0..60).map(|card| script.links_of(Card(card)).len()).sum::<usize>(), script.links().len());
}
