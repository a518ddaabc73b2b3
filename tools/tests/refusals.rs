//! Each refusal on both sides of its boundary, and the order of the refusals when there are several faults.

use prep_tools::fit::fit;
use prep_tools::generate::parts::filler;
use prep_tools::generate::special::{document, DOCUMENT_SCRIPT, DOCUMENT_TEMPLATE};
use prep_tools::numbers::{Card, Shape};
use prep_tools::refusal::Refusal;
use prep_tools::script;
use prep_tools::sheet::{self, MOST_BYTES};
use prep_tools::template;
use prep_tools::typing::judge::judge;
use prep_tools::typing::{bookings, both, both_by_rounds, largest, largest_by_rounds, smallest};
use prep_tools::typing::{Setting, Smallest};

/// A template with L kinds, S shapes and one part per shape.
fn template_of(kinds: u16, parts: &[&[u16]]) -> Vec<u16> {
    let mut words = vec![kinds, parts.len() as u16];
    for part in parts {
        words.push(part.len() as u16);
        words.extend(*part);
    }
    words
}

fn accepted(words: &[u16]) {
    if let Err(refusal) = template::read(words) {
        panic!("{words:?} is turned down, {refusal}");
    }
}

fn refused(words: &[u16], number: u16, place: usize) {
    let answer = template::read(words).map(|_| ());
    assert_eq!(answer, Err(Refusal::at(number, place)), "{words:?}");
}

/// A template with one kind and one shape that has this part.
fn refused_part(part: &[u16], number: u16, place: usize) {
    refused(&template_of(1, &[part]), number, place);
}

#[test]
fn template_1_its_count_of_words() {
    refused(&[], 1, 0);
    refused(&[1], 1, 0);
    refused(&[1, 1], 4, 2);
    let full = template_of(1, &[&filler(4093).words()]);
    assert_eq!(full.len(), 4096);
    accepted(&full);
    let over = template_of(1, &[&filler(4094).words()]);
    refused(&over, 1, 0);
    refused(&vec![0; 4096], 2, 0);
    refused(&vec![0; 4097], 1, 0);
}

#[test]
fn template_2_and_3_the_counts_of_kinds_and_shapes() {
    accepted(&[1, 1, 1, 0]);
    accepted(&[64, 1, 1, 0]);
    refused(&[0, 1, 1, 0], 2, 0);
    refused(&[65, 0, 1, 0], 2, 0);
    refused(&[1, 0], 3, 1);
    refused(&[1, 33, 1, 0], 3, 1);
    accepted(&template_of(1, &[&[0][..]; 32]));
    refused(&template_of(1, &[&[0][..]; 33]), 3, 1);
}

#[test]
fn template_4_a_missing_word() {
    // A shape's count is missing.
    refused(&[1, 2, 1, 0], 4, 4);
    // A count reaches past the end; the unknown code isn't looked at.
    refused(&[1, 1, 2, 99], 4, 4);
    refused(&[1, 1, 65535, 0], 4, 4);
    // A shape without words.
    refused(&[1, 1, 0], 4, 3);
    refused(&[1, 2, 0, 1, 0], 4, 3);
    // A word wanted past the shape's own end, though the template goes on.
    refused(&[1, 2, 1, 1, 1, 0], 4, 4);
    refused(&[1, 2, 1, 17, 1, 0], 4, 4);
    refused(&[1, 2, 2, 17, 2, 1, 0], 4, 5);
    refused(&[1, 2, 3, 256, 0, 0, 1, 0], 4, 6);
    refused_part(&[256], 4, 4);
    refused_part(&[256, 0, 0], 4, 6);
    // All four words of a link come before its other faults.
    for code in [319, 383] {
        refused_part(&[code, 9, 9999], 4, 6);
        refused_part(&[1, code, 7, 9999], 4, 7);
    }
}

#[test]
fn template_5_an_unknown_code() {
    for code in [4, 15, 19, 255, 384, 65535] {
        refused_part(&[code], 5, 3);
        refused_part(&[17, 2, 0, code], 5, 6);
    }
    for code in [0, 256, 320] {
        accepted(&template_of(
            1,
            &[&[code, 0, 0, 0][..if code == 0 { 1 } else { 4 }]],
        ));
    }
}

#[test]
fn template_6_the_depth() {
    for wrap in 1..=3 {
        let mut twelve = vec![wrap; 11];
        twelve.push(0);
        accepted(&template_of(1, &[&twelve]));
        let mut thirteen = vec![wrap; 12];
        thirteen.push(0);
        refused_part(&thirteen, 6, 3 + 12);
        // The depth comes before the code, and a missing word before the depth.
        *thirteen.last_mut().expect("not empty") = 99;
        refused_part(&thirteen, 6, 3 + 12);
        thirteen.pop();
        refused_part(&thirteen, 4, 3 + 12);
    }
    // In a group the first part that is too deep counts, and the group's count comes before it.
    let groups = [[16, 2].repeat(12), vec![0; 13]].concat();
    refused_part(&groups, 6, 3 + 24);
    let wrong_count = [[17, 2].repeat(11), vec![16, 17, 0]].concat();
    refused_part(&wrong_count, 11, 3 + 23);
}

#[test]
fn template_7_to_10_a_link() {
    for code in [256, 320] {
        accepted(&template_of(64, &[&[code + 63, 0, 0, 0]]));
        refused(&template_of(63, &[&[code + 63, 0, 0, 0]]), 7, 3);
        refused_part(&[code + 1, 9, 9999, 0], 7, 3);
        // 8: over branches of a choice too, and for links of [0;0]; but not across shapes.
        let twice = [17, 2, code, 0, 0, 0, code, 0, 0, 0];
        refused_part(&twice, 8, 9);
        refused_part(&[&[16], &twice[1..]].concat(), 8, 9);
        refused_part(&[17, 2, code, 0, 0, 0, code, 7, 9999, 0], 8, 9);
        accepted(&template_of(1, &[&[code, 0, 0, 0], &[code, 1, 0, 0]]));
        accepted(&template_of(2, &[&[16, 2, code, 0, 0, 0, code + 1, 0, 0, 0]]));
        // 9 comes before 10.
        refused_part(&[code, 1, 1, 0], 9, 4);
        accepted(&template_of(1, &[&[code, 1, 0, 0], &[0]]));
        refused_part(&[code, 0, 1, 0], 10, 5);
    }
}

#[test]
fn template_8_is_each_way() {
    for group in [16, 17] {
        for (first, second) in [(256, 320), (320, 256)] {
            accepted(&template_of(1, &[&[group, 2, first, 0, 0, 1, second, 0, 0, 1]]));
            // A third link stands there the same way as one of the two, wherever it is.
            for third in [first, second] {
                let part = [
                    group, 2, group, 2, first, 0, 0, 1, second, 0, 0, 1, third, 9, 9999, 0,
                ];
                refused_part(&part, 8, 15);
            }
        }
    }
    // The kind comes before that.
    refused_part(&[17, 2, 320, 0, 0, 1, 321, 0, 0, 1], 7, 9);
}

#[test]
fn template_10_low_and_high() {
    for code in [256, 320] {
        for (low, high) in [(0, 0), (0, 8192), (8192, 8192), (0, 65535), (8192, 65535), (3, 3)] {
            accepted(&template_of(1, &[&[code, 0, low, high]]));
        }
        for (low, high) in [
            (1, 0),
            (8193, 8193),
            (8193, 65535),
            (0, 8193),
            (0, 65534),
            (8192, 8191),
            (65535, 65535),
        ] {
            refused_part(&[code, 0, low, high], 10, 5);
        }
    }
}

#[test]
fn template_11_a_group() {
    for code in [16, 17] {
        for count in [2, 16] {
            accepted(&template_of(
                1,
                &[&[vec![code, count], vec![0; usize::from(count)]].concat()],
            ));
        }
        for count in [0, 1, 17, 65535] {
            refused_part(&[code, count], 11, 4);
        }
        refused_part(&[code], 4, 4);
        refused_part(&[&[code, 16][..], &[0; 15]].concat(), 4, 3 + 17);
        refused_part(&[&[code, 16][..], &[0; 17]].concat(), 12, 3 + 18);
    }
}

#[test]
fn template_12_words_left() {
    refused_part(&[0, 0], 12, 4);
    refused(&[1, 1, 1, 0, 0], 12, 4);
    // The words left in the first shape come before the faults of the second one.
    refused(&[1, 2, 2, 0, 7, 1, 99], 12, 4);
    refused(&[1, 2, 1, 0, 1, 99, 0], 5, 5);
}

#[test]
fn template_64_the_code_of_an_open_shape() {
    accepted(&[1, 1, 2, 18, 0]);
    refused(&[1, 1, 1, 18], 4, 4);
    refused(&[1, 1, 3, 18, 18, 0], 64, 4);
    refused(&[1, 1, 3, 1, 18, 0], 64, 4);
    refused(&[1, 1, 5, 17, 2, 0, 18, 0], 64, 6);
    refused(&[1, 1, 4, 17, 18, 0, 0], 11, 4);
    refused(&[1, 1, 6, 18, 256, 0, 1, 1, 0], 12, 8);
    accepted(&template_of(1, &[&[vec![18], vec![1; 11], vec![0]].concat()]));
    refused_part(&[vec![18], vec![1; 12], vec![0]].concat(), 6, 16);
    refused_part(&[vec![1; 12], vec![18]].concat(), 6, 15);
    // As deep as can be it is refused for itself, and a missing word comes before the depth.
    refused_part(&[vec![1; 11], vec![18]].concat(), 64, 14);
    refused_part(&[vec![18], vec![1; 11], vec![18]].concat(), 64, 15);
    refused_part(&[vec![18], vec![1; 12]].concat(), 4, 16);
    // The words behind it aren't looked at.
    refused_part(&[3, 18], 64, 4);
    refused_part(&[16, 2, 18, 99], 64, 5);
    refused_part(&[18, 18], 64, 4);
    refused_part(&[18, 19], 5, 4);
    // A count that reaches past the end comes first, and a shape may end behind it though the template goes on.
    refused(&[1, 1, 3, 18, 18], 4, 5);
    refused(&[1, 2, 1, 18, 1, 0], 4, 4);
    refused(&[1, 2, 0, 18, 0], 4, 3);
}

#[test]
fn open_shapes_are_read_where_they_stand() {
    let open = |words: &[u16]| {
        let template = template::read(words).expect("the template is well-formed");
        let open = template.definitions.iter().map(|shape| shape.open);
        (open.collect::<Vec<bool>>(), template)
    };
    let nothing: &[u16] = &[0];
    let (found, template) = open(&template_of(1, &[&[18, 0], nothing, &[18, 256, 0, 18, 18]]));
    assert_eq!(found, [true, false, true]);
    assert_eq!(template::write(&template).len(), 13);
    // A shape, a low, a high, a count of words and counts of kinds and shapes are what they are.
    let mut shapes = vec![nothing; 19];
    shapes[0] = &[256, 18, 18, 18];
    assert_eq!(open(&template_of(1, &shapes)).0, [false; 19]);
    assert_eq!(open(&template_of(18, &[nothing; 18])).0, [false; 18]);
    assert_eq!(open(&template_of(1, &[&filler(18).words()])).0, [false]);
    refused(&template_of(1, &shapes[..18]), 9, 4);
    accepted(&template_of(1, &[&[18, 0][..]; 32]));
    // The faults of links in open shapes are told where they are.
    refused_part(&[18, 257, 9, 9999, 0], 7, 4);
    refused_part(&[18, 17, 2, 256, 0, 0, 0, 256, 9, 9999, 0], 8, 10);
    refused_part(&[18, 256, 1, 9999, 0], 9, 5);
    refused_part(&[18, 256, 0, 18, 17], 10, 6);
    refused_part(&[18, 256, 0, 0], 4, 7);
    let full = [vec![18], filler(4092).words()].concat();
    accepted(&template_of(1, &[&full]));
    refused(
        &template_of(1, &[&[vec![18], filler(4093).words()].concat()]),
        1,
        0,
    );
}

#[test]
fn fit_41_to_43() {
    let template = [2, 1, 4, 256, 0, 0, 8192];
    assert_eq!(fit(&template, 0, &[8192, 0, 0, 0]), Ok(true));
    assert_eq!(fit(&template, 0, &[8192, 1, 0, 0]), Ok(false));
    // What arrives isn't named, so it is ignored; but its counts are looked at.
    assert_eq!(fit(&template, 0, &[8192, 0, 8192, 8192]), Ok(true));
    for place in 0..4 {
        let mut counts = [0; 4];
        counts[place] = 8193;
        assert_eq!(fit(&template, 0, &counts), Err(Refusal::at(43, place)));
        counts[place..].fill(9000);
        assert_eq!(fit(&template, 0, &counts), Err(Refusal::at(43, place)));
    }
    // L, 2L - 1 and 2L + 1 counts, and none.
    for length in [2, 3, 5, 0] {
        assert_eq!(fit(&template, 0, &[9000; 5][..length]), Err(Refusal::at(41, 0)));
    }
    assert_eq!(fit(&template, 1, &[9000]), Err(Refusal::at(42, 0)));
    assert_eq!(fit(&[2, 1], 1, &[0]), Err(Refusal::at(4, 2)));
    // Counts that an open shape ignores are looked at too.
    let open = [2, 1, 2, 18, 0];
    assert_eq!(fit(&open, 0, &[8192; 4]), Ok(true));
    assert_eq!(fit(&open, 0, &[8192, 8193, 0, 0]), Err(Refusal::at(43, 1)));
    assert_eq!(fit(&open, 0, &[8192; 2]), Err(Refusal::at(41, 0)));
    assert_eq!(fit(&[2, 1, 3, 18, 18, 0], 1, &[0]), Err(Refusal::at(64, 4)));
}

fn script_refused(words: &[u16], number: u16, place: usize) {
    let answer = script::read(&DOCUMENT_TEMPLATE, words).map(|_| ());
    assert_eq!(answer, Err(Refusal::at(number, place)), "{words:?}");
}

fn script_accepted(words: &[u16]) {
    if let Err(refusal) = script::read(&DOCUMENT_TEMPLATE, words) {
        panic!("a script is turned down, {refusal}");
    }
}

#[test]
fn script_20_to_22_its_counts() {
    script_refused(&[], 20, 0);
    script_refused(&[1025], 20, 0);
    script_accepted(&[1024, 0]);
    script_refused(&[1025, 8193], 21, 0);
    script_refused(&[1024, 8193], 22, 1);
    script_refused(&[1, 1], 20, 0);
    script_refused(&[1, 1, 0, 0], 20, 0);
    script_refused(&[1, 1, 0, 0, 0, 0], 20, 0);
    script_refused(&[1, 0, 9], 20, 0);
    let mut words = vec![1024, 8192];
    for link in 0..8192 {
        words.extend([link / 16, 1, link % 16]);
    }
    script_accepted(&words);
    words[1] = 8193;
    words.extend([1023, 1, 1023]);
    script_refused(&words, 22, 1);
}

#[test]
fn script_23_to_25_its_links() {
    script_accepted(&[2, 1, 1, 1, 1]);
    script_refused(&[2, 1, 2, 2, 2], 23, 2);
    script_refused(&[2, 1, 1, 2, 2], 24, 3);
    script_refused(&[2, 1, 1, 1, 2], 23, 4);
    script_refused(&[0, 1, 0, 0, 0], 23, 2);
    script_accepted(&[2, 3, 0, 0, 1, 0, 1, 0, 1, 0, 0]);
    script_refused(&[2, 2, 0, 1, 0, 0, 0, 1], 25, 5);
    script_refused(&[2, 2, 1, 0, 0, 0, 1, 1], 25, 5);
    script_refused(&[2, 2, 0, 0, 1, 0, 0, 0], 25, 5);
    // A link's words come before its order.
    script_refused(&[2, 2, 1, 0, 0, 0, 0, 2], 23, 7);
    // A link out of order comes before a later link's words.
    script_refused(&[2, 3, 1, 0, 0, 0, 0, 0, 9, 9, 9], 25, 5);
    // The template comes first.
    assert_eq!(script::read(&[1], &[]).map(|_| ()), Err(Refusal::at(1, 0)));
}

/// The smallest typing of the worked sheet with these bookings for a desk, into a grid of this size.
fn book_for(desk: u16, words: &[u16], size: usize) -> Result<Smallest, Refusal> {
    let mut grid = vec![7; size];
    let answer = smallest(&DOCUMENT_TEMPLATE, &DOCUMENT_SCRIPT, words, desk, &mut grid);
    if answer.is_err() {
        assert!(grid.iter().all(|byte| *byte == 7), "a refusal changed the grid");
    }
    answer
}

/// The same for the radio.
fn book(words: &[u16], size: usize) -> Result<Smallest, Refusal> {
    book_for(0, words, size)
}

/// Every call that takes bookings refuses this list, whichever desk it asks for and whatever else is wrong there.
fn list_refused(words: &[u16], number: u16, place: usize) {
    let refusal = Refusal::at(number, place);
    for desk in [0, 1, 2, 65535] {
        for size in [6, 5] {
            assert_eq!(book_for(desk, words, size), Err(refusal), "{words:?}");
            let judged = judge(&DOCUMENT_TEMPLATE, &DOCUMENT_SCRIPT, words, desk, &vec![2; size]);
            assert_eq!(judged, Err(refusal), "{words:?}");
        }
        for method in [both, both_by_rounds] {
            let answer = method(&DOCUMENT_TEMPLATE, &DOCUMENT_SCRIPT, words, desk);
            assert_eq!(answer, Err(refusal), "{words:?}");
        }
    }
    let printed = sheet::print(&document(words).bytes());
    assert_eq!(printed, format!("refused {number} {place}\n"), "{words:?}");
}

#[test]
fn bookings_30_to_33_and_the_grid_40() {
    assert_eq!(book(&[0], 6), Ok(Smallest::Pairs(0)));
    list_refused(&[], 30, 0);
    list_refused(&[1025], 31, 0);
    list_refused(&[1024], 30, 0);
    list_refused(&[0, 0], 30, 0);
    list_refused(&[1, 0, 2], 30, 0);
    list_refused(&[1, 0, 2, 1, 0], 30, 0);
    list_refused(&[1, 0, 3, 2], 32, 2);
    list_refused(&[1, 1, 2, 2], 33, 3);
    list_refused(&[2, 0, 2, 1, 0, 2, 2], 33, 6);
    list_refused(&[2, 1, 2, 2, 0, 3, 1], 33, 3);
    for (desk, size) in [(0, 5), (0, 7), (1, 5), (1, 7)] {
        assert_eq!(book_for(desk, &[1, 0, 0, 0], size), Err(Refusal::at(40, 0)));
    }
    for method in [largest, largest_by_rounds] {
        let mut grid = [7; 5];
        let answer = method(&DOCUMENT_TEMPLATE, &DOCUMENT_SCRIPT, &mut grid);
        assert_eq!((answer, grid), (Err(Refusal::at(40, 0)), [7; 5]));
    }
}

#[test]
fn a_list_without_desks_is_30() {
    list_refused(&[1, 2, 1], 30, 0);
    list_refused(&[2, 2, 1, 0, 0], 30, 0);
    list_refused(&[3, 2, 1, 0, 0, 2, 1], 30, 0);
    list_refused(&[vec![1024], [2, 1].repeat(1024)].concat(), 30, 0);
}

#[test]
fn bookings_65_a_pair_that_the_desk_books_earlier() {
    for desk in [0, 1] {
        list_refused(&[2, desk, 2, 1, desk, 2, 1], 65, 5);
        list_refused(&[3, desk, 2, 1, 0, 0, 0, desk, 2, 1], 65, 8);
        list_refused(&[2, desk, 0, 0, desk, 0, 0], 65, 5);
        // The other desk's booking of the pair changes nothing.
        list_refused(&[3, desk, 2, 1, 1 - desk, 2, 1, desk, 2, 1], 65, 8);
        list_refused(&[3, 1 - desk, 2, 1, desk, 2, 1, desk, 2, 1], 65, 8);
    }
    // The first of several repeats is told, whichever pair it repeats.
    list_refused(&[4, 0, 2, 1, 0, 0, 0, 0, 0, 0, 0, 2, 1], 65, 8);
    list_refused(&[4, 0, 2, 1, 0, 2, 1, 0, 2, 1, 0, 2, 1], 65, 5);
    // After the 33 of the same booking, before the 66 and the 32 of the next.
    list_refused(&[3, 0, 2, 1, 0, 2, 1, 2, 9, 9], 65, 5);
    list_refused(&[3, 0, 2, 1, 0, 2, 1, 0, 9, 9], 65, 5);
    list_refused(&[2, 0, 2, 1, 0, 2, 2], 33, 6);
    list_refused(&[3, 0, 3, 1, 0, 2, 1, 0, 2, 1], 32, 2);
    list_refused(&[3, 0, 2, 1, 0, 2, 2, 0, 2, 1], 33, 6);
    list_refused(&[2, 0, 3, 0, 0, 3, 0], 32, 2);
    list_refused(&[2, 0, 2, 2, 0, 2, 2], 33, 3);
    // The size of the list comes before its bookings.
    list_refused(&[2, 0, 2, 1, 0, 2, 1, 0], 30, 0);
    list_refused(&[3, 0, 2, 1, 0, 2, 1], 30, 0);
    list_refused(&[1025, 0, 2, 1, 0, 2, 1], 31, 0);
    list_refused(&[vec![1024], [0, 2, 1].repeat(1024)].concat(), 65, 5);
    list_refused(&[vec![1025], [0, 2, 1].repeat(1025)].concat(), 31, 0);
}

#[test]
fn bookings_66_a_desk_that_there_is_not() {
    for desk in [2, 3, 255, 256, 257, 65534, 65535] {
        list_refused(&[1, desk, 2, 1], 66, 1);
        list_refused(&[1, desk, 9, 9], 66, 1);
        list_refused(&[2, 0, 2, 1, desk, 2, 1], 66, 4);
    }
    // Within a booking: desk, card, shape, repeat. A fault of a booking comes before all of the next.
    list_refused(&[2, 0, 2, 1, 2, 3, 2], 66, 4);
    list_refused(&[2, 0, 2, 1, 0, 3, 2], 32, 5);
    list_refused(&[2, 0, 2, 1, 1, 2, 2], 33, 6);
    list_refused(&[3, 0, 2, 1, 0, 3, 1, 2, 2, 1], 32, 5);
    list_refused(&[3, 0, 2, 1, 2, 2, 1, 0, 2, 1], 66, 4);
}

#[test]
fn calls_66_a_desk_that_there_is_not() {
    let refusal = Refusal::at(66, 0);
    for desk in [2, 3, 256, 65535] {
        for words in [&[0][..], &[1, 0, 2, 1], &[2, 0, 0, 0, 1, 2, 1]] {
            for size in [5, 6] {
                assert_eq!(book_for(desk, words, size), Err(refusal));
                let judged = judge(&DOCUMENT_TEMPLATE, &DOCUMENT_SCRIPT, words, desk, &vec![2; size]);
                assert_eq!(judged, Err(refusal));
            }
            for method in [both, both_by_rounds] {
                let answer = method(&DOCUMENT_TEMPLATE, &DOCUMENT_SCRIPT, words, desk);
                assert_eq!(answer, Err(refusal));
            }
        }
        let unread = smallest(&DOCUMENT_TEMPLATE, &[1025, 0], &[], desk, &mut []);
        assert_eq!(unread, Err(Refusal::at(21, 0)));
    }
}

#[test]
fn a_repeat_has_to_be_the_same_in_all_three_words() {
    let not_met = Ok(Smallest::NotMet(Card(0), Shape(1)));
    assert_eq!(book(&[2, 0, 0, 0, 0, 0, 1], 6), not_met);
    assert_eq!(book(&[2, 0, 0, 1, 0, 2, 1], 6), not_met);
    assert_eq!(book(&[2, 0, 0, 1, 0, 1, 0], 6), not_met);
    assert_eq!(book(&[2, 0, 0, 0, 1, 0, 0], 6), not_met);
    // The words of the last booking stand across the first two.
    assert_eq!(book(&[3, 0, 0, 1, 0, 1, 0, 1, 0, 1], 6), not_met);
    let each = [6, 0, 0, 0, 0, 0, 1, 0, 1, 0, 0, 1, 1, 0, 2, 0, 0, 2, 1];
    assert_eq!(book(&each, 6), not_met);
    let read = |cards: u16, words: &[u16]| {
        let setting = Setting::read(&template_of(1, &[&[0][..]; 32]), &[cards, 0]).expect("well-formed");
        bookings::read(&setting, words).map(|booked| booked.len())
    };
    // As many bookings as can be, by cards and by shapes; then the last is a repeat of the first, and then the other
    // desk's.
    for cards in [1024, 32] {
        let booking = |number: u16| [1, number % cards, number / cards];
        let mut words: Vec<u16> = [1024].into_iter().chain((0..1024).flat_map(booking)).collect();
        assert_eq!(read(cards, &words), Ok(1024));
        words[3070..].copy_from_slice(&[1, 0, 0]);
        assert_eq!(read(cards, &words), Err(Refusal::at(65, 3071)));
        words[3070] = 0;
        assert_eq!(read(cards, &words), Ok(1024));
        words[3072] = 32;
        assert_eq!(read(cards, &words), Err(Refusal::at(33, 3072)));
    }
}

#[test]
fn sheet_60_the_length_of_the_input() {
    let whole = document(&[1, 0, 2, 1]).bytes();
    for length in 0..whole.len() {
        assert_eq!(sheet::print(&whole[..length]), "refused 60 0\n", "{length} bytes");
    }
    for more in 1..5 {
        assert_eq!(
            sheet::print(&[whole.clone(), vec![0; more]].concat()),
            "refused 60 0\n"
        );
    }
    // 65,536 bytes are no fault in themselves; two more are, even if template and script are wrong too.
    let mut long = document(&[1]);
    long.bookings.resize(MOST_BYTES / 2 - 3 - 15 - 11, 0);
    assert_eq!(long.bytes().len(), MOST_BYTES);
    assert_eq!(sheet::print(&long.bytes()), "refused 30 0\n");
    long.bookings.push(0);
    assert_eq!(sheet::print(&long.bytes()), "refused 60 0\n");
    long.template[0] = 0;
    assert_eq!(sheet::print(&long.bytes()), "refused 60 0\n");
}

#[test]
fn sheet_order_of_the_files() {
    let mut files = document(&[2, 0, 2, 1, 0, 2, 1]);
    assert_eq!(sheet::print(&files.bytes()), "refused 65 5\n");
    files.bookings[2] = 3;
    assert_eq!(sheet::print(&files.bytes()), "refused 32 2\n");
    files.bookings[1] = 2;
    assert_eq!(sheet::print(&files.bytes()), "refused 66 1\n");
    files.script[0] = 2;
    assert_eq!(sheet::print(&files.bytes()), "refused 23 4\n");
    files.template[5] = 255;
    assert_eq!(sheet::print(&files.bytes()), "refused 5 5\n");
    files.template.clear();
    assert_eq!(sheet::print(&files.bytes()), "refused 1 0\n");
    assert_eq!(sheet::print(&[0; 6]), "refused 1 0\n");
}
