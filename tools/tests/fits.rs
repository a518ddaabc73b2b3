//! Fit counts: the intervals of section 8.2 against the bags of section 2.1 written out, both ways.

use prep_tools::fit::ready::{bit, Ready};
use prep_tools::fit::{self, bags, intervals};
use prep_tools::generate::arriving::GUESTS;
use prep_tools::labels::{Label, Labelled, Way};
use prep_tools::numbers::{Kind, Shape};
use prep_tools::random::Random;
use prep_tools::refusal::Refusal;
use prep_tools::samples::{self, questions};
use prep_tools::template::{self, Definition, Part};

#[test]
fn intervals_and_enumeration_agree_on_random_samples() {
    let mut random = Random::new(11);
    let samples = 20_000;
    let (mut yes, mut arriving, mut ignoring, mut open) = (0, 0, 0, 0);
    for _ in 0..samples {
        let question = questions::question(&mut random);
        let by_intervals = fit::fit(&question.template, question.shape, &question.counts);
        let by_bags = fit::fit_by_bags(&question.template, question.shape, &question.counts);
        assert_eq!(by_intervals, by_bags, "{question:?}");
        if by_bags != Ok(true) {
            continue;
        }
        yes += 1;
        let template = template::read(&question.template).expect("a sample's template is well-formed");
        let named = template.part(Shape(question.shape)).named(template.kinds);
        let counts = Labelled::from(question.counts);
        let has = |way: Way, is_named: bool| {
            let mut labels = counts.iter().filter(|(_, count)| **count > 0);
            labels.any(|(label, _)| label.way == way && named[label].is_some() == is_named)
        };
        arriving += usize::from(has(Way::Incoming, true));
        ignoring += usize::from(has(Way::Incoming, false));
        open += usize::from(has(Way::Outgoing, false));
        assert!(!has(Way::Outgoing, false) || template.definition(Shape(question.shape)).open);
    }
    let told = format!(
        "{yes} fit, {arriving} with arriving links, {ignoring} with ignored ones, {open} by an open shape"
    );
    assert!(yes > samples / 4 && yes < samples * 3 / 4, "{told}");
    assert!(arriving > samples / 10 && ignoring > samples / 10, "{told}");
    assert!(open > samples / 20, "{told}");
}

#[test]
fn intervals_and_enumeration_agree_on_the_fixed_samples() {
    let mut refused = std::collections::BTreeMap::new();
    for question in questions::fixed() {
        let by_intervals = fit::fit(&question.template, question.shape, &question.counts);
        let by_bags = fit::fit_by_bags(&question.template, question.shape, &question.counts);
        assert_eq!(by_intervals, by_bags, "{question:?}");
        if let Err(refusal) = by_bags {
            *refused.entry(refusal.number).or_insert(0) += 1;
        }
    }
    assert_eq!(refused.keys().copied().collect::<Vec<u16>>(), [41, 42, 43]);
    assert!(refused.values().all(|count| *count >= 3), "{refused:?}");
}

#[test]
fn samples_fit_alike_whichever_way_their_kinds_run() {
    let turned = samples::turned();
    for sample in samples::table() {
        let start = format!("{}-{}-{}-", sample.label, sample.counts[0], sample.counts[1]);
        for (name, shape, counts) in turned.iter().filter(|(name, _, _)| name.starts_with(&start)) {
            let looked_at = shape.looked_at(2);
            // What arrives and isn't named is ignored, so then the sample says nothing.
            if counts
                .iter()
                .all(|(label, count)| *count == 0 || looked_at[label])
            {
                assert_eq!(intervals::fits(shape, counts), sample.fits, "{name}");
            }
            assert_eq!(
                intervals::fits(shape, counts),
                bags::fits(shape, counts),
                "{name}"
            );
        }
    }
    assert!(turned.len() > 30, "only {} samples", turned.len());
}

#[test]
fn open_shapes_fit_by_the_kinds_that_they_name() {
    let closed = samples::turned();
    let opened = samples::opened();
    let mut ignoring = 0;
    for (name, shape, counts) in &opened {
        assert!(shape.open, "{name}");
        assert_eq!(
            intervals::fits(shape, counts),
            bags::fits(shape, counts),
            "{name}"
        );
        // The closed twin fits the same counts without those that are ignored.
        let looked_at = shape.looked_at(2);
        let mut fewer = counts.clone();
        for label in Label::all(2).filter(|label| !looked_at[*label]) {
            fewer[label] = 0;
        }
        let twin = Definition::closed(shape.part.clone());
        assert_eq!(
            intervals::fits(shape, counts),
            intervals::fits(&twin, &fewer),
            "{name}"
        );
        let is_ignored = fewer.values()[..2] != counts.values()[..2];
        assert!(!is_ignored || !intervals::fits(&twin, counts), "{name}");
        ignoring += usize::from(is_ignored && intervals::fits(shape, counts));
    }
    assert!(
        opened.len() > 25 && opened.len() < closed.len(),
        "{}",
        opened.len()
    );
    assert!(ignoring > 10, "{ignoring} ignore something and fit");
}

#[test]
fn the_open_sample_of_the_page() {
    for fit in [fit::fit, fit::fit_by_bags] {
        let template = [2, 1, 5, 18, 256, 0, 1, 1];
        assert_eq!(fit(&template, 0, &[1, 7, 0, 0]), Ok(true));
        assert_eq!(fit(&template, 0, &[2, 7, 0, 0]), Ok(false));
        let closed = [2, 1, 4, 256, 0, 1, 1];
        assert_eq!(fit(&closed, 0, &[1, 7, 0, 0]), Ok(false));
        assert_eq!(fit(&[1, 1, 2, 18, 0], 0, &[8192, 8192]), Ok(true));
    }
}

#[test]
fn items_and_guests() {
    let fit = |shape, counts: &[u16]| fit::fit(&GUESTS, shape, counts);
    assert_eq!(fit(1, &[0, 1]), Ok(true));
    assert_eq!(fit(1, &[0, 0]), Ok(false));
    assert_eq!(fit(1, &[1, 1]), Ok(false));
    assert_eq!(fit(0, &[1, 7]), Ok(true));
    assert_eq!(fit(0, &[1]), Err(Refusal::at(41, 0)));
    assert_eq!(fit(0, &[1, 8193]), Err(Refusal::at(43, 1)));
}

#[test]
fn intervals_and_enumeration_agree_on_all_counts_of_small_parts() {
    let labels = [
        [Label::outgoing(Kind(0)), Label::outgoing(Kind(1))],
        [Label::outgoing(Kind(0)), Label::incoming(Kind(0))],
        [Label::incoming(Kind(0)), Label::incoming(Kind(1))],
    ];
    for labels in labels {
        for (number, part) in small_parts(labels).into_iter().enumerate() {
            let open = number % 4 == 0;
            let shape = Definition { open, part };
            let ready = Ready::new(&shape, 2);
            for counts in some_counts(labels) {
                let answer = bags::fits(&shape, &counts);
                assert_eq!(intervals::fits(&shape, &counts), answer, "{shape:?} {counts:?}");
                let present = counts.iter().filter(|(_, count)| **count > 0);
                let present = present.fold(0, |bits, (label, _)| bits | bit(label));
                assert_eq!(ready.fits(&counts, present), answer, "{shape:?} {counts:?}");
            }
        }
    }
}

/// Counts of two labels, alone and with one more link of a kind that starts or arrives and isn't one of the two.
fn some_counts([first, second]: [Label; 2]) -> Vec<Labelled<u16>> {
    let mut all = Vec::new();
    for number in 0..20 {
        let mut counts = Labelled::new(2, 0);
        (counts[first], counts[second]) = (number % 5, number / 5);
        all.push(counts.clone());
        let others = Label::all(2).filter(|label| number % 4 == 0 && *label != first && *label != second);
        for other in others {
            let mut more = counts.clone();
            more[other] = 1;
            all.push(more);
        }
    }
    all
}

/// Every wrap of every wrap of a group of two wrapped links, for some bounds.
fn small_parts([first, second]: [Label; 2]) -> Vec<Part> {
    let bounds = [
        (0, Some(0)),
        (0, Some(1)),
        (1, Some(1)),
        (2, Some(3)),
        (2, None),
        (0, None),
    ];
    let mut parts = Vec::new();
    for one in bounds {
        for two in &bounds[1..5] {
            for wrap in 0..4 {
                let (left, right) = (wrapped(wrap, link(first, one)), link(second, *two));
                let groups = [
                    Part::Choice(vec![left.clone(), right.clone()]),
                    Part::All(vec![left.clone(), right.clone()]),
                    Part::Choice(vec![Part::Nothing, left, right]),
                ];
                for group in groups {
                    for outer in 0..16 {
                        parts.push(wrapped(outer / 4, wrapped(outer % 4, group.clone())));
                    }
                }
            }
        }
    }
    parts
}

fn wrapped(wrap: usize, part: Part) -> Part {
    match wrap {
        0 => part,
        1 => Part::Star(Box::new(part)),
        2 => Part::Plus(Box::new(part)),
        _ => Part::Optional(Box::new(part)),
    }
}

fn link(label: Label, (low, high): (u16, Option<u16>)) -> Part {
    Part::link(label, Shape(0), low, high)
}

#[test]
fn large_counts_fit_by_intervals() {
    for label in Label::all(1) {
        let fits = |part: Part, count| {
            let mut counts = Labelled::new(1, 0);
            counts[label] = count;
            intervals::fits(&Definition::closed(part), &counts)
        };
        let one = |low, high, count| fits(link(label, (low, high)), count);
        assert!(one(8192, Some(8192), 8192));
        assert!(!one(8192, Some(8192), 8191));
        assert!(one(0, None, 8192));
        assert!(one(1, None, 8192));
        assert!(!one(0, Some(8191), 8192));
        let star = |low, high, count| fits(wrapped(1, link(label, (low, high))), count);
        assert!(star(4096, Some(4096), 8192));
        assert!(!star(4097, Some(8191), 8192));
        assert!(star(4095, Some(4096), 8191));
    }
}
