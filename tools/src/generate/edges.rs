//! The edges of the format's limits, each from both sides, and faults that meet at one place. These inputs come
//! first in every run, so that a limit that is off by one is found whatever the seed. `open` has those of code 18.

pub mod open;

use super::parts::filler;
use super::special::{document, DOCUMENT_SCRIPT, DOCUMENT_TEMPLATE};
use super::Case;
use crate::sheet::Files;
use crate::template::{INCOMING, MOST_WORDS, OUTGOING};

/// All edges.
pub fn edges() -> Vec<Case> {
    let templates = [
        template_counts(),
        template_parts(),
        template_links(),
        open::templates(),
    ];
    let of_template = |template| Files {
        template,
        script: vec![1, 0],
        bookings: vec![0],
    };
    let of_script = |script| Files {
        template: DOCUMENT_TEMPLATE.to_vec(),
        script,
        bookings: vec![0],
    };
    let templates = templates.concat().into_iter().map(of_template);
    let scripts = scripts().into_iter().map(of_script);
    let bookings = booking_lists().into_iter().map(|list| document(&list));
    [
        numbered("template", templates.map(|files| files.bytes())),
        numbered("script", scripts.map(|files| files.bytes())),
        numbered("bookings", bookings.map(|files| files.bytes())),
        numbered("input", inputs().into_iter()),
    ]
    .concat()
}

/// These inputs, by the name of what is at its edge and their numbers.
fn numbered(what: &str, inputs: impl Iterator<Item = Vec<u8>>) -> Vec<Case> {
    let case = |(number, bytes)| Case {
        name: format!("edge-{what}-{number}"),
        bytes,
    };
    inputs.enumerate().map(case).collect()
}

/// A template with L kinds and the words of these shapes.
fn template(kinds: u16, shapes: &[&[u16]]) -> Vec<u16> {
    let mut words = vec![kinds, shapes.len() as u16];
    for shape in shapes {
        words.push(shape.len() as u16);
        words.extend(*shape);
    }
    words
}

/// Counts of words, kinds and shapes, and counts that don't match.
fn template_counts() -> Vec<Vec<u16>> {
    let nothing: &[u16] = &[0];
    vec![
        vec![],
        vec![1],
        vec![1, 1],
        template(1, &[&filler(MOST_WORDS - 3).words()]),
        template(1, &[&filler(MOST_WORDS - 2).words()]),
        template(64, &[nothing]),
        template(65, &[nothing]),
        template(0, &[nothing]),
        template(1, &[]),
        template(1, &[nothing; 32]),
        template(1, &[nothing; 33]),
        vec![0, 0],
        vec![1, 1, 0],
        vec![1, 2, 1, 0],
        vec![1, 1, 2, 99],
        vec![1, 2, 1, 1, 1, 0],
        vec![1, 2, 2, 0, 7, 1, 99],
        vec![1, 1, 1, 0, 0],
        vec![1, 1, 2, 0, 0],
    ]
}

/// Codes, groups and depths.
fn template_parts() -> Vec<Vec<u16>> {
    let mut templates = Vec::new();
    for code in [4, 15, 19, 255, 384, 65535] {
        templates.push(template(1, &[&[code]]));
    }
    // The first and the last code of each way, and what stands beside them.
    for code in [255, 256, 319, 320, 383, 384] {
        templates.push(template(64, &[&[code, 0, 0, 1]]));
    }
    for count in [0, 1, 2, 16, 17, 65535] {
        let parts = vec![0; usize::from(count).min(17)];
        templates.push(template(1, &[&[vec![16, count], parts].concat()]));
    }
    for wraps in [11, 12, 13] {
        for last in [0, 99] {
            templates.push(template(1, &[&[vec![2; wraps], vec![last]].concat()]));
        }
        templates.push(template(1, &[&vec![3; wraps]]));
    }
    templates.push(template(1, &[&[[17, 2].repeat(11), vec![0; 12]].concat()]));
    templates.push(template(1, &[&[[17, 2].repeat(12), vec![0; 13]].concat()]));
    templates.push(template(1, &[&[[17, 2].repeat(11), vec![16, 17, 99]].concat()]));
    templates
}

/// Links, outgoing and incoming: their kinds, shapes, lows and highs; and both in one shape.
fn template_links() -> Vec<Vec<u16>> {
    let mut templates = [OUTGOING, INCOMING].map(links_from).concat();
    for group in [16, 17] {
        for (first, second) in [(256, 320), (320, 256), (320, 321), (256, 321)] {
            templates.push(template(1, &[&[group, 2, first, 0, 0, 0, second, 0, 0, 0]]));
        }
        for third in [256, 320] {
            let three = [group, 3, 256, 0, 0, 0, 320, 0, 0, 0, third, 9, 9999, 0];
            templates.push(template(1, &[&three]));
        }
    }
    templates
}

/// Links whose code is this one or the next ones.
fn links_from(code: u16) -> Vec<Vec<u16>> {
    let bounds = [
        (0, 0),
        (0, 8192),
        (8192, 8192),
        (8192, 65535),
        (1, 0),
        (8193, 8193),
        (8193, 65535),
        (0, 8193),
        (0, 65534),
        (65535, 65535),
    ];
    let mut templates: Vec<Vec<u16>> = bounds
        .iter()
        .map(|(low, high)| template(1, &[&[code, 0, *low, *high]]))
        .collect();
    let (next, last) = (code + 1, code + 63);
    templates.push(template(64, &[&[last, 0, 0, 0]]));
    templates.push(template(63, &[&[last, 0, 0, 0]]));
    templates.push(template(1, &[&[next, 9, 9999]]));
    templates.push(template(1, &[&[next, 9, 9999, 0]]));
    templates.push(template(1, &[&[code, 1, 9999, 0]]));
    templates.push(template(1, &[&[code, 1, 0, 0], &[code, 1, 0, 0]]));
    for group in [16, 17] {
        templates.push(template(1, &[&[group, 2, code, 0, 0, 0, code, 0, 0, 0]]));
        templates.push(template(1, &[&[group, 2, code, 0, 0, 0, code, 9, 9999, 0]]));
        templates.push(template(1, &[&[group, 2, code, 0, 0, 0, next, 0, 0, 0]]));
    }
    templates
}

/// Scripts under the worked sheet's template.
fn scripts() -> Vec<Vec<u16>> {
    let mut many = vec![1024, 8192];
    for link in 0..8192 {
        many.extend([link / 16, 1, link % 16]);
    }
    let mut too_many = many.clone();
    too_many[1] = 8193;
    too_many.extend([1023, 1, 1023]);
    vec![
        many,
        too_many,
        vec![],
        vec![1025],
        vec![0, 0],
        vec![1024, 0],
        vec![1025, 0],
        vec![1025, 8193],
        vec![1024, 8193],
        vec![1, 1, 0, 0],
        vec![1, 1, 0, 0, 0],
        vec![1, 1, 0, 0, 0, 0],
        vec![2, 1, 2, 2, 2],
        vec![2, 1, 1, 2, 2],
        vec![2, 1, 1, 1, 2],
        vec![2, 1, 1, 1, 1],
        vec![2, 2, 0, 0, 0, 0, 0, 0],
        vec![2, 2, 0, 0, 1, 0, 0, 0],
        vec![2, 2, 0, 1, 0, 0, 0, 1],
        vec![2, 2, 1, 0, 0, 0, 1, 1],
        vec![2, 2, 1, 0, 0, 0, 0, 2],
        vec![2, 3, 1, 0, 0, 0, 0, 0, 9, 9, 9],
    ]
}

/// Bookings for the worked sheet's template and script.
fn booking_lists() -> Vec<Vec<u16>> {
    vec![
        vec![],
        vec![0],
        vec![0, 0],
        vec![1, 0, 2],
        vec![1, 0, 2, 1],
        vec![1, 0, 2, 1, 0],
        [vec![1024], [0, 2, 1].repeat(1024)].concat(),
        [vec![1025], [0, 2, 1].repeat(1025)].concat(),
        vec![1025],
        vec![1024],
        vec![1, 1, 3, 1],
        vec![1, 1, 2, 2],
        vec![1, 1, 3, 2],
        vec![2, 0, 2, 1, 1, 3, 2],
        vec![2, 1, 2, 2, 0, 3, 1],
        vec![2, 0, 2, 1, 0, 2, 1],
        vec![2, 0, 2, 0, 1, 1, 1],
        vec![2, 1, 1, 1, 1, 0, 0],
    ]
}

/// Whole inputs: bytes that are missing or left over, and wrong files behind a wrong length.
fn inputs() -> Vec<Vec<u8>> {
    let whole = document(&[1, 0, 2, 1]).bytes();
    let wrong = Files {
        template: vec![0, 0],
        script: DOCUMENT_SCRIPT.to_vec(),
        bookings: vec![],
    }
    .bytes();
    let mut inputs: Vec<Vec<u8>> = (0..6).map(|length| vec![0; length]).collect();
    inputs.push(vec![0; 6]);
    for bytes in [whole, wrong] {
        inputs.push(bytes[..bytes.len() - 1].to_vec());
        inputs.push(bytes[..bytes.len() - 2].to_vec());
        inputs.push([bytes.clone(), vec![0]].concat());
        inputs.push([bytes.clone(), vec![0; 2]].concat());
        inputs.push(bytes);
    }
    inputs
}
