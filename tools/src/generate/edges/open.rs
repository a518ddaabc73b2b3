//! Templates with the word 18: as the first word of a shape, where a part's code is read, and as another word.

use super::template;
use crate::generate::parts::filler;
use crate::template::{MOST_DEPTH, MOST_SHAPES, MOST_WORDS, OPEN};

/// All of these templates.
pub fn templates() -> Vec<Vec<u16>> {
    let alone = |part: &Vec<u16>| template(1, &[part]);
    let parts = [first_words(), codes(), depths(), links()].concat();
    let mut templates: Vec<Vec<u16>> = parts.iter().map(alone).collect();
    templates.extend(shapes());
    templates.extend(other_words());
    templates
}

/// 18 as the first word: before a part, alone, twice, before words that are left, and before codes that aren't known.
fn first_words() -> Vec<Vec<u16>> {
    vec![
        vec![OPEN, 0],
        vec![OPEN],
        vec![OPEN, OPEN],
        vec![OPEN, OPEN, 0],
        vec![OPEN, OPEN, OPEN, 0],
        vec![OPEN, 0, 0],
        vec![OPEN, 0, OPEN],
        vec![OPEN, 256, 0, 1, 1, 0],
        vec![OPEN, 4],
        vec![OPEN, 15, 0],
        vec![OPEN, 19, 0],
        vec![OPEN, 255],
        vec![OPEN, 384],
        vec![17, 0],
        vec![19, 0],
        vec![0, OPEN],
    ]
}

/// 18 as the code of a part within another, in closed shapes and in open ones; and as the count of a group.
fn codes() -> Vec<Vec<u16>> {
    let mut parts = Vec::new();
    for code in [1, 2, 3] {
        parts.extend([vec![code, OPEN], vec![code, OPEN, 0], vec![OPEN, code, OPEN, 0]]);
    }
    for group in [16, 17] {
        parts.extend([
            vec![group, 2, OPEN, 0, 0],
            vec![group, 2, 0, OPEN, 0],
            vec![group, 2, 0, OPEN],
            vec![OPEN, group, 2, 0, OPEN, 0],
            vec![OPEN, group, 2, 0, 0],
            vec![group, OPEN, 0, 0],
            vec![OPEN, group, OPEN, 0],
        ]);
    }
    parts
}

/// The part of an open shape as deep as can be and deeper, and 18 as a code there.
fn depths() -> Vec<Vec<u16>> {
    let mut parts = Vec::new();
    for start in [vec![], vec![OPEN]] {
        for wraps in [MOST_DEPTH - 1, MOST_DEPTH] {
            for end in [vec![], vec![0], vec![OPEN], vec![OPEN, 0]] {
                parts.push([start.clone(), vec![1; wraps], end].concat());
            }
        }
    }
    for groups in [MOST_DEPTH - 1, MOST_DEPTH] {
        parts.push([vec![OPEN], [17, 2].repeat(groups), vec![0; groups + 1]].concat());
    }
    parts
}

/// Links in open shapes: their faults are told one place later. And links with 18 as low and high.
fn links() -> Vec<Vec<u16>> {
    let mut parts = Vec::new();
    for code in [256, 320] {
        parts.extend([
            vec![OPEN, code, 0, 0, 1],
            vec![OPEN, code, 0, 0],
            vec![OPEN, code + 1, 9, 9999, 0],
            vec![OPEN, 17, 2, code, 0, 0, 0, code, 9, 9999, 0],
            vec![OPEN, code, 1, 9999, 0],
            vec![OPEN, code, 0, 1, 0],
            vec![code, OPEN, 0, 1],
            vec![code, 0, OPEN, OPEN],
            vec![code, 0, OPEN, 17],
            vec![code, 0, 17, OPEN],
            vec![OPEN, code, 0, OPEN, 65535],
        ]);
    }
    parts
}

/// Which shapes of a template are open, which of them are at fault, and shapes whose count is wrong.
fn shapes() -> Vec<Vec<u16>> {
    let (open, nothing): (&[u16], &[u16]) = (&[OPEN, 0], &[0]);
    vec![
        template(1, &[open, nothing, nothing]),
        template(1, &[nothing, nothing, open]),
        template(1, &[open, nothing, open]),
        template(1, &[nothing, open, nothing]),
        template(1, &[open; MOST_SHAPES as usize]),
        template(1, &[open, &[OPEN]]),
        template(1, &[&[OPEN], open]),
        template(1, &[open, &[1, OPEN, 0]]),
        template(1, &[open, &[OPEN, OPEN, 0], &[4]]),
        // The same kind in an open shape and in the next.
        template(1, &[&[OPEN, 256, 0, 0, 1], &[256, 0, 0, 1]]),
        // The count reaches past the end, the shape has no words, and words are left behind the last one.
        vec![1, 1, 2, OPEN],
        vec![1, 1, 3, OPEN, OPEN],
        vec![1, 2, 0, OPEN, 0],
        vec![1, 1, 2, OPEN, 0, OPEN],
    ]
}

/// 18 as the count of kinds, of shapes and of a shape's words, and as the shape of a link; and all words that can be.
fn other_words() -> Vec<Vec<u16>> {
    let nothing: &[u16] = &[0];
    let asking = |shapes: usize, part: &[u16]| {
        let mut parts = vec![nothing; shapes];
        parts[0] = part;
        template(1, &parts)
    };
    let open = |words: usize| [vec![OPEN], filler(words - 1).words()].concat();
    vec![
        template(18, &[nothing; 18]),
        template(1, &[&filler(18).words()]),
        template(1, &[&open(18)]),
        asking(19, &[256, 18, 0, 1]),
        asking(18, &[256, 18, 0, 1]),
        asking(19, &[OPEN, 320, 18, 18, 18]),
        asking(18, &[OPEN, 320, 18, 18, 18]),
        template(1, &[&open(MOST_WORDS - 3)]),
        template(1, &[&open(MOST_WORDS - 2)]),
    ]
}
