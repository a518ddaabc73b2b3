//! The known word that was perhaps meant by an unknown one.

/// The most letters by which the two may differ.
const MOST_CHANGES: usize = 2;
/// Words longer than this are meant as they are.
const MOST_LETTERS: usize = 60;

/// The nearest of the known words, if it is near.
pub fn nearest<'a>(word: &str, known: impl Iterator<Item = &'a str>) -> Option<&'a str> {
    let length = word.chars().count();
    let near = |other: &&str| other.chars().count().abs_diff(length) <= MOST_CHANGES;
    if length > MOST_LETTERS {
        return None;
    }
    let (changes, found) = known
        .filter(near)
        .map(|other| (distance(other, word), other))
        .min()?;
    (changes <= MOST_CHANGES).then_some(found)
}

/// How many letters have to be changed, put in or left out to make one word of another.
fn distance(one: &str, two: &str) -> usize {
    let two: Vec<char> = two.chars().collect();
    let mut row: Vec<usize> = (0..=two.len()).collect();
    for (index, letter) in one.chars().enumerate() {
        let mut diagonal = row[0];
        row[0] = index + 1;
        for (place, other) in two.iter().enumerate() {
            let changed = diagonal + usize::from(letter != *other);
            diagonal = row[place + 1];
            row[place + 1] = changed.min(diagonal + 1).min(row[place] + 1);
        }
    }
    row[two.len()]
}
