//! The kinds of the links that start at a card, and kinds that are nearly the same.

use crate::random::Random;

/// The kinds of the links that start at a card, ascending; a kind stands there as often as the card has links of it.
/// Cards with the same are *alike*.
pub type Kinds = Vec<u16>;

/// How many marks there are.
const MARKS: usize = 1024;

/// A number for some kinds, so that most cards that aren't alike can be told apart at once. Alike cards have the same
/// mark, and so do a few others.
pub fn mark(kinds: &[u16]) -> usize {
    let next = |mark, kind: &u16| (mark * 133 + usize::from(*kind) + 1) % MARKS;
    kinds.iter().fold(0, next)
}

/// Some kinds of so many, one or two of them several times.
pub fn any(random: &mut Random, kinds: u16) -> Kinds {
    let mut all: Kinds = (0..random.between(2, 4))
        .map(|_| random.word(0, kinds - 1))
        .collect();
    for _ in 0..random.between(1, 2) {
        all.push(random.pick(&all));
    }
    all.sort();
    all
}

/// Of these kinds, one link more of one and one less of another; none if each is there once, or only one is there.
pub fn in_other_numbers(random: &mut Random, kinds: &[u16]) -> Option<Kinds> {
    let is_again = |place: &usize| *place > 0 && kinds[place - 1] == kinds[*place];
    let again: Vec<usize> = (0..kinds.len()).filter(is_again).collect();
    let place = *some(random, &again)?;
    let others: Kinds = kinds
        .iter()
        .copied()
        .filter(|kind| *kind != kinds[place])
        .collect();
    let mut changed = kinds.to_vec();
    changed[place] = *some(random, &others)?;
    changed.sort();
    Some(changed)
}

/// These kinds and one more after them, of so many.
pub fn one_more(random: &mut Random, kinds: &[u16], number: u16) -> Kinds {
    let last = kinds.last().copied().unwrap_or(0);
    let more = random.word(last, number - 1);
    [kinds, &[more]].concat()
}

/// These kinds with another first one; none if only one could be first, or there are fewer than two.
pub fn other_first(random: &mut Random, kinds: &[u16]) -> Option<Kinds> {
    let [first, rest @ ..] = kinds else { return None };
    let firsts: Kinds = (0..=*rest.first()?).filter(|kind| kind != first).collect();
    let other = *some(random, &firsts)?;
    Some([&[other], rest].concat())
}

/// Other kinds with the same mark, of so many, and as many of them: two neighbours are others. None if a search finds
/// none.
pub fn same_mark(random: &mut Random, kinds: &[u16], number: u16) -> Option<Kinds> {
    let mut found = Vec::new();
    for place in 1..kinds.len() {
        let (before, after) = (&kinds[..place - 1], &kinds[place + 1..]);
        let twos = short(number, mark(&kinds[place - 1..=place])).filter(|short| short.len() == 2);
        found.extend(twos.map(|two| [before, &two, after].concat()));
    }
    found.retain(|other| other != kinds && other.is_sorted());
    some(random, &found).cloned()
}

/// At most two kinds, of so many, with the mark of these. None if a search finds none.
pub fn short_with_mark(random: &mut Random, kinds: &[u16], number: u16) -> Option<Kinds> {
    let found: Vec<Kinds> = short(number, mark(kinds))
        .filter(|other| other != kinds)
        .collect();
    some(random, &found).cloned()
}

/// All lists of at most two kinds, of so many, that have a mark.
fn short(number: u16, of_mark: usize) -> impl Iterator<Item = Kinds> {
    let ones = (0..number).map(|kind| vec![kind]);
    let twos = (0..number).flat_map(move |first| (first..number).map(move |second| vec![first, second]));
    let all = [Kinds::new()].into_iter().chain(ones).chain(twos);
    all.filter(move |short| mark(short) == of_mark)
}

/// One of a list, if it isn't empty.
fn some<'a, T>(random: &mut Random, list: &'a [T]) -> Option<&'a T> {
    list.get(random.below(list.len().max(1)))
}
