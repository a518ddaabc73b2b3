//! Stored lists, two words a booking, from booking lists and the other way round. The lists may have faults.

/// The list without its desks.
pub fn without_desks(words: &[u16]) -> Vec<u16> {
    let Some((count, rest)) = words.split_first() else {
        return Vec::new();
    };
    let pairs = rest.chunks(3).flat_map(|booking| &booking[1..]);
    [count].into_iter().chain(pairs).copied().collect()
}

/// The list with this desk before each booking.
pub fn with_desk(desk: u16, words: &[u16]) -> Vec<u16> {
    let Some((count, rest)) = words.split_first() else {
        return Vec::new();
    };
    let mut booked = vec![*count];
    for pair in rest.chunks(2) {
        booked.push(desk);
        booked.extend(pair);
    }
    booked
}
