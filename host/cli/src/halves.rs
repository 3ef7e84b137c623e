//! A search by halves, for questions that the library must be asked anew for each count.

/// The least number of `from..=to` that has a quality which all above it have too, `to` among them.
pub fn least(from: usize, to: usize, has: impl Fn(usize) -> bool) -> usize {
    let (mut from, mut to) = (from, to);
    while from < to {
        let middle = from + (to - from) / 2;
        match has(middle) {
            true => to = middle,
            false => from = middle + 1,
        }
    }
    to
}
