//! How often each number, and each place of 4, 5 and 6, was the answer.

use crate::dates::Dates;
use oracle::Answer;
use std::collections::BTreeMap;
use std::fmt;

/// The first BP of every field of every label.
const FIELDS: [u32; 22] =
    [4, 5, 6, 11, 12, 22, 25, 28, 32, 36, 38, 40, 42, 48, 51, 52, 53, 54, 55, 61, 74, 80];
const ACCESSIBILITY: [u32; 2] = [11, 54];
/// The first BP of every field that is compared.
const COMPARED: [u32; 12] = [5, 6, 11, 22, 28, 32, 36, 40, 42, 48, 51, 55];

#[derive(Default)]
pub struct Tally {
    numbers: [u64; 10],
    /// By number and byte.
    places: BTreeMap<(u32, u32), u64>,
    dates: Dates,
}

impl Tally {
    pub fn count(&mut self, image: &[u8], answer: Answer) {
        self.numbers[answer.number as usize] += 1;
        *self.places.entry((answer.number, answer.byte)).or_default() += 1;
        self.dates.count(image, answer);
    }

    pub fn total(&self) -> u64 {
        self.numbers.iter().sum()
    }

    /// Every number of the reader came at least so often, and 4, 5 and 6 at every place that they
    /// can have, and at no other; see [`Tally::assert_dates`] too.
    #[track_caller]
    pub fn assert_complete(&self, least: u64) {
        assert!(self.numbers.iter().all(|&count| count >= least), "each number:\n{self}");
        assert!(self.bytes(4).eq(FIELDS), "every field of every label:\n{self}");
        assert!(self.bytes(5).eq(ACCESSIBILITY), "volume and file:\n{self}");
        assert!(self.bytes(6).eq(COMPARED), "every field that is compared:\n{self}");
        self.assert_dates(least);
    }

    /// Each section was judged by its own dates, in every way at least so often.
    #[track_caller]
    pub fn assert_dates(&self, least: u64) {
        assert!(self.dates.are_complete(least), "dates belong to a section:\n{self}");
    }

    fn bytes(&self, number: u32) -> impl Iterator<Item = u32> + '_ {
        self.places.keys().filter(move |key| key.0 == number).map(|key| key.1)
    }
}

/// A line for each number, with the places of 4, 5 and 6; and the dates of sections.
impl fmt::Display for Tally {
    fn fmt(&self, f: &mut fmt::Formatter) -> fmt::Result {
        writeln!(f, "{} answers", self.total())?;
        for (number, count) in (0..).zip(self.numbers) {
            write!(f, "{number}: {count}")?;
            for (&(_, byte), count) in self.places.range((number, 1)..(number + 1, 0)) {
                write!(f, " BP{byte}:{count}")?;
            }
            writeln!(f)?;
        }
        write!(f, "{}", self.dates)
    }
}
