//! Dates of file sections, each of which has its own (P2 of document 02): where they stand in a set, and how
//! often they decided an answer.

use crate::labels::{headers, label_at};
use oracle::label::{kind_of, Kind, Label, DATES, SECTION};
use oracle::Answer;
use std::fmt;

/// Both dates of a header.
pub fn dates(header: &Label) -> [&[u8]; 2] {
    DATES.map(|field| field.of(header))
}

/// Whether the sections of two accepted sets differ in a date.
pub fn differ(one: &[u8], other: &[u8]) -> bool {
    let dates_of = |image| headers(image).into_iter().map(dates);
    !dates_of(one).eq(dates_of(other))
}

/// For each later section of an accepted set, which of its dates are other than those of section 0001.
pub fn other_dates(image: &[u8]) -> Vec<[bool; 2]> {
    let mut begun = [&[][..]; 2];
    let mut others = Vec::new();
    for header in headers(image) {
        let own = dates(header);
        match SECTION.of(header) {
            b"0001" => begun = own,
            _ => others.push([own[0] != begun[0], own[1] != begun[1]]),
        }
    }
    others
}

/// A label with dates: HDR1, or EOV1 or EOF1, of section 0001 or of a later one.
#[derive(Clone, Copy, Debug)]
enum Dated {
    Header,
    LaterHeader,
    Trailer,
    LaterTrailer,
}

impl Dated {
    const ALL: [Dated; 4] =
        [Dated::Header, Dated::LaterHeader, Dated::Trailer, Dated::LaterTrailer];

    fn of(label: &Label) -> Dated {
        let is_header = matches!(kind_of(label), Some(Kind::Header(_)));
        match (is_header, SECTION.of(label)) {
            (true, b"0001") => Dated::Header,
            (true, _) => Dated::LaterHeader,
            (false, b"0001") => Dated::Trailer,
            (false, _) => Dated::LaterTrailer,
        }
    }
}

/// How often the dates of sections decided.
#[derive(Default)]
pub struct Dates {
    /// Accepted sets of which a later section has other dates than section 0001.
    accepted: u64,
    /// Numbers 4, and numbers 6, at the creation and at the expiration date of each label.
    wrong: [[u64; 2]; 4],
    unequal: [[u64; 2]; 4],
}

impl Dates {
    pub fn count(&mut self, image: &[u8], answer: Answer) {
        if answer.is_done() {
            self.accepted += u64::from(other_dates(image).as_flattened().contains(&true));
        }
        let counts = match answer.number {
            4 => &mut self.wrong,
            6 => &mut self.unequal,
            _ => return,
        };
        if let Some(date) = DATES.iter().position(|field| field.bp == answer.byte) {
            let label = label_at(image, answer.item).expect("a date stands in a label");
            counts[Dated::of(label) as usize][date] += 1;
        }
    }

    /// Later sections with other dates were accepted, a wrong date was 4 in each label, and a date that
    /// a trailer has unlike its own header was 6, all at least so often; no date of a header was ever 6.
    pub fn are_complete(&self, least: u64) -> bool {
        let came = |counts: &[[u64; 2]]| counts.as_flattened().iter().all(|&count| count >= least);
        let (headers, trailers) = self.unequal.split_at(2);
        self.accepted >= least && came(&self.wrong) && came(trailers) && headers == [[0; 2]; 2]
    }
}

/// The numbers behind a label are of its creation and its expiration date.
impl fmt::Display for Dates {
    fn fmt(&self, f: &mut fmt::Formatter) -> fmt::Result {
        writeln!(f, "other dates in a later section: {} accepted", self.accepted)?;
        for (number, counts) in [(4, self.wrong), (6, self.unequal)] {
            write!(f, "{number} at dates:")?;
            for (label, [creation, expiration]) in Dated::ALL.iter().zip(counts) {
                write!(f, " {label:?} {creation} {expiration}")?;
            }
            writeln!(f)?;
        }
        Ok(())
    }
}
