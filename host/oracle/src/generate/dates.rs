//! Makes dates, and gives each section of a file its own.

use super::{Piece, Rng};
use crate::label::{kind_of, Kind, DATES, SECTION};

/// A date that a label may have.
pub fn date(rng: &mut Rng) -> [u8; 6] {
    let any = rng.between(1, 366);
    let day = rng.pick(&[1, 365, 366, any, any]);
    let year = if rng.one_in(3) { 0 } else { rng.below(100) };
    let text = if rng.one_in(4) { "00000".into() } else { format!("{year:02}{day:03}") };
    let mut date = [rng.pick(b" 0"); 6];
    date[1..].copy_from_slice(text.as_bytes());
    date
}

/// Gives the later sections of a whole set dates of their own, the same in a header and its trailer: each
/// date that of section 0001, that of the section before, or another.
pub fn redate(rng: &mut Rng, pieces: &mut [Piece]) {
    let (mut begun, mut header) = ([b' '; 80], [b' '; 80]);
    for piece in pieces {
        let Piece::Label(label) = piece else { continue };
        match kind_of(label) {
            Some(Kind::Header(1)) if SECTION.of(label) == b"0001" => {
                (begun, header) = (*label, *label);
            }
            Some(Kind::Header(1)) => {
                for field in DATES {
                    let other = date(rng);
                    let choices = [field.of(&begun), field.of(&header), &other, &other];
                    field.put(label, rng.pick(&choices));
                }
                header = *label;
            }
            Some(Kind::Trailer(_, 1)) => {
                DATES.iter().for_each(|field| field.put(label, field.of(&header)));
            }
            _ => {}
        }
    }
}
