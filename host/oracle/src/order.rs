//! Knows which item is due on a reel; knows no field of a label.

use crate::label::{End, Kind};

const MOST_USER_LABELS: u8 = 9;

/// What stands before the place on the reel.
#[derive(Clone, Copy, Debug, PartialEq, Eq)]
pub enum Behind {
    /// Nothing: a reel is due.
    StartOfReel,
    Volume(u8),
    Installation(u8),
    Header(u8),
    UserHeaders(u8),
    /// The mark behind the headers, or a data block.
    DataMark,
    /// The mark behind the data.
    EndOfData,
    Trailer(End, u8),
    UserTrailers(End, u8),
    /// The mark behind the trailers.
    Section(End),
    /// The second mark behind the trailers.
    LastSection(End),
    /// The end of the reel that ended the set.
    Set,
}

/// An item as the order of a reel sees it.
#[derive(Clone, Copy, Debug, PartialEq, Eq)]
pub enum Seen {
    Label(Kind),
    TapeMark,
    EndOfReel,
}

/// The place behind the item, where it is due. Data blocks are no matter of this function.
pub fn after(place: Behind, seen: Seen) -> Option<Behind> {
    use Behind as B;
    match seen {
        Seen::Label(kind) => after_label(place, kind),
        Seen::TapeMark => match place {
            B::Header(2..) | B::UserHeaders(_) => Some(B::DataMark),
            B::DataMark => Some(B::EndOfData),
            B::Trailer(end, 2..) | B::UserTrailers(end, _) => Some(B::Section(end)),
            B::Section(end) => Some(B::LastSection(end)),
            _ => None,
        },
        Seen::EndOfReel => match place {
            B::LastSection(End::File) => Some(B::Set),
            B::LastSection(End::Volume) => Some(B::StartOfReel),
            _ => None,
        },
    }
}

fn after_label(place: Behind, kind: Kind) -> Option<Behind> {
    use Behind as B;
    match (place, kind) {
        (B::StartOfReel, Kind::Volume(1)) => Some(B::Volume(1)),
        (B::Volume(last), Kind::Volume(n)) if n == last + 1 => Some(B::Volume(n)),
        (B::Volume(_), Kind::Installation(1)) => Some(B::Installation(1)),
        (B::Installation(last), Kind::Installation(n)) if n == last + 1 => Some(B::Installation(n)),
        (B::Volume(_) | B::Installation(_) | B::Section(End::File), Kind::Header(1)) => {
            Some(B::Header(1))
        }
        (B::Header(last), Kind::Header(n)) if n == last + 1 => Some(B::Header(n)),
        (B::Header(2..), Kind::UserHeader) => Some(B::UserHeaders(1)),
        (B::UserHeaders(n), Kind::UserHeader) if n < MOST_USER_LABELS => {
            Some(B::UserHeaders(n + 1))
        }
        (B::EndOfData, Kind::Trailer(end, 1)) => Some(B::Trailer(end, 1)),
        (B::Trailer(end, last), Kind::Trailer(e, n)) if e == end && n == last + 1 => {
            Some(B::Trailer(end, n))
        }
        (B::Trailer(end, 2..), Kind::UserTrailer) => Some(B::UserTrailers(end, 1)),
        (B::UserTrailers(end, n), Kind::UserTrailer) if n < MOST_USER_LABELS => {
            Some(B::UserTrailers(end, n + 1))
        }
        _ => None,
    }
}
