//! Knows a walk over the records of one file: a step from any state, be it one that a walk reaches
//! or not; judges no label.

use crate::block::{Shape, Unit, PAD};
use crate::content::{Found, Part, Parts};
use crate::label::{kind_of, End, Label};
use crate::order::{after, Behind, Seen};
use crate::tape::{item_in, Item};
use crate::{number_of, Answer};

/// The state of a walk: what its file's HDR2 says, and what is left of the current block, `left`
/// bytes at the place `at` of the image.
#[derive(Clone, Copy, Debug, Default, PartialEq, Eq, Hash)]
pub struct Walk {
    pub format: u32,
    pub size: u32,
    pub offset: u64,
    pub at: u64,
    pub left: u64,
}

/// A unit and what is left of its block; places are those of the image.
struct Head<'a> {
    unit: Unit,
    rest: Rest<'a>,
}

/// The bytes left of a block, and the whole image with the place behind them.
#[derive(Clone, Copy)]
struct Rest<'a> {
    image: &'a [u8],
    at: usize,
    left: usize,
}

/// A file begun: the places of its first header labels, and the walk before its first record.
#[derive(Clone, Copy, Debug, PartialEq, Eq)]
pub struct Begun {
    pub first: usize,
    pub second: usize,
    pub walk: Walk,
}

/// File number `file`, from 1: the image's own number, then 13.
pub fn begin(image: &[u8], file: u64) -> Result<Begun, Answer> {
    let place = |label: &Label| label.as_ptr() as usize - image.as_ptr() as usize;
    let mut files = 0;
    let mut parts = Parts::of(image)?;
    while let Some(part) = parts.next() {
        let Part::File(head) = part else { continue };
        files += 1;
        if files == file {
            let Shape { format, record, offset, .. } = Shape::of(head.second);
            let (size, offset) = (record as u32, offset as u64);
            let format = u32::from(format);
            let walk = Walk { format, size, offset, at: parts.data_from() as u64, left: 0 };
            return Ok(Begun { first: place(head.first), second: place(head.second), walk });
        }
    }
    Err(Answer::without_place(13))
}

impl Walk {
    /// The record at the walk's place, and the walk moved on; 13 where no whole record stands there,
    /// and 10 where it must be joined and the buffer is shorter.
    pub fn step(self, image: &[u8], join: &mut [u8]) -> Result<(Found, Walk), u32> {
        let head = self.first(image).ok_or(13_u32)?;
        if head.unit.indicator == 0 {
            let Unit { start, len, .. } = head.unit;
            let allowed = len <= self.size as usize;
            let whole = (Found::InImage { start, len }, self.behind(head.rest));
            return if allowed { Ok(whole) } else { Err(13) };
        }
        let (units, rest) = self.segments(head).ok_or(13_u32)?;
        let behind = self.behind(rest);
        let len = units.iter().map(|unit| unit.len).sum();
        if len > join.len() {
            return Err(10);
        }
        let mut at = 0;
        for Unit { start, len, .. } in units {
            join[at..at + len].copy_from_slice(&image[start..start + len]);
            at += len;
        }
        Ok((Found::Joined { len }, behind))
    }

    /// The number of records from here on, and of their bytes.
    pub fn count(mut self, image: &[u8]) -> (u64, u64) {
        let (mut records, mut bytes) = (0, 0);
        while let Some((units, rest)) = self.first(image).and_then(|head| self.segments(head)) {
            records += 1;
            bytes += units.iter().map(|unit| unit.len as u64).sum::<u64>();
            self = self.behind(rest);
        }
        (records, bytes)
    }

    fn behind(self, rest: Rest) -> Walk {
        Walk { at: rest.at as u64, left: rest.left as u64, ..self }
    }

    /// The first unit of the record, in the current block or the next.
    fn first<'a>(&self, image: &'a [u8]) -> Option<Head<'a>> {
        let rest = self.rest(image)?;
        self.unit(rest).or_else(|| self.next_unit(rest))
    }

    /// The units of the record, in turn and no longer than R, and what is left behind the last.
    fn segments<'a>(&self, first: Head<'a>) -> Option<(Vec<Unit>, Rest<'a>)> {
        let mut head = first;
        let mut units = vec![head.unit];
        if head.unit.indicator == 1 {
            while matches!(units.last()?.indicator, 1 | 2) {
                head = self.next_unit(head.rest)?;
                if !matches!(head.unit.indicator, 2 | 3) {
                    return None;
                }
                units.push(head.unit);
            }
        } else if head.unit.indicator != 0 {
            return None;
        }
        let len: usize = units.iter().map(|unit| unit.len).sum();
        (len <= self.size as usize).then_some((units, head.rest))
    }

    /// What is left, where the state could be one of a walk over this image at all.
    fn rest<'a>(&self, image: &'a [u8]) -> Option<Rest<'a>> {
        let end = self.at.checked_add(self.left)?;
        let sound = matches!(self.format(), Some(b'F' | b'D' | b'S')) && self.size > 0;
        (sound && end <= image.len() as u64).then_some(Rest {
            image,
            at: self.at as usize,
            left: self.left as usize,
        })
    }

    fn format(&self) -> Option<u8> {
        u8::try_from(self.format).ok()
    }

    /// The unit at the head of what is left of a block.
    fn unit<'a>(&self, rest: Rest<'a>) -> Option<Head<'a>> {
        let bytes = rest.bytes();
        let size = self.size as usize;
        let (indicator, word, length) = match self.format()? {
            b'F' => {
                let record = bytes.get(..size)?;
                return record
                    .iter()
                    .any(|&byte| byte != PAD)
                    .then(|| rest.split(Unit { indicator: 0, start: rest.at, len: size }));
            }
            b'D' => (0, 4, number_of(bytes.get(..4)?)? as usize),
            _ => {
                let indicator = bytes.first()?.wrapping_sub(b'0');
                (indicator, 5, number_of(bytes.get(1..5)?)? as usize)
            }
        };
        let fits = length >= word && length <= bytes.len();
        let allowed = if word == 4 { length <= size } else { indicator <= 3 };
        let unit = Unit { indicator, start: rest.at + word, len: length.checked_sub(word)? };
        (fits && allowed).then(|| rest.split(unit))
    }

    /// The first unit of the file's next block; what is left of this one must be padding.
    fn next_unit<'a>(&self, rest: Rest<'a>) -> Option<Head<'a>> {
        if rest.bytes().iter().any(|&byte| byte != PAD) {
            return None;
        }
        let (at, len) = next_data_block(rest.image, rest.at + rest.left)?;
        let offset = usize::try_from(self.offset).ok()?;
        let left = len.checked_sub(offset)?;
        self.unit(Rest { image: rest.image, at: at + offset, left })
    }
}

impl<'a> Rest<'a> {
    fn bytes(self) -> &'a [u8] {
        &self.image[self.at..self.at + self.left]
    }

    /// The unit at the head, and what is left behind it.
    fn split(self, unit: Unit) -> Head<'a> {
        let end = unit.start + unit.len;
        Head { unit, rest: Rest { image: self.image, at: end, left: self.left - (end - self.at) } }
    }
}

/// Where the bytes of the next data block of a file are, and how many, from a place between two
/// items in the data of that file. Other reels may have to be gone through as far as its next section.
fn next_data_block(image: &[u8], mut at: usize) -> Option<(usize, usize)> {
    let mut place = Behind::DataMark;
    loop {
        let item = item_in(image.get(at..)?)?;
        let seen = match item {
            Item::Block(block) if place == Behind::DataMark => return Some((at + 3, block.len())),
            Item::Block(block) => Seen::Label(kind_of(<&Label>::try_from(block).ok()?)?),
            Item::TapeMark => Seen::TapeMark,
            Item::EndOfReel => Seen::EndOfReel,
        };
        place = after(place, seen)?;
        if matches!(place, Behind::Trailer(End::File, _)) {
            return None;
        }
        at += item.len();
    }
}
