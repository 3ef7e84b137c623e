//! Knows the container: items from the bytes of an image, numbers 9, 1 and 2; knows no label.

use crate::Answer;

pub const MOST_BYTES: usize = 16_777_215;
pub const MOST_REELS: u32 = 16;
pub const MOST_BLOCK: usize = 99_999;
pub const HEAD: &[u8; 5] = b"TGI\x00\x01";
pub const TAPE_MARK: [u8; 3] = [0; 3];
pub const END_OF_REEL: [u8; 3] = [0xFF; 3];

#[derive(Clone, Copy, Debug, PartialEq, Eq)]
pub enum Item<'a> {
    TapeMark,
    Block(&'a [u8]),
    EndOfReel,
}

impl Item<'_> {
    /// The bytes of the item in an image, its length among them.
    #[inline]
    #[allow(clippy::len_without_is_empty)]
    pub fn len(&self) -> usize {
        match self {
            Item::Block(block) => 3 + block.len(),
            _ => 3,
        }
    }
}

/// The item at the head of these bytes; none where it is bad or cut short.
#[inline]
pub fn item_in(bytes: &[u8]) -> Option<Item<'_>> {
    let (length, rest) = bytes.split_first_chunk::<3>()?;
    match u32::from_be_bytes([0, length[0], length[1], length[2]]) as usize {
        0 => Some(Item::TapeMark),
        length @ 1..=MOST_BLOCK => rest.get(..length).map(Item::Block),
        MOST_BYTES => Some(Item::EndOfReel),
        _ => None,
    }
}

/// A place in an image: `at` is the first byte of item number `item`.
#[derive(Clone)]
pub struct Tape<'a> {
    image: &'a [u8],
    at: usize,
    item: u32,
    reels: u32,
    ended: bool,
}

impl<'a> Tape<'a> {
    /// The place of item 0; 9 or 1 where the image is too long or is none.
    pub fn open(image: &'a [u8]) -> Result<Tape<'a>, Answer> {
        if image.len() > MOST_BYTES {
            return Err(Answer::without_place(9));
        }
        if !image.starts_with(HEAD) {
            return Err(Answer::without_place(1));
        }
        Ok(Tape { image, at: HEAD.len(), item: 0, reels: 0, ended: false })
    }

    /// The number of the next item.
    pub fn item(&self) -> u32 {
        self.item
    }

    /// The place in the image behind the item handed out last.
    pub fn at(&self) -> usize {
        self.at
    }

    /// The next item; none at a proper end of the image, 2 where the item is bad, cut or missing.
    #[inline]
    pub fn next_item(&mut self) -> Result<Option<Item<'a>>, Answer> {
        let rest = &self.image[self.at..];
        if rest.is_empty() && self.ended {
            return Ok(None);
        }
        if self.reels == MOST_REELS {
            return Err(self.torn());
        }
        let item = item_in(rest).ok_or_else(|| self.torn())?;
        self.ended = item == Item::EndOfReel;
        self.at += item.len();
        self.reels += u32::from(self.ended);
        self.item += 1;
        Ok(Some(item))
    }

    /// Number 2 of what is left of the image, or `otherwise`.
    pub fn torn_or(mut self, otherwise: Answer) -> Answer {
        loop {
            match self.next_item() {
                Ok(Some(_)) => {}
                Ok(None) => return otherwise,
                Err(answer) => return answer,
            }
        }
    }

    fn torn(&self) -> Answer {
        Answer::new(2, self.item, 0)
    }
}

/// The verdict on the container alone: 9, 1, 2 or 0.
pub fn framing(image: &[u8]) -> Answer {
    match Tape::open(image) {
        Ok(tape) => tape.torn_or(Answer::DONE),
        Err(answer) => answer,
    }
}
