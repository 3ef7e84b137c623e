//! Knows the SIMH magtape form (P1 of document 02): tape files into an image, and an image into tape files;
//! knows no label.

use crate::tape::{item_in, Item, Tape, END_OF_REEL, HEAD, MOST_BYTES, MOST_REELS, TAPE_MARK};
use crate::{Answer, Written};

/// The words that lead a tape mark and the end of the medium; a block is led by its length.
const MARK: u32 = 0;
const END: u32 = u32::MAX;
const MOST_BLOCK: u32 = crate::tape::MOST_BLOCK as u32;
const WORD: usize = 4;

/// The answer, and where it is "done" the bytes of all tape files and their number.
#[derive(Clone, Copy, Debug, PartialEq, Eq)]
pub struct Tapes {
    pub answer: Answer,
    pub len: usize,
    pub files: usize,
}

/// Writes the image of tape files, which stand end to end and have these lengths, or gives 15, 2, 14 or 10.
pub fn from_simh(tape: &[u8], lengths: &[u64], out: &mut [u8]) -> Written {
    let answer = match image_length(tape, lengths) {
        Ok(len) if len > MOST_BYTES => Answer::without_place(14),
        Ok(len) if len > out.len() => Answer::without_place(10),
        Ok(len) => {
            put_image(tape, out);
            return Written { answer: Answer::DONE, len };
        }
        Err(answer) => answer,
    };
    Written { answer, len: 0 }
}

/// The length of the image of these tape files, or 15, which is looked for in all of them, then 2.
fn image_length(tape: &[u8], lengths: &[u64]) -> Result<usize, Answer> {
    if !add_up(lengths, tape.len() as u64) {
        return Err(Answer::without_place(15));
    }
    let mut read = Read { items: 0, len: HEAD.len() };
    let mut rest = tape;
    for &length in lengths {
        let (file, others) = rest.split_at(length as usize);
        read.file(file)?;
        rest = others;
    }
    match (1..=MOST_REELS as usize).contains(&lengths.len()) {
        true => Ok(read.len),
        false => Err(Answer::without_place(2)),
    }
}

/// Whether the sum is this, be it greater than any number has room for.
fn add_up(lengths: &[u64], sum: u64) -> bool {
    lengths.iter().try_fold(sum, |left, &length| left.checked_sub(length)) == Some(0)
}

/// How many items of tape files were read, and how long the image of them is.
struct Read {
    items: u32,
    len: usize,
}

impl Read {
    /// Reads one file, which ends right behind the end of the medium; 15 at the first item that is wrong.
    fn file(&mut self, file: &[u8]) -> Result<(), Answer> {
        let mut rest = file;
        loop {
            let (item, behind) = first_item(rest).ok_or_else(|| self.torn())?;
            self.items += 1;
            self.len += item.len();
            rest = behind;
            if item == Item::EndOfReel {
                break;
            }
        }
        match rest.is_empty() {
            true => Ok(()),
            false => Err(self.torn()),
        }
    }

    fn torn(&self) -> Answer {
        Answer::new(15, self.items, 0)
    }
}

/// The item at the head of these bytes, and the bytes behind it; none where it is wrong or cut short.
#[inline]
fn first_item(bytes: &[u8]) -> Option<(Item<'_>, &[u8])> {
    let (word, rest) = bytes.split_first_chunk::<WORD>()?;
    match u32::from_le_bytes(*word) {
        MARK => Some((Item::TapeMark, rest)),
        END => Some((Item::EndOfReel, rest)),
        length @ 1..=MOST_BLOCK => {
            let length = length as usize;
            let (padded, rest) = rest.split_at_checked(length + length % 2)?;
            let (trailing, rest) = rest.split_first_chunk::<WORD>()?;
            let (block, pad) = padded.split_at(length);
            (trailing == word && matches!(pad, [] | [0])).then_some((Item::Block(block), rest))
        }
        _ => None,
    }
}

/// Writes the image of whole tape files. Each ends with an item of its own, so their lengths say no more.
fn put_image(tape: &[u8], out: &mut [u8]) {
    let mut laid = Laid { out, at: 0 };
    laid.put(HEAD);
    let mut rest = tape;
    while let Some((word, behind)) = rest.split_first_chunk::<WORD>() {
        rest = behind;
        match u32::from_le_bytes(*word) {
            MARK => laid.put(&TAPE_MARK),
            END => laid.put(&END_OF_REEL),
            length => {
                laid.put(&length.to_be_bytes()[1..]);
                let length = length as usize;
                laid.put(&rest[..length]);
                rest = &rest[length + length % 2 + WORD..];
            }
        }
    }
}

/// A buffer that was measured to be long enough.
struct Laid<'a> {
    out: &'a mut [u8],
    at: usize,
}

impl Laid<'_> {
    #[inline]
    fn put(&mut self, bytes: &[u8]) {
        self.out[self.at..self.at + bytes.len()].copy_from_slice(bytes);
        self.at += bytes.len();
    }
}

/// Writes the tape files of an image end to end, one a reel, and their lengths, or gives 9, 1, 2 or 10.
pub fn to_simh(image: &[u8], out: &mut [u8], lengths: &mut [u64]) -> Tapes {
    let answer = match tapes_length(image) {
        Ok((len, files)) if len > out.len() || files > lengths.len() => Answer::without_place(10),
        Ok((len, files)) => {
            put_tapes(image, out, lengths);
            return Tapes { answer: Answer::DONE, len, files };
        }
        Err(answer) => answer,
    };
    Tapes { answer, len: 0, files: 0 }
}

/// The bytes of all tape files of an image and their number, or 9, 1 or 2.
fn tapes_length(image: &[u8]) -> Result<(usize, usize), Answer> {
    let mut tape = Tape::open(image)?;
    let (mut len, mut files) = (0, 0);
    while let Some(item) = tape.next_item()? {
        len += match item {
            Item::Block(block) => 2 * WORD + block.len() + block.len() % 2,
            _ => WORD,
        };
        files += usize::from(item == Item::EndOfReel);
    }
    Ok((len, files))
}

/// Writes the tape files of an image whose items are good, and their lengths.
fn put_tapes(image: &[u8], out: &mut [u8], lengths: &mut [u64]) {
    let mut laid = Laid { out, at: 0 };
    let mut rest = &image[HEAD.len()..];
    let (mut begun, mut lengths) = (0, lengths.iter_mut());
    while let Some(item) = item_in(rest) {
        rest = &rest[item.len()..];
        match item {
            Item::TapeMark => laid.put(&MARK.to_le_bytes()),
            Item::Block(block) => laid.block(block),
            Item::EndOfReel => {
                laid.put(&END.to_le_bytes());
                *lengths.next().expect("a length for each reel") = (laid.at - begun) as u64;
                begun = laid.at;
            }
        }
    }
}

impl Laid<'_> {
    #[inline]
    fn block(&mut self, block: &[u8]) {
        let length = (block.len() as u32).to_le_bytes();
        self.put(&length);
        self.put(block);
        if block.len() % 2 == 1 {
            self.put(&[0]);
        }
        self.put(&length);
    }
}
