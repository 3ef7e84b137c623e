//! Knows the records of one file of an accepted set, one after the other, without a look back; judges
//! nothing and copies only what must be joined.

use crate::block::{all_pad, Shape, PAD};
use crate::content::{Part, Parts};
use crate::tape::{Item, Tape};
use crate::{number_of, Answer};

/// The records of a file. A record that is one unit is lent from the image, another from a buffer that
/// is used again for the next.
pub struct Records<'a> {
    tape: Tape<'a>,
    shape: Shape,
    /// What is left of the current block.
    rest: &'a [u8],
    joined: Vec<u8>,
}

impl<'a> Records<'a> {
    /// The records of file number `file`, from 1: the image's own number, then 13.
    pub fn of(image: &'a [u8], file: u64) -> Result<Records<'a>, Answer> {
        let mut parts = Parts::of(image)?;
        let mut files = 0;
        while let Some(part) = parts.next() {
            let Part::File(head) = part else { continue };
            files += 1;
            if files == file {
                let mut tape = parts.tape();
                pass_mark(&mut tape)?;
                let (shape, joined) = (Shape::of(head.second), Vec::new());
                return Ok(Records { tape, shape, rest: &[], joined });
            }
        }
        Err(Answer::without_place(13))
    }

    /// The next record; none behind the last.
    #[inline]
    pub fn next_record(&mut self) -> Option<&[u8]> {
        let (indicator, unit) = match self.unit() {
            Some(unit) => unit,
            None => {
                self.next_block()?;
                self.unit()?
            }
        };
        match indicator {
            0 => Some(unit),
            _ => self.join(unit),
        }
    }

    fn join(&mut self, first: &'a [u8]) -> Option<&[u8]> {
        self.joined.clear();
        self.joined.extend_from_slice(first);
        loop {
            self.next_block()?;
            let (indicator, segment) = self.unit()?;
            self.joined.extend_from_slice(segment);
            if indicator == 3 {
                return Some(&self.joined);
            }
        }
    }

    /// The next unit of the current block, with its indicator; none where only padding is left.
    #[inline]
    fn unit(&mut self) -> Option<(u8, &'a [u8])> {
        let (indicator, word, length) = match self.shape.format {
            b'F' => {
                let (record, rest) = self.rest.split_at_checked(self.shape.record)?;
                if all_pad(record) {
                    return None;
                }
                self.rest = rest;
                return Some((0, record));
            }
            _ if self.rest.first().is_none_or(|&byte| byte == PAD) => return None,
            b'D' => (0, 4, number_of(&self.rest[..4])?),
            _ => (self.rest[0] - b'0', 5, number_of(&self.rest[1..5])?),
        };
        let (unit, rest) = self.rest.split_at(length as usize);
        self.rest = rest;
        Some((indicator, &unit[word..]))
    }

    /// Goes on to the file's next block, on the next reel if need be.
    fn next_block(&mut self) -> Option<()> {
        loop {
            match self.tape.next_item().ok()?? {
                Item::Block(block) => {
                    self.rest = &block[self.shape.offset..];
                    return Some(());
                }
                _ => self.next_section()?,
            }
        }
    }

    /// Behind the mark that ends the data: over EOV's labels and two marks, and the next reel's labels and
    /// one mark; none at EOF.
    fn next_section(&mut self) -> Option<()> {
        match self.tape.next_item().ok()?? {
            Item::Block(trailer) if trailer.starts_with(b"EOV") => {}
            _ => return None,
        }
        for _ in 0..3 {
            pass_mark(&mut self.tape).ok()?;
        }
        Some(())
    }
}

/// Goes on behind the next mark.
fn pass_mark(tape: &mut Tape) -> Result<(), Answer> {
    while let Some(item) = tape.next_item()? {
        if item == Item::TapeMark {
            break;
        }
    }
    Ok(())
}
