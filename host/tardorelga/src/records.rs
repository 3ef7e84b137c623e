//! The records of a set, by number and by walk.

use crate::numbers::DONE;
use crate::{ffi, Verdict};
use std::borrow::Cow;
use std::iter::FusedIterator;
use std::sync::OnceLock;
use std::{fmt, mem};

/// Where a record is: a record of one unit is a part of the image, one of several segments was joined
/// into the front of the lent buffer.
#[derive(Clone, Copy, Debug, PartialEq, Eq)]
pub enum Place {
    /// A part of the image.
    InImage {
        /// The place of its first byte in the image.
        start: usize,
        /// How many bytes it has.
        len: usize,
    },
    /// The front of the lent buffer.
    Joined {
        /// How many bytes it has.
        len: usize,
    },
}

impl Place {
    #[inline]
    fn new(joined: u32, start: u64, len: u64) -> Place {
        let (start, len) = (start as usize, len as usize);
        match joined {
            0 => Place::InImage { start, len },
            _ => Place::Joined { len },
        }
    }

    /// The record: a part of the image, or of the buffer that was lent for joining.
    ///
    /// # Panics
    ///
    /// Where these are shorter than those in which the record was found.
    #[inline]
    pub fn of<'a>(self, image: &'a [u8], join: &'a [u8]) -> &'a [u8] {
        match self {
            Place::InImage { start, len } => &image[start..start + len],
            Place::Joined { len } => &join[..len],
        }
    }
}

/// Record number `record` of file number `file`, both from 1, or the image's own number, then 13,
/// then 10. Only a record of several segments needs the joining buffer, and only its own bytes there
/// are changed.
///
/// ```
/// let image = include_bytes!("../doc/ledger.tgi");
/// let record = tardorelga::record(image, 1, 1, &mut []);
/// assert_eq!(record, Ok(&b"0123456789"[..]));
/// let behind = tardorelga::record(image, 1, 2, &mut []);
/// assert_eq!(behind.unwrap_err().number, 13);
/// ```
pub fn record<'a>(
    image: &'a [u8],
    file: u64,
    record: u64,
    join: &'a mut [u8],
) -> Result<&'a [u8], Verdict> {
    let place = place(image, file, record, join)?;
    Ok(place.of(image, join))
}

/// As [`record`], but says where the record is.
///
/// ```
/// use tardorelga::Place;
/// let image = include_bytes!("../doc/ledger.tgi");
/// let place = tardorelga::place(image, 1, 1, &mut []);
/// assert_eq!(place, Ok(Place::InImage { start: 260, len: 10 }));
/// ```
pub fn place(image: &[u8], file: u64, record: u64, join: &mut [u8]) -> Result<Place, Verdict> {
    // SAFETY: the image is lent to read and the buffer to write for the whole call; they can't
    // overlap, and nothing of them is kept.
    let ffi::Found { verdict, joined, start, len } = unsafe {
        let (image, image_len) = (image.as_ptr(), image.len());
        ffi::tardorelga_record(image, image_len, file, record, join.as_mut_ptr(), join.len())
    };
    verdict.then(|| Place::new(joined, start, len))
}

/// A walk over the records of one file, by value. The numbers may be anything: a step from a state
/// that no walk over the image reaches gives 13, or the whole record that stands there by the state's
/// own numbers.
///
/// ```
/// let image = include_bytes!("../doc/ledger.tgi");
/// let walk = tardorelga::begin(image, 1).unwrap();
/// let (place, walk) = walk.step(image, &mut []).unwrap();
/// assert_eq!(place.of(image, &[]), b"0123456789");
/// assert_eq!(walk.step(image, &mut []), Err(13));
/// ```
#[repr(C)]
#[derive(Clone, Copy, Debug, Default, PartialEq, Eq, Hash)]
pub struct Walk {
    /// The code of `F`, `D` or `S`; a walk of another format stands nowhere.
    pub format: u32,
    /// The record length R of the file's HDR2.
    pub size: u32,
    /// Bytes to skip at the head of each block.
    pub offset: u64,
    /// The place in the image of what is left of the current block.
    pub at: u64,
    /// How many bytes of it are left.
    pub left: u64,
}

/// The walk before the first record of file number `file`, from 1, or the image's own number, then 13.
pub fn begin(image: &[u8], file: u64) -> Result<Walk, Verdict> {
    let begun = begun(image, file);
    begun.verdict.then(|| begun.walk)
}

/// The walk with the places of the file's labels.
pub(crate) fn begun(image: &[u8], file: u64) -> ffi::Begun {
    // SAFETY: the image is lent to read for the whole call, and nothing of it is kept.
    unsafe { ffi::tardorelga_begin(image.as_ptr(), image.len(), file) }
}

/// How many records there are, and how many bytes in all of them.
#[derive(Clone, Copy, Debug, PartialEq, Eq, Hash)]
pub struct Facts {
    /// How many records there are.
    pub records: u64,
    /// The bytes of all of them.
    pub bytes: u64,
}

impl Walk {
    /// The next record, joined into the buffer where it has several segments, and the walk moved on;
    /// 13 where there is none, and 10 where the buffer is too short.
    #[inline]
    pub fn step(self, image: &[u8], join: &mut [u8]) -> Result<(Place, Walk), u32> {
        // SAFETY: the image is lent to read and the buffer to write for the whole call; they can't
        // overlap, and nothing of them is kept.
        let ffi::Stepped { number, joined, start, len, walk } = unsafe {
            let (image, image_len) = (image.as_ptr(), image.len());
            ffi::tardorelga_step(image, image_len, self, join.as_mut_ptr(), join.len())
        };
        match number {
            0 => Ok((Place::new(joined, start, len), walk)),
            _ => Err(number),
        }
    }

    /// As many steps at once as both lists have room for, as long as each gives a part of the image: where
    /// it starts and how long it is, and how many steps these were, with the walk behind them. A record
    /// that must be joined is left to [`step`](Walk::step).
    ///
    /// ```
    /// let image = include_bytes!("../doc/ledger.tgi");
    /// let walk = tardorelga::begin(image, 1).unwrap();
    /// let (mut starts, mut lens) = ([0; 8], [0; 8]);
    /// let (count, walk) = walk.steps(image, &mut starts, &mut lens);
    /// assert_eq!((count, starts[0], lens[0]), (1, 260, 10));
    /// assert_eq!(walk.step(image, &mut []), Err(13));
    /// ```
    #[inline]
    pub fn steps(self, image: &[u8], starts: &mut [u64], lens: &mut [u64]) -> (usize, Walk) {
        // SAFETY: the image is lent to read and the lists to write for the whole call; they can't overlap,
        // and nothing of them is kept.
        let ffi::Row { count, walk } = unsafe {
            let (image, image_len) = (image.as_ptr(), image.len());
            let (at, len) = (starts.as_mut_ptr(), starts.len());
            ffi::tardorelga_steps(image, image_len, self, at, len, lens.as_mut_ptr(), lens.len())
        };
        (count as usize, walk)
    }

    /// The number of records from here on, and of their bytes: those that steps would hand out before 13.
    ///
    /// ```
    /// let image = include_bytes!("../doc/ledger.tgi");
    /// let walk = tardorelga::begin(image, 1).unwrap();
    /// let facts = walk.count(image);
    /// assert_eq!((facts.records, facts.bytes), (1, 10));
    /// ```
    pub fn count(self, image: &[u8]) -> Facts {
        // SAFETY: the image is lent to read for the whole call, and nothing of it is kept.
        let counted = unsafe { ffi::tardorelga_count(image.as_ptr(), image.len(), self) };
        Facts { records: counted.records, bytes: counted.bytes }
    }
}

/// The records of a file, in order; one of several segments comes as a copy.
///
/// ```
/// let image = include_bytes!("../doc/ledger.tgi");
/// let records = tardorelga::records(image, 1).unwrap();
/// assert_eq!(records.len(), 1);
/// assert_eq!(records.collect::<Vec<_>>(), [&b"0123456789"[..]]);
/// ```
#[derive(Clone)]
pub struct Records<'a> {
    image: &'a [u8],
    /// Records that one call of the library found, up to the walk.
    row: Row,
    walk: Walk,
    /// How many records the walk has before it; counted when someone asks.
    left: OnceLock<u64>,
    /// Whether the last record was joined, as the next one then most often is.
    joining: bool,
    /// Room for the next record that must be joined.
    join: Vec<u8>,
    /// As much room again behind that of the first joined record, and never used. A record's room that is
    /// given back before it stays by itself, and the next record gets it as it is; else the allocator would
    /// make one with what is free behind it, and cut it off again.
    fence: Vec<u8>,
}

/// How many records a call of the library finds at most.
const ROW: usize = 64;

/// Records that stand whole in the image, by their places and lengths; those before `next` were handed out.
#[derive(Clone)]
struct Row {
    starts: [u64; ROW],
    lens: [u64; ROW],
    next: usize,
    end: usize,
}

impl Row {
    #[inline]
    fn next<'a>(&mut self, image: &'a [u8]) -> Option<Cow<'a, [u8]>> {
        if self.next == self.end {
            return None;
        }
        let (start, len) = (self.starts[self.next] as usize, self.lens[self.next] as usize);
        self.next += 1;
        Some(Cow::Borrowed(&image[start..start + len]))
    }
}

/// The records of file number `file`, from 1, or the image's own number, then 13.
///
/// ```
/// let none = tardorelga::records(include_bytes!("../doc/ledger.tgi"), 2);
/// assert_eq!(none.unwrap_err().number, 13);
/// ```
pub fn records(image: &[u8], file: u64) -> Result<Records<'_>, Verdict> {
    Ok(Records::new(image, begin(image, file)?, OnceLock::new()))
}

impl<'a> Records<'a> {
    /// The records of a walk that has so many before it.
    pub(crate) fn new(image: &'a [u8], walk: Walk, left: OnceLock<u64>) -> Records<'a> {
        let row = Row { starts: [0; ROW], lens: [0; ROW], next: 0, end: 0 };
        Records { image, row, walk, left, joining: false, join: Vec::new(), fence: Vec::new() }
    }

    /// The next record where the row has none and the last was not joined: the first of a new row, or one
    /// that is joined.
    #[inline(never)]
    fn further(&mut self) -> Option<Cow<'a, [u8]>> {
        self.fill();
        self.row.next(self.image).or_else(|| self.step())
    }

    /// A new row.
    fn fill(&mut self) {
        let (count, walk) = self.walk.steps(self.image, &mut self.row.starts, &mut self.row.lens);
        (self.row.next, self.row.end) = (0, count);
        self.pass(count as u64, walk);
    }

    /// A single record, joined where it has several segments.
    #[inline]
    fn step(&mut self) -> Option<Cow<'a, [u8]>> {
        let mut join = match self.join.capacity() {
            0 => Vec::with_capacity(self.walk.size as usize),
            _ => mem::take(&mut self.join),
        };
        // SAFETY: the image is lent to read and the buffer to write for the whole call; they can't
        // overlap, and nothing of them is kept. No byte of the buffer is read.
        let step = unsafe {
            let (image, image_len) = (self.image.as_ptr(), self.image.len());
            ffi::tardorelga_step(image, image_len, self.walk, join.as_mut_ptr(), join.capacity())
        };
        if step.number != DONE {
            self.join = join;
            return None;
        }
        self.pass(1, step.walk);
        self.joining = step.joined != 0;
        if !self.joining {
            self.join = join;
            return Some(Cow::Borrowed(&self.image[step.start as usize..][..step.len as usize]));
        }
        // SAFETY: the record's bytes were joined in the front of the buffer.
        unsafe { join.set_len(step.len as usize) };
        if self.fence.capacity() == 0 {
            self.set_fence();
        }
        join.shrink_to_fit();
        Some(Cow::Owned(join))
    }

    /// Asks for the fence, while the first joined record has its room.
    #[cold]
    fn set_fence(&mut self) {
        self.fence = Vec::with_capacity(self.walk.size as usize);
    }

    /// Moves the walk on over so many records. Its other numbers are the file's, and stay.
    fn pass(&mut self, records: u64, walk: Walk) {
        (self.walk.at, self.walk.left) = (walk.at, walk.left);
        if let Some(left) = self.left.get_mut() {
            *left -= records;
        }
    }
}

impl<'a> Iterator for Records<'a> {
    type Item = Cow<'a, [u8]>;

    #[inline]
    fn next(&mut self) -> Option<Cow<'a, [u8]>> {
        match self.row.next(self.image) {
            None if self.joining => self.step(),
            None => self.further(),
            record => record,
        }
    }

    fn size_hint(&self) -> (usize, Option<usize>) {
        let left = *self.left.get_or_init(|| self.walk.count(self.image).records);
        let left = left as usize + self.row.end - self.row.next;
        (left, Some(left))
    }
}

impl ExactSizeIterator for Records<'_> {}
impl FusedIterator for Records<'_> {}

/// Without the image, which may be long.
impl fmt::Debug for Records<'_> {
    fn fmt(&self, f: &mut fmt::Formatter) -> fmt::Result {
        f.debug_struct("Records").field("walk", &self.walk).field("left", &self.len()).finish()
    }
}
