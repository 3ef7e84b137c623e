//! The archive's answers in the oracle's words. Every number of an answer is looked at, those too that
//! the safe library has no use for.

use oracle::{Answer, Begun, Found, Sheet, Tapes, Walk, Written};
use tardorelga::{ffi, Verdict};

pub fn check(image: &[u8]) -> Answer {
    answer(tardorelga::check(image))
}

fn answer(Verdict { number, item, byte }: Verdict) -> Answer {
    Answer::new(number, item, byte)
}

/// Place and length; without meaning, and 0, where there is no record.
fn found(done: bool, joined: u32, start: u64, len: u64) -> Option<Found> {
    match (done, joined) {
        (true, 0) => Some(Found::InImage { start: start as usize, len: len as usize }),
        (true, 1) => {
            assert_eq!(start, 0, "the front of the buffer");
            Some(Found::Joined { len: len as usize })
        }
        (false, 0) => {
            assert_eq!((start, len), (0, 0), "a refusal has an empty part");
            None
        }
        _ => panic!("done {done}, joined {joined}"),
    }
}

pub fn record(image: &[u8], file: u64, record: u64, join: &mut [u8]) -> Found {
    let (at, len) = (image.as_ptr(), image.len());
    // SAFETY: slices, lent for the call.
    let given =
        unsafe { ffi::tardorelga_record(at, len, file, record, join.as_mut_ptr(), join.len()) };
    let answer = answer(given.verdict);
    found(answer.is_done(), given.joined, given.start, given.len).unwrap_or(Found::Refused(answer))
}

pub fn begin(image: &[u8], file: u64) -> Result<Begun, Answer> {
    // SAFETY: a slice, lent for the call.
    let begun = unsafe { ffi::tardorelga_begin(image.as_ptr(), image.len(), file) };
    let ffi::Begun { verdict, first, second, walk } = begun;
    let begun = Begun { first: first as usize, second: second as usize, walk: in_oracle(walk) };
    let answer = answer(verdict);
    if answer.is_done() {
        return Ok(begun);
    }
    let nowhere = Begun { first: 0, second: 0, walk: Walk::default() };
    assert_eq!(begun, nowhere, "with a refusal all is 0");
    Err(answer)
}

/// The number of records from a walk on, and of their bytes.
pub fn count(walk: Walk, image: &[u8]) -> (u64, u64) {
    // SAFETY: a slice, lent for the call.
    let facts = unsafe { ffi::tardorelga_count(image.as_ptr(), image.len(), in_archive(walk)) };
    (facts.records, facts.bytes)
}

pub fn step(from: Walk, image: &[u8], join: &mut [u8]) -> Result<(Found, Walk), u32> {
    let (at, len) = (image.as_ptr(), image.len());
    // SAFETY: slices, lent for the call.
    let stepped =
        unsafe { ffi::tardorelga_step(at, len, in_archive(from), join.as_mut_ptr(), join.len()) };
    let walk = in_oracle(stepped.walk);
    match found(stepped.number == 0, stepped.joined, stepped.start, stepped.len) {
        Some(found) => Ok((found, walk)),
        None => {
            assert_eq!(walk, from, "with 10 or 13 the walk isn't moved");
            Err(stepped.number)
        }
    }
}

/// Steps at once, into two lists: how many, and the walk behind them.
pub fn steps(from: Walk, image: &[u8], starts: &mut [u64], lens: &mut [u64]) -> (usize, Walk) {
    let (count, walk) = in_archive(from).steps(image, starts, lens);
    (count, in_oracle(walk))
}

fn in_oracle(tardorelga::Walk { format, size, offset, at, left }: tardorelga::Walk) -> Walk {
    Walk { format, size, offset, at, left }
}

fn in_archive(Walk { format, size, offset, at, left }: Walk) -> tardorelga::Walk {
    tardorelga::Walk { format, size, offset, at, left }
}

/// As the safe library, but the length that comes with a refusal is looked at.
pub fn write(sheet: &Sheet, out: &mut [u8]) -> Written {
    let Sheet { set, files, counts, lengths, data, quota, names } = *sheet;
    // SAFETY: slices, lent for the call.
    let written = unsafe {
        ffi::tardorelga_write(
            set.as_ptr(),
            set.len(),
            files.as_ptr(),
            files.len(),
            counts.as_ptr(),
            counts.len(),
            lengths.as_ptr(),
            lengths.len(),
            data.as_ptr(),
            data.len(),
            quota,
            names.as_ptr(),
            names.len(),
            out.as_mut_ptr(),
            out.len(),
        )
    };
    in_words(written)
}

fn in_words(ffi::Written { verdict, len }: ffi::Written) -> Written {
    Written { answer: answer(verdict), len: len as usize }
}

pub fn listing(image: &[u8], out: &mut [u8]) -> Written {
    // SAFETY: slices, lent for the call.
    in_words(unsafe {
        ffi::tardorelga_listing(image.as_ptr(), image.len(), out.as_mut_ptr(), out.len())
    })
}

pub fn rewrite(image: &[u8], quota: u64, names: &[u8], out: &mut [u8]) -> Written {
    // SAFETY: slices, lent for the call.
    in_words(unsafe {
        ffi::tardorelga_rewrite(
            image.as_ptr(),
            image.len(),
            quota,
            names.as_ptr(),
            names.len(),
            out.as_mut_ptr(),
            out.len(),
        )
    })
}

pub fn from_simh(tape: &[u8], lengths: &[u64], out: &mut [u8]) -> Written {
    // SAFETY: slices, lent for the call.
    in_words(unsafe {
        ffi::tardorelga_from_simh(
            tape.as_ptr(),
            tape.len(),
            lengths.as_ptr(),
            lengths.len(),
            out.as_mut_ptr(),
            out.len(),
        )
    })
}

pub fn to_simh(image: &[u8], out: &mut [u8], lengths: &mut [u64]) -> Tapes {
    // SAFETY: slices, lent for the call.
    let ffi::Tapes { verdict, len, files } = unsafe {
        ffi::tardorelga_to_simh(
            image.as_ptr(),
            image.len(),
            out.as_mut_ptr(),
            out.len(),
            lengths.as_mut_ptr(),
            lengths.len(),
        )
    };
    Tapes { answer: answer(verdict), len: len as usize, files: files as usize }
}
