//! The reels of a set in SIMH's form, a file each, and the image that the library makes of them.

use crate::stop::Stop;
use crate::{halves, input, room};
use std::ffi::{OsStr, OsString};
use tardorelga::numbers::{TORN_ITEM, TORN_TAPE};
use tardorelga::{Verdict, LONGEST_IMAGE};

/// Far more than a set has, since where reels are at fault only all of their bytes tell; but no more, so
/// that an endless input ends.
const MOST: u64 = 1 << 28;

/// What a set of reels is called in a message: by its first.
pub fn name(files: &[OsString]) -> String {
    input::name(&files[0]) + &more(files)
}

/// How many reels there are beside the first.
pub fn more(files: &[OsString]) -> String {
    match files.len() - 1 {
        0 => String::new(),
        more => format!(" and {more} more"),
    }
}

/// The image of the set on these reels.
pub fn image(files: &[OsString]) -> Result<Vec<u8>, Stop> {
    let reels = Reels::read(files)?;
    let Reels { tape, lengths, .. } = &reels;
    room::filled(LONGEST_IMAGE, |room| tardorelga::from_simh(tape, lengths, room))
        .map_err(|verdict| reels.refused(verdict))
}

struct Reels<'a> {
    files: &'a [OsString],
    /// The bytes of all reels, end to end.
    tape: Vec<u8>,
    lengths: Vec<u64>,
}

impl Reels<'_> {
    fn read(files: &[OsString]) -> Result<Reels<'_>, Stop> {
        if files.iter().filter(|file| *file == "-").count() > 1 {
            return Err(Stop::words("standard input is one reel, and - is named twice"));
        }
        let mut reels = Reels { files, tape: Vec::new(), lengths: Vec::new() };
        files.iter().try_for_each(|file| reels.append(file))?;
        Ok(reels)
    }

    fn append(&mut self, file: &OsStr) -> Result<(), Stop> {
        let left = MOST - self.tape.len() as u64;
        let length = input::append(file, left + 1, &mut self.tape)
            .map_err(|error| Stop::trouble(input::name(file), error))? as u64;
        if length > left {
            let name = input::name(file);
            return Err(Stop::Trouble(format!(
                "{name}: the reels up to here have more than {MOST} bytes, and no set has so many"
            )));
        }
        self.lengths.push(length);
        Ok(())
    }

    fn refused(&self, verdict: Verdict) -> Stop {
        let name = name(self.files);
        match verdict.number {
            TORN_TAPE => Stop::refused(input::name(self.torn()), verdict),
            // Given here for more reels than a set has.
            TORN_ITEM => {
                Stop::Refused(verdict, format!("{name}: {verdict}: a set has 1 to 16 reels"))
            }
            _ => Stop::refused(name, verdict),
        }
    }

    /// The first reel that is torn: a set is torn exactly if one of its reels is.
    fn torn(&self) -> &OsStr {
        let count = halves::least(1, self.files.len(), |count| self.is_torn_within(count));
        &self.files[count - 1]
    }

    /// What the library says of the first so many reels alone.
    fn is_torn_within(&self, count: usize) -> bool {
        let lengths = &self.lengths[..count];
        let tape = &self.tape[..lengths.iter().sum::<u64>() as usize];
        let answer = tardorelga::from_simh(tape, lengths, &mut []);
        matches!(answer, Err(verdict) if verdict.number == TORN_TAPE)
    }
}
