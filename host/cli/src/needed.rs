//! How many reels a writing needs, and whether a higher quota helps, by asking the library.

use crate::halves;
use tardorelga::numbers::{FEW_REELS, LONG_IMAGE};
use tardorelga::{Verdict, HIGHEST_QUOTA, MOST_REELS};

/// How many reels are needed where so many are too few, in words. `write` asks the library for the writing
/// with a quota and reel names.
pub fn in_words(
    quota: u64,
    few: usize,
    write: impl Fn(u64, &[u8]) -> Result<usize, Verdict>,
) -> String {
    let suffice = |quota, count| !is_refused(write(quota, &names(count)), FEW_REELS);
    if suffice(quota, MOST_REELS) {
        let count = halves::least(few + 1, MOST_REELS, |count| suffice(quota, count));
        return format!("{count} are needed with quota {quota}");
    }
    match suffice(HIGHEST_QUOTA, MOST_REELS) {
        true => format!("not even {MOST_REELS} suffice with quota {quota}; raise the quota"),
        false => format!("not even {MOST_REELS} suffice, whatever the quota; make blocks longer"),
    }
}

/// Whether a writing that is too long is short enough on as few reels as can be, which have fewer labels.
pub fn fits_on_few_reels(write: impl Fn(u64, &[u8]) -> Result<usize, Verdict>) -> bool {
    !is_refused(write(HIGHEST_QUOTA, &names(MOST_REELS)), LONG_IMAGE)
}

/// What to do then.
pub const RAISE: &str = "raise the quota, since fewer reels have fewer labels";

fn is_refused(answer: Result<usize, Verdict>, number: u32) -> bool {
    answer.is_err_and(|verdict| verdict.number == number)
}

/// So many names of reels, each another one.
fn names(count: usize) -> Vec<u8> {
    (1..=count).flat_map(|number| format!("REEL{number:02}").into_bytes()).collect()
}
