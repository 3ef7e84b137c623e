//! `rewrite FILE --quota Q --reels A,B,.. -o OUT`: the normal form of a set.

use crate::input::Set;
use crate::needed::{self, RAISE};
use crate::output::Output;
use crate::room;
use crate::stop::{Status, Stop};
use crate::words::{quota, reel_names, Words};
use tardorelga::numbers::{FEW_REELS, LONG_IMAGE};
use tardorelga::{Verdict, LONGEST_IMAGE, NAME};

pub fn run(words: &Words) -> Result<Status, Stop> {
    let (files, []) = words.set_and([])?;
    let quota = quota(words.needed("--quota")?)?;
    let names = reel_names(words.needed("--reels")?)?;
    let out = Output::of(words, files)?;
    let set = Set::read(words, files)?;
    let normal =
        room::filled(LONGEST_IMAGE, |room| tardorelga::rewrite(&set.image, quota, &names, room));
    let normal = normal.map_err(|verdict| refused(&set, quota, names.len() / NAME, verdict))?;
    drop(set);
    out.write(&normal)
}

/// A refusal, with what the operator can do where another quota or more names help.
fn refused(set: &Set, quota: u64, named: usize, verdict: Verdict) -> Stop {
    let write = |quota, names: &[u8]| tardorelga::rewrite(&set.image, quota, names, &mut []);
    match verdict.number {
        FEW_REELS => {
            let needed = needed::in_words(quota, named, write);
            set.refused_for(verdict, &format!("--reels names {named}, and {needed}"))
        }
        LONG_IMAGE if needed::fits_on_few_reels(write) => set.refused_for(verdict, RAISE),
        _ => set.refused(verdict),
    }
}
