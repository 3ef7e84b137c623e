//! A program that is ended between any two calls leaves what was there, or the whole output, and the next run
//! succeeds.

use crate::case::*;
use crate::common::{names_in, shell};
use crate::trace::Ended;
use std::os::unix::process::ExitStatusExt;
use std::path::Path;

const HANGUP: i32 = 1;
const INTERRUPT: i32 = 2;
const KILL: i32 = 9;
const TERMINATE: i32 = 15;

impl Case {
    /// Runs it to each stop in turn and ends it there by a signal, until it is done before.
    fn ended_from(&self, first: usize, signal: i32, look: impl Fn(&Ended, &Tree)) {
        for stops in first.. {
            let before = self.fresh();
            match self.at(stops, &mut self.command()) {
                Ok(traced) => look(&traced.end_by(signal), &before),
                Err(ended) => {
                    assert_eq!((ended.status.code(), &ended.err[..]), (Some(0), ""));
                    assert!(stops > first + 40, "{stops} stops");
                    return;
                }
            }
        }
    }

    /// After a KILL the old or the whole is there, and the next run is done. What the killed one left stays:
    /// it is not the next one's to remove.
    fn survives_a_kill_from(&self, first: usize) {
        self.fresh();
        let whole = self.done();
        self.ended_from(first, KILL, |ended, before| {
            assert_eq!(ended.status.signal(), Some(KILL));
            let (after, left) = (tree(&self.folder), temporaries(&self.folder));
            assert!(after == *before || after == whole, "{:?}", names_in(&self.folder));
            if after == *before {
                assert_eq!(self.done(), whole);
                assert_eq!(temporaries(&self.folder), left);
            }
        });
    }

    fn survives_a_kill(&self) {
        self.survives_a_kill_from(self.begin());
    }

    /// After another signal nothing is left beside it either, and the parent sees the signal.
    fn cleans_up_from(&self, first: usize, signal: i32) {
        self.fresh();
        let whole = self.done();
        self.ended_from(first, signal, |ended, before| {
            let after = tree(&self.folder);
            assert_eq!(temporaries(&self.folder), [""; 0]);
            assert!(after == *before || after == whole, "{:?}", names_in(&self.folder));
            let is_done = ended.status.code() == Some(0) && after == whole;
            assert!(is_done || ended.status.signal() == Some(signal), "{:?}", ended.status);
            assert_eq!(ended.err, "");
        });
    }

    fn cleans_up_after(&self, signal: i32) {
        self.cleans_up_from(self.begin(), signal);
    }

    /// A signal that is ignored stays ignored.
    fn outlives(&self, signal: i32) {
        self.fresh();
        let whole = self.done();
        self.fresh();
        for stops in self.begin().. {
            self.fresh();
            let mut command = self.command();
            crate::trace::ignore(&mut command, signal);
            let ended = match self.at(stops, &mut command) {
                Ok(traced) => traced.end_by(signal),
                Err(_) => return,
            };
            assert_eq!((ended.status.code(), &ended.err[..]), (Some(0), ""));
            assert_eq!(tree(&self.folder), whole);
        }
    }
}

#[test]
fn a_kill_leaves_no_file_or_the_whole() {
    Case::new("kill-new", PACK, nothing).survives_a_kill_from(0);
}

#[test]
fn a_kill_leaves_the_old_file_or_the_whole() {
    Case::new("kill-over", PACK_OVER, an_old_file).survives_a_kill();
}

#[test]
fn a_kill_leaves_no_folder_or_the_whole() {
    Case::new("kill-folder", UNPACK, nothing).survives_a_kill();
}

#[test]
fn a_kill_leaves_the_empty_folder_or_the_whole() {
    Case::new("kill-empty", UNPACK, an_empty_folder).survives_a_kill();
}

#[test]
fn a_kill_leaves_the_old_reel_or_the_whole() {
    let line = "export --force samples/ledger.tgi -o $D/out";
    Case::new("kill-reel", line, an_old_reel).survives_a_kill();
}

/// The moves of several reels are several calls: a kill between them leaves some, each of them old or whole.
#[test]
fn a_kill_leaves_each_of_several_reels_old_or_whole() {
    let cases: [(_, _, fn(&Path)); 2] =
        [("kill-reels", EXPORT, nothing), ("kill-old-reels", EXPORT_OVER, old_reels)];
    for (name, line, prepare) in cases {
        let case = Case::new(name, line, prepare);
        case.fresh();
        let whole = case.done();
        case.ended_from(case.begin(), KILL, |_, before| {
            let known = |one| before.contains(one) || whole.contains(one);
            assert!(tree(&case.folder).iter().all(known));
            shell(&format!("$T {EXPORT_OVER}"), &case.folder).done();
            assert_eq!(tree(&case.folder), whole);
        });
    }
}

#[test]
fn a_program_that_is_told_to_end_leaves_nothing_beside_a_file() {
    Case::new("term-new", PACK, nothing).cleans_up_from(0, TERMINATE);
    Case::new("int-new", PACK, nothing).cleans_up_after(INTERRUPT);
}

#[test]
fn a_program_that_is_told_to_end_leaves_the_old_file_or_the_whole() {
    Case::new("term-over", PACK_OVER, an_old_file).cleans_up_after(TERMINATE);
    Case::new("hup-over", PACK_OVER, an_old_file).cleans_up_after(HANGUP);
}

#[test]
fn a_program_that_is_told_to_end_leaves_nothing_of_a_folder() {
    Case::new("term-folder", UNPACK, nothing).cleans_up_after(TERMINATE);
    Case::new("int-empty", UNPACK, an_empty_folder).cleans_up_after(INTERRUPT);
}

/// A signal does not come between two moves.
#[test]
fn a_program_that_is_told_to_end_leaves_all_reels_or_none() {
    Case::new("term-reels", EXPORT, nothing).cleans_up_after(TERMINATE);
    Case::new("hup-old-reels", EXPORT_OVER, old_reels).cleans_up_after(HANGUP);
}

#[test]
fn a_program_that_ignores_a_signal_goes_on() {
    Case::new("nohup", PACK, nothing).outlives(HANGUP);
    Case::new("no-interrupt", UNPACK, nothing).outlives(INTERRUPT);
}
