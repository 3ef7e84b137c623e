//! Images whose tape files and refusals are known: 9, 1 and 2 as for any image, then 10.

use super::{pairs, Pair};
use crate::{container, Case};
use oracle::{Answer, Tapes};

/// A converter: image, output, list of lengths.
pub trait ToSimh: Fn(&[u8], &mut [u8], &mut [u64]) -> Tapes {}

impl<F: Fn(&[u8], &mut [u8], &mut [u64]) -> Tapes> ToSimh for F {}

/// Holds the converter to every pair, and to every image of the tables that is torn.
#[track_caller]
pub fn run(to_simh: impl ToSimh) {
    pairs().iter().for_each(|pair| converts(pair, &to_simh));
    for case in cases() {
        for (room, list) in [(0, 0), (1_000, 20)] {
            refuses(&case.to_string(), &case.image, (room, list), case.answer, &to_simh);
        }
    }
}

pub fn cases() -> Vec<Case> {
    container::cases().into_iter().filter(|case| case.answer.number != 3).collect()
}

/// The files are made in buffers that just hold them and in longer ones, of which the rest stays; where
/// either is too short the number is 10.
#[track_caller]
fn converts(Pair { what, simh, image }: &Pair, to_simh: &impl ToSimh) {
    let (len, files) = (simh.tape.len(), simh.lengths.len());
    for (behind, more) in [(0, 0), (1, 0), (0, 1), (300, 20)] {
        let (mut out, mut lengths) = (vec![0xEE; len + behind], vec![u64::MAX; files + more]);
        let done = Tapes { answer: Answer::DONE, len, files };
        assert_eq!(to_simh(image, &mut out, &mut lengths), done, "{what}");
        assert!(out[..len] == simh.tape, "{what}: the files");
        assert_eq!(lengths[..files], simh.lengths, "{what}");
        assert!(out[len..].iter().all(|&byte| byte == 0xEE), "{what}: bytes behind them stay");
        assert!(lengths[files..].iter().all(|&length| length == u64::MAX), "{what}: numbers too");
    }
    let short = [(len - 1, files), (len, files - 1), (0, files), (len, 0), (0, 0), (len - 1, 20)];
    for room in short {
        refuses(what, image, room, Answer::new(10, 0, 0), to_simh);
    }
}

#[track_caller]
fn refuses(what: &str, image: &[u8], room: (usize, usize), answer: Answer, to_simh: &impl ToSimh) {
    let (mut out, mut lengths) = (vec![0xEE; room.0], vec![u64::MAX; room.1]);
    let refused = Tapes { answer, len: 0, files: 0 };
    assert_eq!(to_simh(image, &mut out, &mut lengths), refused, "{what}, in {room:?}");
    assert!(out.iter().all(|&byte| byte == 0xEE), "{what}: a refusal changes no byte");
    assert!(lengths.iter().all(|&length| length == u64::MAX), "{what}: and no length");
}
