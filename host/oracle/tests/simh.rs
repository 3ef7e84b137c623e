//! Tape files of the SIMH magtape form into images and back: known answers, and laws that hold for all files
//! and images that the generator makes, from fixed seeds.

use cases::simh::{from, to};
use oracle::generate::{
    any_pieces, damaged, damaged_simh, image_of, whole_simh, Damage, Rng, Simh,
};
use oracle::{check, framing, from_simh, to_simh, Answer, Tapes, Written};
use std::collections::BTreeMap;

#[test]
fn tape_files_with_known_answers() {
    from::run(from_simh);
}

#[test]
fn images_with_known_answers() {
    to::run(to_simh);
}

/// The image of these files, in a buffer that holds any.
fn image(simh: &Simh) -> (Written, Vec<u8>) {
    let mut out = vec![0xEE; 5 + simh.tape.len()];
    let written = from_simh(&simh.tape, &simh.lengths, &mut out);
    out.truncate(written.len);
    (written, out)
}

/// The files of this image, in buffers that hold any.
fn files(image: &[u8]) -> (Tapes, Simh) {
    let (mut tape, mut lengths) = (vec![0xEE; image.len() * 5 / 2], vec![0; 16]);
    let tapes = to_simh(image, &mut tape, &mut lengths);
    tape.truncate(tapes.len);
    lengths.truncate(tapes.files);
    (tapes, Simh { tape, lengths })
}

/// The image has good framing and gives the same files again.
fn comes_back(simh: &Simh, image: &[u8]) {
    assert_eq!(framing(image), Answer::DONE);
    let (tapes, again) = files(image);
    assert_eq!(tapes.answer, Answer::DONE);
    assert!(again == *simh, "theirs to ours and back gives theirs");
}

#[test]
fn whole_files_come_back() {
    let rng = &mut Rng::new(61);
    let (mut converted, mut refused) = (0, 0);
    for _ in 0..20_000 {
        let simh = whole_simh(rng);
        let (written, image) = image(&simh);
        match simh.lengths.len() {
            1..=16 => {
                assert_eq!(written.answer, Answer::DONE);
                comes_back(&simh, &image);
                converted += 1;
            }
            _ => {
                assert_eq!(written.answer, Answer::new(2, 0, 0));
                refused += 1;
            }
        }
    }
    assert!(converted > 15_000 && refused > 500, "{converted} {refused}");
}

/// Sets that are damaged, and any items: what is framed well is converted, whatever `check` says.
#[test]
fn images_come_back() {
    let rng = &mut Rng::new(62);
    let mut numbers = BTreeMap::new();
    for round in 0..20_000 {
        let ours = if round % 2 == 0 { damaged(rng) } else { image_of(&any_pieces(rng)) };
        let (tapes, simh) = files(&ours);
        assert_eq!(tapes.answer, framing(&ours));
        if tapes.answer.is_done() {
            let (written, again) = image(&simh);
            assert_eq!(written.answer, Answer::DONE);
            assert!(again == ours, "ours to theirs and back gives ours");
        }
        *numbers.entry((tapes.answer.number, check(&ours).number)).or_insert(0) += 1;
    }
    let of = |number, checked| numbers.get(&(number, checked)).copied().unwrap_or(0);
    assert!((1..=2).all(|number| of(number, number) > 50), "{numbers:?}");
    assert!((3..=8).all(|number| of(0, number) > 100), "{numbers:?}");
}

/// Each kind of damage, by itself, is 15 at many places; what is not refused comes back.
#[test]
fn damaged_files_are_refused_or_come_back() {
    let rng = &mut Rng::new(63);
    let mut torn: BTreeMap<(Damage, u32), u32> = BTreeMap::new();
    for _ in 0..60_000 {
        let (simh, damages) = damaged_simh(rng);
        let (Written { answer, .. }, image) = image(&simh);
        assert!(matches!(answer.number, 0 | 2 | 15) && answer.byte == 0, "{answer:?}");
        if answer.is_done() {
            comes_back(&simh, &image);
        }
        if let ([damage], 15) = (&damages[..], answer.number) {
            *torn.entry((*damage, answer.item)).or_default() += 1;
        }
    }
    for damage in Damage::ALL {
        let of: Vec<_> = torn.iter().filter(|((kind, _), _)| *kind == damage).collect();
        let (all, places) = (of.iter().map(|(_, &count)| count).sum::<u32>(), of.len());
        let sum = matches!(damage, Damage::Sum | Damage::Wrapped);
        assert!(all > 500 && if sum { places == 1 } else { places > 20 }, "{damage:?} {of:?}");
    }
}
