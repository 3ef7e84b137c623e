//! Tape files of the SIMH magtape form: the archive and the oracle give the same number and leave the same
//! buffers, both ways, from fixed seeds.

use cases::simh::{from, pairs, to};
use oracle::generate::{any_pieces, damaged_simh, image_of, whole_simh, Damage, Rng, Simh};
use oracle::tape::MOST_BYTES;
use oracle::{framing, Answer};
use tardorelga::{from_simh, to_simh, Tapes, Verdict};
use trials::simh::{compare_files, compare_images, edge, Back};
use trials::writing::Both;
use trials::{archive, images, simh};

#[test]
fn tape_files_with_known_answers() {
    from::run(archive::from_simh);
}

#[test]
fn images_with_known_answers() {
    to::run(archive::to_simh);
}

/// Every kind of damage, by itself, is among the reasons of 15.
#[test]
fn generated_tape_files() {
    let torn = compare_files(61, 100_000);
    println!("tape files: {torn}");
    assert!([0, 2, 10, 15].iter().all(|&number| torn.tally.of(number) > 1_000), "{torn}");
    let by = |damage| torn.by.get(&damage).copied().unwrap_or(0);
    assert!(Damage::ALL.iter().all(|&damage| by(damage) > 200), "{torn}");
}

#[test]
fn generated_images() {
    let tally = compare_images(62, 60_000);
    println!("images: {tally}");
    assert!([0, 1, 2, 10].iter().all(|&number| tally.of(number) > 1_000), "{tally}");
}

/// Short tape files with every value of every byte.
#[test]
fn every_byte_of_tape_files() {
    let mut both = Both::new(2_000);
    let mut short = pairs();
    short.retain(|pair| pair.simh.tape.len() < 50);
    for Simh { tape, lengths } in short.into_iter().map(|pair| pair.simh) {
        for at in 0..tape.len() {
            for value in 0..=255 {
                let (mut tape, lengths) = (tape.clone(), lengths.clone());
                tape[at] = value;
                simh::from_simh(&mut both, &Simh { tape, lengths });
            }
        }
    }
    println!("every byte of tape files: {}", both.tally);
    assert!(both.tally.of(0) > 1_000 && both.tally.of(15) > 10_000, "{}", both.tally);
}

/// Images of the most bytes, one byte less and one or more over, and back: 14 goes before 10.
#[test]
fn images_of_the_most_bytes() {
    let mut both = Both::new(MOST_BYTES + 100);
    let mut back = Back::new(3 * MOST_BYTES);
    let mut image = vec![0; MOST_BYTES];
    for block in [50_000, 32_761, 10, 1] {
        for (more, number) in [(-1, 0), (0, 0), (1, 14), (2, 14), (50_000, 14)] {
            let simh = edge(block, more);
            let written = simh::from_simh(&mut both, &simh);
            assert_eq!(written.answer.number, number, "blocks of {block}, {more} over");
            if more == 0 {
                archive::from_simh(&simh.tape, &simh.lengths, &mut image);
                assert_eq!(back.to_simh(&image).len, simh.tape.len());
            }
        }
    }
    println!("images of the most bytes: {}, and back: {}", both.tally, back.tally);
}

fn answer(Verdict { number, item, byte }: Verdict) -> Answer {
    Answer::new(number, item, byte)
}

/// The image of these files by the safe library, in a buffer that is long enough for any.
fn image(simh: &Simh) -> Result<Vec<u8>, Verdict> {
    let mut out = vec![0xEE; 5 + simh.tape.len()];
    let len = from_simh(&simh.tape, &simh.lengths, &mut out)?;
    out.truncate(len);
    Ok(out)
}

/// The files of this image by the safe library, in buffers that are long enough for any.
fn files(image: &[u8]) -> Result<Simh, Verdict> {
    let (mut tape, mut lengths) = (vec![0xEE; image.len() * 5 / 2], vec![0; 16]);
    let Tapes { len, files } = to_simh(image, &mut tape, &mut lengths)?;
    tape.truncate(len);
    lengths.truncate(files);
    Ok(Simh { tape, lengths })
}

/// Theirs to ours and back gives theirs.
#[test]
fn tape_files_come_back() {
    let rng = &mut Rng::new(63);
    let mut converted = 0;
    for round in 0..20_000 {
        let simh = if round % 2 == 0 { whole_simh(rng) } else { damaged_simh(rng).0 };
        match image(&simh) {
            Ok(image) => {
                assert!(files(&image) == Ok(simh), "the files again");
                converted += 1;
            }
            Err(verdict) => {
                let due = oracle::from_simh(&simh.tape, &simh.lengths, &mut []);
                assert_eq!(answer(verdict), due.answer);
            }
        }
    }
    assert!(converted > 9_000, "{converted}");
}

/// Ours to theirs and back gives ours, for every image in good framing.
#[test]
fn images_come_back() {
    let rng = &mut Rng::new(64);
    let mut converted = 0;
    for round in 0..20_000 {
        let ours = match round % 2 {
            0 => images::generated(rng),
            _ => image_of(&any_pieces(rng)),
        };
        match files(&ours) {
            Ok(simh) => {
                assert!(image(&simh) == Ok(ours), "the image again");
                converted += 1;
            }
            Err(verdict) => assert_eq!(answer(verdict), framing(&ours)),
        }
    }
    assert!(converted > 15_000, "{converted}");
}
