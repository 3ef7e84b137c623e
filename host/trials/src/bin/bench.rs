//! `bench`: the times of the archive against the oracle's and a copy of the same bytes, as tables for
//! docs/PERFORMANCE.md. `bench WHAT..` makes only the tables named: check, labels, linear, walk, files,
//! write, rewrite, list, simh.

use oracle::generate::{image_of, large, large_order, many_files, set_with_all_labels, Large, Rng};
use oracle::tape::{Tape, END_OF_REEL, HEAD};
use oracle::{Answer, Found, Records};
use std::hint::black_box;
use std::time::Instant;
use tardorelga::{Format, Order};
use trials::beside::Beside;
use trials::{agreed, archive};

const ROUNDS: usize = 60;
const SIZE: usize = 10_000_000;
const SIZES: [usize; 3] = [1_000_000, 4_000_000, 16_000_000];

type Table = (&'static str, fn());

const TABLES: [Table; 9] = [
    ("check", checking),
    ("labels", labels),
    ("linear", linear),
    ("walk", walking),
    ("files", files),
    ("write", writing),
    ("rewrite", rewriting),
    ("list", listing),
    ("simh", converting),
];

fn main() {
    let wanted: Vec<String> = std::env::args().skip(1).collect();
    for (name, table) in TABLES {
        if wanted.is_empty() || wanted.iter().any(|word| word == name) {
            table();
            println!();
        }
    }
}

fn name(kind: Large) -> &'static str {
    match kind {
        Large::Variable => "D 80 in 32,760",
        Large::Fixed => "F 80 in 800",
        Large::Segmented => "S 5,000 in 4,096",
        Large::Short => "S 80 in 4,096",
        Large::Tiny => "D 6 in 10",
        Large::Packed => "D 6 in 32,760",
        Large::Eleven => "S 6 in 11",
        Large::Twelve => "S 7 in 12",
        Large::Files => "D 80 in 4,096, 64 files on 16 reels",
    }
}

/// The times in milliseconds of several runs, round by round.
struct Times<const N: usize>(Vec<[f64; N]>);

impl<const N: usize> Times<N> {
    /// The runs take turns, so that all see the same load; each comes first in its round as often as the
    /// others, since the first finds the least in the caches.
    fn of(runs: [&mut dyn FnMut(); N]) -> Times<N> {
        let mut rounds = vec![[0.0; N]; ROUNDS];
        for (round, times) in rounds.iter_mut().enumerate() {
            for turn in 0..N {
                let which = (round + turn) % N;
                let start = Instant::now();
                runs[which]();
                times[which] = start.elapsed().as_secs_f64() * 1e3;
            }
        }
        Times(rounds)
    }

    /// The best time of a run.
    fn best(&self, run: usize) -> f64 {
        self.0.iter().map(|times| times[run]).fold(f64::MAX, f64::min)
    }

    /// How long a run takes, measured by another: the median over the rounds, since in one round both see
    /// the same machine, and the best times of two may be of different moments.
    fn between(&self, run: usize, other: usize) -> f64 {
        let mut ratios: Vec<f64> = self.0.iter().map(|times| times[run] / times[other]).collect();
        ratios.sort_by(f64::total_cmp);
        ratios[ROUNDS / 2]
    }

    /// How long the first run takes, measured by another.
    fn ratio(&self, other: usize) -> f64 {
        self.between(0, other)
    }
}

fn checking() {
    println!("| check | bytes | answer | archive ms | oracle ms | ratio |");
    println!("|---|--:|---|--:|--:|--:|");
    for kind in Large::ALL {
        let image = large(kind, SIZE);
        check_row(name(kind), &image);
        if matches!(kind, Large::Variable | Large::Tiny | Large::Eleven) {
            let (end, middle) = (wrong_at_the_end(&image), wrong_in_the_middle(&image));
            check_row(&format!("{}, fault in the last trailer", name(kind)), &end);
            check_row(&format!("{}, fault in the middle", name(kind)), &middle);
        }
    }
}

fn check_times(image: &[u8]) -> Times<2> {
    Times::of([&mut || _ = black_box(archive::check(black_box(image))), &mut || {
        _ = black_box(oracle::check(black_box(image)))
    }])
}

fn check_row(name: &str, image: &[u8]) {
    let Answer { number, item, byte } = agreed(image);
    let times = check_times(image);
    let (bytes, archive, oracle, ratio) =
        (image.len(), times.best(0), times.best(1), times.ratio(1));
    println!(
        "| {name} | {bytes} | ({number},{item},{byte}) | {archive:.2} | {oracle:.2} | {ratio:.2} |"
    );
}

/// Checks of an image that is nearly all labels, in one round: each takes too short a time by itself.
const CHECKS: usize = 20;

/// The archive, the library of another commit and the oracle on images that are nearly all labels.
fn labels() {
    let Some(before) = Beside::open() else {
        println!("No table of labels: `host/beside COMMIT` makes the library to compare with.");
        return;
    };
    println!("| check | bytes | archive µs | before µs | ratio | oracle µs | ratio |");
    println!("|---|--:|--:|--:|--:|--:|--:|");
    let optional = image_of(&set_with_all_labels(&mut Rng::new(1), 64, 16));
    labels_row("64 files on 16 reels", &many_files(true), before);
    labels_row("the same, any a-characters in names", &many_files(false), before);
    labels_row("64 files, all optional labels", &optional, before);
}

fn labels_row(name: &str, image: &[u8], before: Beside) {
    assert!(agreed(image).is_done() && before.check(image) == tardorelga::check(image));
    let times = Times::of([
        &mut || (0..CHECKS).for_each(|_| _ = black_box(tardorelga::check(black_box(image)))),
        &mut || (0..CHECKS).for_each(|_| _ = black_box(before.check(black_box(image)))),
        &mut || (0..CHECKS).for_each(|_| _ = black_box(oracle::check(black_box(image)))),
    ]);
    let [archive, before, oracle] = [0, 1, 2].map(|run| times.best(run) * 1e3 / CHECKS as f64);
    let (bytes, faster, ratio) = (image.len(), times.ratio(1), times.ratio(2));
    println!(
        "| {name} | {bytes} | {archive:.1} | {before:.1} | {faster:.2} | {oracle:.1} | {ratio:.2} |"
    );
}

fn linear() {
    println!("| check | bytes | archive ms | ns a byte |");
    println!("|---|--:|--:|--:|");
    for kind in [Large::Variable, Large::Tiny] {
        for size in SIZES {
            let image = large(kind, size);
            let archive = check_times(&image).best(0);
            let (bytes, nanoseconds) = (image.len(), archive * 1e6 / image.len() as f64);
            println!("| {} | {bytes} | {archive:.2} | {nanoseconds:.3} |", name(kind));
        }
    }
}

/// A row with the time of a copy of the bytes beside the others.
fn row(what: &str, count: usize, bytes: usize, times: Times<3>) {
    let [archive, oracle, copy] = [0, 1, 2].map(|run| times.best(run));
    let ratio = times.ratio(1);
    println!(
        "| {what} | {count} | {bytes} | {archive:.2} | {oracle:.2} | {ratio:.2} | {copy:.2} |"
    );
}

/// The same, with how long the archive takes, measured by the copy.
fn row_to_copy(what: &str, count: usize, bytes: usize, times: Times<3>) {
    let [archive, oracle, copy] = [0, 1, 2].map(|run| times.best(run));
    let (ratio, to_copy) = (times.ratio(1), times.ratio(2));
    println!(
        "| {what} | {count} | {bytes} | {archive:.2} | {oracle:.2} | {ratio:.2} | {copy:.2} | {to_copy:.2} |"
    );
}

/// Walking by steps from state to state, in the archive and in the oracle, each of which looks whether
/// its state can be one at all; and by iterators, the library's `records()` and the oracle's, which trusts
/// the set that it was begun on. Each file is begun by its number, behind a check.
fn walking() {
    println!(
        "| walk over all records | records | bytes | step ms | oracle's ms | ratio | records() ms | iterator ms | ratio | copy ms |"
    );
    println!("|---|--:|--:|--:|--:|--:|--:|--:|--:|--:|");
    for kind in Large::ALL {
        let (image, files) = (&large(kind, SIZE)[..], kind.files() as u64);
        let (mut join, mut copied) = (vec![0; 100_000], vec![0; image.len()]);
        let mut other = join.clone();
        let found = walked(image, files, &mut join);
        assert_eq!(found, stepped(image, files, &mut other), "both hand out the same");
        assert_eq!(found, read(image, files), "both hand out the same");
        assert_eq!(found, iterated(image, files), "both hand out the same");
        let times = Times::of([
            &mut || _ = black_box(walked(black_box(image), files, &mut join)),
            &mut || _ = black_box(stepped(black_box(image), files, &mut other)),
            &mut || _ = black_box(iterated(black_box(image), files)),
            &mut || _ = black_box(read(black_box(image), files)),
            &mut || copied.copy_from_slice(black_box(image)),
        ]);
        black_box(&copied);
        let (what, (records, _), bytes) = (name(kind), found, image.len());
        let [step, oracle, iterator, trusting, copy] = [0, 1, 2, 3, 4].map(|run| times.best(run));
        let (ratio, to_trusting) = (times.ratio(1), times.between(2, 3));
        println!(
            "| {what} | {records} | {bytes} | {step:.2} | {oracle:.2} | {ratio:.2} | {iterator:.2} | {trusting:.2} | {to_trusting:.2} | {copy:.2} |"
        );
    }
}

/// Number and length of the records of all files by the archive's walk.
fn walked(image: &[u8], files: u64, join: &mut [u8]) -> (usize, usize) {
    let (mut records, mut bytes) = (0, 0);
    for file in 1..=files {
        let mut walk = tardorelga::begin(image, file).expect("an accepted image");
        while let Ok((place, behind)) = walk.step(image, join) {
            records += 1;
            bytes += black_box(place.of(image, join)).len();
            walk = behind;
        }
    }
    (records, bytes)
}

/// Number and length of the records of all files by the library's iterator.
fn iterated(image: &[u8], files: u64) -> (usize, usize) {
    let (mut records, mut bytes) = (0, 0);
    for file in 1..=files {
        for record in tardorelga::records(image, file).expect("an accepted image") {
            records += 1;
            bytes += black_box(&record[..]).len();
        }
    }
    (records, bytes)
}

/// Number and length of the records of all files by the oracle's walk.
fn stepped(image: &[u8], files: u64, join: &mut [u8]) -> (usize, usize) {
    let (mut records, mut bytes) = (0, 0);
    for file in 1..=files {
        let mut walk = oracle::walk::begin(image, file).expect("an accepted image").walk;
        while let Ok((found, behind)) = walk.step(image, join) {
            records += 1;
            bytes += match found {
                Found::InImage { start, len } => black_box(&image[start..start + len]).len(),
                Found::Joined { len } => black_box(&join[..len]).len(),
                Found::Refused(_) => 0,
            };
            walk = behind;
        }
    }
    (records, bytes)
}

/// Number and length of the records of all files by the oracle's iterator.
fn read(image: &[u8], files: u64) -> (usize, usize) {
    let (mut records, mut bytes) = (0, 0);
    for file in 1..=files {
        let mut all = Records::of(image, file).expect("an accepted image");
        while let Some(record) = all.next_record() {
            records += 1;
            bytes += black_box(record).len();
        }
    }
    (records, bytes)
}

fn writing() {
    println!("| write | records | bytes | archive ms | oracle ms | ratio | copy ms |");
    println!("|---|--:|--:|--:|--:|--:|--:|");
    for kind in Large::ALL {
        let order = large_order(kind, SIZE);
        let sheet = order.sheet();
        let mut outs = [(); 3].map(|()| vec![0; SIZE + SIZE / 4]);
        let [one, other, copied] = &mut outs;
        let (written, due) = (archive::write(&sheet, one), sheet.write(other));
        assert!(written == due && one == other, "both write the same");
        let image = one[..written.len].to_vec();
        let times = Times::of([
            &mut || _ = black_box(archive::write(black_box(&sheet), one)),
            &mut || _ = black_box(black_box(&sheet).write(other)),
            &mut || copied[..image.len()].copy_from_slice(black_box(&image)),
        ]);
        row(name(kind), order.lengths.len(), image.len(), times);
    }
}

const REELS: &[u8] = b"REEL01REEL02REEL03REEL04";

fn rewriting() {
    println!(
        "| rewrite | records | bytes | archive ms | oracle ms | ratio | copy ms | to the copy |"
    );
    println!("|---|--:|--:|--:|--:|--:|--:|--:|");
    for kind in Large::ALL {
        let image = &large(kind, SIZE)[..];
        let records = large_order(kind, SIZE).lengths.len();
        let mut outs = [(); 3].map(|()| vec![0; SIZE + SIZE / 4]);
        let [one, other, copied] = &mut outs;
        let written = archive::rewrite(image, 999_999, REELS, one);
        let due = oracle::rewrite(image, 999_999, REELS, other);
        assert!(written == due && one == other, "both write the same");
        let times = Times::of([
            &mut || _ = black_box(archive::rewrite(black_box(image), 999_999, REELS, one)),
            &mut || _ = black_box(oracle::rewrite(black_box(image), 999_999, REELS, other)),
            &mut || copied[..image.len()].copy_from_slice(black_box(image)),
        ]);
        row_to_copy(name(kind), records, written.len, times);
    }
}

/// All files of a set with the facts of each, behind one check, against a check alone and a check a file.
fn files() {
    println!("| 64 files | bytes | files ms | check ms | ratio | a check a file ms | ratio |");
    println!("|---|--:|--:|--:|--:|--:|--:|");
    for (name, format, block, record) in [
        ("D 80 in 32,760", Format::Variable, 32_760, 84),
        ("F 80 in 800", Format::Fixed, 800, 80),
        ("S 80 in 4,096", Format::Segmented, 4_096, 80),
    ] {
        let image = &sixty_four_files(format, block, record);
        let one_by_one = |number| tardorelga::file(image, number).expect("a file").bytes();
        let times = Times::of([
            &mut || _ = black_box(tardorelga::files(black_box(image)).expect("a set").count()),
            &mut || _ = black_box(archive::check(black_box(image))),
            &mut || _ = black_box((1..=64).map(one_by_one).sum::<u64>()),
        ]);
        let bytes = image.len();
        let [files, check, each] = [0, 1, 2].map(|run| times.best(run));
        let (to_check, to_each) = (times.ratio(1), times.ratio(2));
        println!("| {name} | {bytes} | {files:.2} | {check:.2} | {to_check:.2} | {each:.2} | {to_each:.2} |");
    }
}

fn sixty_four_files(format: Format, block: u32, record: u32) -> Vec<u8> {
    let mut order = Order::new("SET001");
    order.reel("GATE01");
    for _ in 0..64 {
        order.file("FULL", format, block, record).records([[b'R'; 80]; SIZE / 80 / 64]);
    }
    order.write().expect("a legal sheet")
}

fn listing() {
    println!("| list | records | bytes | archive ms | oracle ms | ratio | copy ms |");
    println!("|---|--:|--:|--:|--:|--:|--:|");
    for kind in Large::ALL {
        let image = &large(kind, SIZE)[..];
        let records = large_order(kind, SIZE).lengths.len();
        let (mut text, mut copied) = ([0; 4_096], vec![0; image.len()]);
        let written = archive::listing(image, &mut text);
        assert_eq!(text[..written.len], oracle::listing(image), "both write the same");
        let times = Times::of([
            &mut || _ = black_box(archive::listing(black_box(image), &mut text)),
            &mut || _ = black_box(oracle::listing(black_box(image))),
            &mut || copied.copy_from_slice(black_box(image)),
        ]);
        row(name(kind), records, image.len(), times);
    }
}

/// Lengths of blocks: long ones, even and odd, and short ones.
const BLOCKS: [usize; 5] = [32_760, 32_761, 4_096, 10, 1];

/// Tape files of the SIMH magtape form into an image, and an image into tape files.
fn converting() {
    println!(
        "| SIMH | blocks of | bytes | archive ms | oracle ms | ratio | copy ms | ratio to copy |"
    );
    println!("|---|--:|--:|--:|--:|--:|--:|--:|");
    for length in BLOCKS {
        let image = image_of_blocks(length);
        let (mut tape, mut lengths) = (vec![0; image.len() * 5 / 2], [0]);
        let tapes = oracle::to_simh(&image, &mut tape, &mut lengths);
        tape.truncate(tapes.len);
        from_simh_row(length, &tape, &lengths, &image);
        to_simh_row(length, &image, &tape);
    }
}

/// An image of one reel, nearly all blocks of this length.
fn image_of_blocks(length: usize) -> Vec<u8> {
    let block = [&(length as u32).to_be_bytes()[1..], &vec![b'B'; length]].concat();
    [&HEAD[..], &block.repeat(SIZE / block.len()), &END_OF_REEL].concat()
}

fn from_simh_row(length: usize, tape: &[u8], lengths: &[u64], image: &[u8]) {
    let mut outs = [(); 3].map(|()| vec![0; image.len()]);
    let [one, other, copied] = &mut outs;
    let written = archive::from_simh(tape, lengths, one);
    assert_eq!(written, oracle::from_simh(tape, lengths, other));
    assert!(one == image && other == image, "both write the image");
    let times = Times::of([
        &mut || _ = black_box(archive::from_simh(black_box(tape), lengths, one)),
        &mut || _ = black_box(oracle::from_simh(black_box(tape), lengths, other)),
        &mut || copied.copy_from_slice(black_box(image)),
    ]);
    row_to_copy("into an image", length, image.len(), times);
}

fn to_simh_row(length: usize, image: &[u8], tape: &[u8]) {
    let mut outs = [(); 3].map(|()| vec![0; tape.len()]);
    let ([one, other, copied], lengths) = (&mut outs, &mut [0]);
    let tapes = archive::to_simh(image, one, lengths);
    assert_eq!(tapes, oracle::to_simh(image, other, lengths));
    assert!(one == tape && other == tape, "both write the tape file");
    let mut list = *lengths;
    let times = Times::of([
        &mut || _ = black_box(archive::to_simh(black_box(image), one, lengths)),
        &mut || _ = black_box(oracle::to_simh(black_box(image), other, &mut list)),
        &mut || copied.copy_from_slice(black_box(tape)),
    ]);
    row_to_copy("into a tape file", length, tape.len(), times);
}

/// EOF1, EOF2, two marks and the end of reel stand last, each behind its length.
fn wrong_at_the_end(image: &[u8]) -> Vec<u8> {
    let mut image = image.to_vec();
    let eof1 = image.len() - (80 + 3 + 80 + 3 * 3);
    image[eof1 + 54..eof1 + 60].copy_from_slice(b"000000");
    image
}

/// The first byte of the block that stands in the middle.
fn wrong_in_the_middle(image: &[u8]) -> Vec<u8> {
    let mut tape = Tape::open(image).expect("an image");
    while tape.at() < image.len() / 2 {
        tape.next_item().expect("a whole image");
    }
    let mut wrong = image.to_vec();
    wrong[tape.at() + 3] = b'X';
    wrong
}
