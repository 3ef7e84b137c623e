//! One call of an operation on a large image or sheet, for callgrind to count the instructions of: `count PROGRAM OPERATION KIND`, with
//! `archive` or `oracle`, `check`, `write` or `rewrite`, and the number of a kind of large image, from 0.
//!
//!     valgrind --tool=callgrind --toggle-collect='count::once*' host/target/release/count archive write 0

use std::hint::black_box;

use oracle::generate::{large, large_order, Large};
use trials::archive;

/// The bytes of an image, and of a buffer that holds it rewritten.
const SIZE: usize = 10_000_000;
const ROOM: usize = 12_500_000;

const REELS: &[u8] = b"REEL01REEL02REEL03REEL04";

fn main() {
    let words: Vec<String> = std::env::args().skip(1).collect();
    let [program, operation, kind] = &words[..] else { panic!("count PROGRAM OPERATION KIND") };
    let kind = Large::ALL[kind.parse::<usize>().expect("the number of a kind")];
    let mut out = vec![0; ROOM];
    let order = large_order(kind, SIZE);
    let (sheet, image) = (order.sheet(), large(kind, SIZE));
    match (&program[..], &operation[..]) {
        ("archive", "check") => once(|| _ = black_box(archive::check(black_box(&image)))),
        ("oracle", "check") => once(|| _ = black_box(oracle::check(black_box(&image)))),
        ("archive", "write") => once(|| _ = black_box(archive::write(&sheet, &mut out))),
        ("oracle", "write") => once(|| _ = black_box(sheet.write(&mut out))),
        ("archive", "rewrite") => {
            once(|| _ = black_box(archive::rewrite(&image, 999_999, REELS, &mut out)))
        }
        ("oracle", "rewrite") => {
            once(|| _ = black_box(oracle::rewrite(&image, 999_999, REELS, &mut out)))
        }
        _ => panic!("count PROGRAM OPERATION KIND"),
    }
}

#[inline(never)]
fn once(run: impl FnOnce()) {
    run();
}
