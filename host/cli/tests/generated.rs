//! Sets of every kind, from the generator of the independent program: what the program makes of them.

mod common;

use common::{fed, folder, run};
use oracle::generate::{whole, Rng};
use std::fs;

const SETS: usize = 300;

/// The reel names on a sheet as `--reels` has them; none where a name has a comma or stands in brackets.
fn reels(sheet: &str) -> Option<String> {
    let names: Vec<&str> = sheet.lines().filter_map(|line| line.strip_prefix("reel ")).collect();
    let plain = |name: &&str| !name.contains([',', '[', '-']);
    names.iter().all(plain).then(|| names.join(","))
}

#[test]
fn each_set_unpacks_to_a_sheet_that_packs_to_its_normal_form() {
    let d = folder("generated");
    let mut rng = Rng::new(7);
    let mut compared = 0;
    for number in 0..SETS {
        let image = whole(&mut rng);
        let out = d.join(number.to_string());
        let form: &[&str] = if number % 2 == 0 { &[] } else { &["--hex"] };
        fed(&[&["unpack", "-", out.to_str().unwrap()], form].concat(), &image).done();
        let sheet = out.join("sheet");
        let packed = run(&["pack", sheet.to_str().unwrap(), "-o", "-"]).done().out;
        let text = fs::read_to_string(&sheet).unwrap();
        let names: Vec<u8> = oracle_names(&image);
        let mut normal = vec![0; packed.len()];
        let written = oracle::rewrite(&image, 999_999, &names, &mut normal);
        assert!(written.answer.is_done() && normal == packed, "set {number}");
        if let Some(reels) = reels(&text) {
            let words = ["rewrite", "-", "--quota", "999999", "--reels", &reels, "-o", "-"];
            assert!(fed(&words, &image).done().out == packed, "set {number}");
            compared += 1;
        }
        fs::remove_dir_all(&out).unwrap();
    }
    assert!(compared > 0, "the program's own rewriting is compared too");
}

/// The names of the reels as the independent program finds them.
fn oracle_names(image: &[u8]) -> Vec<u8> {
    let mut tape = oracle::tape::Tape::open(image).expect("a head");
    let (mut names, mut due) = (Vec::new(), true);
    while let Ok(Some(item)) = tape.next_item() {
        match item {
            oracle::tape::Item::Block(label) if due => names.extend_from_slice(&label[4..10]),
            _ => {}
        }
        due = matches!(item, oracle::tape::Item::EndOfReel);
    }
    names
}

#[test]
fn each_listing_is_that_of_the_independent_program() {
    let mut rng = Rng::new(8);
    for number in 0..SETS {
        let image = whole(&mut rng);
        assert!(fed(&["list", "-"], &image).done().out == oracle::listing(&image), "set {number}");
    }
}
