//! The normal form of a set.

mod common;

use common::{fed, folder, lines_of, names_in, root, run, shell};
use std::fs;

const ACCEPTED: [&str; 4] = ["ledger", "messages", "new-year", "options"];

fn sample(name: &str) -> String {
    format!("samples/{name}.tgi")
}

fn rewritten(file: &str, quota: &str, reels: &str) -> Vec<u8> {
    run(&["rewrite", file, "--quota", quota, "--reels", reels, "-o", "-"]).done().out
}

#[test]
fn the_ledger_is_its_own_normal_form() {
    let ledger = fs::read(root().join("samples/ledger.tgi")).unwrap();
    assert_eq!(rewritten("samples/ledger.tgi", "1", "GATE01"), ledger);
}

#[test]
fn the_normal_form_of_a_normal_form_is_itself_and_has_the_same_records() {
    for name in ACCEPTED {
        let normal = rewritten(&sample(name), "2", "A,B,C,D,E");
        let words = ["rewrite", "-", "--quota=2", "--reels=A,B,C,D,E", "-o", "-"];
        assert_eq!(fed(&words, &normal).done().out, normal, "{name}");
        assert_eq!(fed(&["list", "-"], &normal).done().out, run(&["list", &sample(name)]).out);
        for number in ["1", "2", "3"] {
            let before = run(&["records", "--hex", &sample(name), number]);
            let after = fed(&["records", "--hex", "-", number], &normal);
            assert_eq!(after.out, before.out, "{name}");
        }
    }
}

#[test]
fn sets_that_differ_beside_their_meaning_have_one_normal_form() {
    let image = fs::read(root().join("samples/options.tgi")).unwrap();
    let text = String::from_utf8_lossy(&image);
    let owner = text.find("TIDE OFFICE").expect("the owner");
    let mut other = image.clone();
    other[owner..owner + 4].copy_from_slice(b"RIVE");
    let words = ["rewrite", "-", "--quota", "9", "--reels", "GATE01", "-o", "-"];
    assert_eq!(fed(&words, &other).done().out, fed(&words, &image).done().out);
}

/// In the three headers and the three trailers, whatever dates the later sections had.
#[test]
fn every_section_is_written_with_the_dates_of_the_first() {
    let normal = rewritten("samples/new-year.tgi", "1", "PAY001,PAY002,PAY003");
    let text = String::from_utf8_lossy(&normal);
    assert_eq!(text.matches(" 85365 86365").count(), 6);
    assert!(!text.contains(" 86001") && !text.contains(" 86002"));
}

#[test]
fn rewriting_is_refused_with_its_number() {
    let d = folder("rewrite-refused");
    let words = |quota, reels| {
        format!("$T rewrite samples/options.tgi --quota {quota} --reels {reels} -o $D/out")
    };
    let few = "samples/options.tgi: refused 12: more reels are needed than are named: \
               --reels names 2, and 3 are needed with quota 1";
    shell(&words("1", "A,B"), &d).told(1, few);
    let own = "samples/refused-5.tgi: refused 5 at item 1 byte 54: \
               access to the volume or file is restricted: the accessibility of HDR1";
    shell("$T rewrite samples/refused-5.tgi --quota 1 --reels A -o $D/out", &d).told(1, own);
    assert_eq!(names_in(&d), [""; 0]);
}

#[test]
fn rewriting_wants_its_words() {
    let usage = "usage: tardorelga rewrite [--force] (FILE | --simh REEL..) --quota Q --reels A,B,.. -o OUT";
    run(&["rewrite", "x"]).told(2, &format!("--quota is missing\n{usage}"));
    run(&["rewrite", "x", "--quota", "1"]).told(2, &format!("--reels is missing\n{usage}"));
}

#[test]
fn what_is_unpacked_packs_to_the_normal_form() {
    let d = folder("unpacked-normal");
    for name in ACCEPTED {
        for form in ["", "--hex", "--lines"] {
            let out = d.join(format!("{name}{form}"));
            shell(&format!("$T unpack {form} {} $D/{name}{form}", sample(name)), &d).done();
            let sheet = out.join("sheet");
            let reels: Vec<String> = lines_of(&sheet)
                .iter()
                .filter_map(|line| line.strip_prefix("reel ").map(String::from))
                .collect();
            let packed = run(&["pack", sheet.to_str().unwrap(), "-o", "-"]).done().out;
            assert_eq!(
                packed,
                rewritten(&sample(name), "999999", &reels.join(",")),
                "{name} {form}"
            );
        }
    }
}
