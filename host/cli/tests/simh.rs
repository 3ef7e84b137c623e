//! Reels as tape files of SIMH: into an image and back, and in place of one.

mod common;

use common::{
    expected, fed, folder, import, names_in, reels_named, run, sample, shell, unwritable, TORN,
};
use oracle::generate::{whole, Rng};
use std::ffi::OsString;
use std::fs;
use std::os::unix::ffi::OsStringExt;
use std::os::unix::fs::symlink;
use std::path::Path;

const MARK: &[u8] = &[0; 4];
const END: &[u8] = &[0xFF; 4];
const MESSAGES: [&str; 3] =
    ["samples/messages-1.tap", "samples/messages-2.tap", "samples/messages-3.tap"];

/// The words of a command with the reels of a sample between them.
fn on_messages<'a>(before: &[&'a str], behind: &[&'a str]) -> Vec<&'a str> {
    [before, &MESSAGES, behind].concat()
}

/// Writes reels into the folder, and gives their names.
fn reels<const N: usize>(folder: &Path, bytes: [&[u8]; N]) -> [String; N] {
    let mut number = 0;
    bytes.map(|bytes| {
        number += 1;
        let file = folder.join(format!("{number}.tap"));
        fs::write(&file, bytes).unwrap();
        file.into_os_string().into_string().unwrap()
    })
}

#[test]
fn every_sample_with_good_items_comes_back_from_its_reels() {
    let d = folder("simh-samples");
    let mut converted = 0;
    for (file, answer) in expected() {
        let (name, image) = (d.join(&file), sample(&file));
        let words = ["export", &format!("samples/{file}"), "-o", name.to_str().unwrap()];
        if answer.starts_with("refused 1 ") || answer.starts_with("refused 2 ") {
            let ran = run(&words);
            let said = format!("tardorelga: samples/{file}: {answer}: ");
            assert!(ran.status == Some(1) && ran.err.starts_with(&said), "{}", ran.err);
            assert!(reels_named(&name).is_empty(), "{file}");
            continue;
        }
        run(&words).done();
        assert!(import(&reels_named(&name)).done().out == image, "{file}");
        converted += 1;
    }
    assert_eq!(converted, expected().len() - 2);
}

#[test]
fn the_reels_among_the_samples_are_what_export_gives_and_import_takes() {
    let d = folder("simh-export");
    shell("$T export samples/messages.tgi -o $D/messages", &d).done();
    assert_eq!(names_in(&d), ["messages-1.tap", "messages-2.tap", "messages-3.tap"]);
    for name in names_in(&d) {
        assert_eq!(fs::read(d.join(&name)).unwrap(), sample(&name), "{name}");
    }
    let image = d.join("messages.tgi");
    run(&on_messages(&["import"], &["-o", image.to_str().unwrap()])).done();
    assert_eq!(fs::read(image).unwrap(), sample("messages.tgi"));
}

#[test]
fn generated_sets_come_back_from_as_many_files_as_they_have_reels() {
    let d = folder("simh-generated");
    let mut rng = Rng::new(9);
    let mut several = 0;
    for number in 0..100 {
        let image = whole(&mut rng);
        let name = d.join(number.to_string());
        fed(&["export", "-", "-o", name.to_str().unwrap()], &image).done();
        let reels = reels_named(&name);
        several += usize::from(reels.len() > 1);
        assert!(import(&reels).done().out == image, "set {number}");
    }
    assert!(several > 10, "sets of several reels: {several}");
}

#[test]
fn one_reel_goes_through_a_pipe() {
    let d = folder("simh-pipe");
    let there_and_back =
        "$T export - -o - < samples/ledger.tgi | $T import - -o - | cmp - samples/ledger.tgi";
    shell(there_and_back, &d).done();
    let listed = shell("$T export samples/ledger.tgi -o - | $T list --simh -", &d).done();
    assert!(listed.text().ends_with("\n0001 LEDGER            F 1 10\n"));
    let several = "samples/messages.tgi: has 3 reels, and standard output takes one; \
                   name their files with -o NAME";
    run(&["export", "samples/messages.tgi", "-o", "-"]).told(2, several);
}

#[test]
fn standard_input_may_be_one_of_the_reels() {
    let [first, _, third] = MESSAGES;
    let middle = fed(&["check", "--simh", first, "-", third], &sample("messages-2.tap")).done();
    assert_eq!(
        middle.text(),
        format!("{first} and 2 more: accepted, 2 files, 6 records, 69 bytes\n")
    );
    let alone = fed(&["check", "--simh", "-"], &sample("messages-1.tap"));
    let early =
        "-: refused 3 at item 11 byte 0: an item stands where the order of a reel forbids it\n";
    assert_eq!((alone.text(), alone.status), (early, Some(1)));
    let usage = "usage: tardorelga import [--force] REEL.. -o OUT";
    let twice = format!("standard input is one reel, and - is named twice\n{usage}");
    import(&["-", first, "-"]).told(2, &twice);
    let closed = "standard input: Bad file descriptor";
    shell("$T import - -o - <&-", &folder("simh-closed")).told(2, closed);
}

#[test]
fn each_command_reads_reels_as_it_reads_the_image() {
    let image = "samples/messages.tgi";
    for (before, behind) in [
        (&["list"][..], &[][..]),
        (&["record"], &["1", "2"]),
        (&["record", "--hex"], &["2", "1"]),
        (&["records", "--lines"], &["1"]),
        (&["rewrite"], &["--quota", "2", "--reels", "A,B,C", "-o", "-"]),
    ] {
        let simh = [before, &["--simh"]].concat();
        let expected = run(&[before, &[image], behind].concat()).done().out;
        assert_eq!(run(&on_messages(&simh, behind)).done().out, expected, "{before:?}");
    }
    let d = folder("simh-unpack");
    shell(&format!("$T unpack {image} $D/a && $T unpack --simh {} $D/b", MESSAGES.join(" ")), &d)
        .done();
    shell("diff -r $D/a $D/b", &d).done();
}

#[test]
fn a_set_on_reels_has_one_line() {
    let ran = run(&on_messages(&["check", "--simh"], &[])).done();
    let accepted = "samples/messages-1.tap and 2 more: accepted, 2 files, 6 records, 69 bytes\n";
    assert_eq!(ran.text(), accepted);
    let ran = run(&on_messages(&["check", "--json", "--simh"], &[])).done();
    let reels =
        r#"{"tapes":["samples/messages-1.tap","samples/messages-2.tap","samples/messages-3.tap"],"#;
    assert_eq!(
        ran.text(),
        format!("{reels}\"accepted\":true,\"files\":2,\"records\":6,\"bytes\":69}}\n")
    );
    let [first, second, third] = MESSAGES;
    let ran = run(&["check", "--simh", first, third]);
    let section =
        "labels, counts or names do not agree with each other: the section number of HDR1";
    let gap = "samples/messages-1.tap and 1 more: refused 6 at item 12 byte 28";
    assert_eq!(ran.text(), format!("{gap}: {section}\n"));
    assert_eq!((ran.status, &ran.err[..]), (Some(1), ""));
    let words = ["records", "--simh", second, first, third, "1"];
    let order = "samples/messages-2.tap and 2 more: refused 6 at item 1 byte 28";
    run(&words).told(1, &format!("{order}: {section}"));
}

/// A reel of a record and a mark, with one thing wrong, and the number of the item that is wrong.
fn torn_reels() -> Vec<(&'static str, Vec<u8>, u32)> {
    let reel = |length: [u8; 4], block: &[u8], behind: [u8; 4], rest: &[u8]| {
        [&length[..], block, &behind, MARK, rest].concat()
    };
    let two = [2, 0, 0, 0];
    let good = reel(two, b"AB", two, END);
    vec![
        ("no bytes", Vec::new(), 0),
        ("a word cut short", vec![0xFF; 3], 0),
        ("a block cut short", good[..5].to_vec(), 0),
        ("no length behind the block", good[..6].to_vec(), 0),
        ("an unequal length behind it", reel(two, b"AB", [3, 0, 0, 0], END), 0),
        ("a pad byte", reel([1, 0, 0, 0], b"AB", [1, 0, 0, 0], END), 0),
        (
            "a long record",
            [&[0xA0, 0x86, 1, 0], &[0; 100_000][..], &[0xA0, 0x86, 1, 0], END].concat(),
            0,
        ),
        ("a record with an error", reel([2, 0, 0, 0x80], b"AB", [2, 0, 0, 0x80], END), 0),
        ("another class of records", reel([2, 0, 0, 0x10], b"AB", [2, 0, 0, 0x10], END), 0),
        ("a gap", reel(two, b"AB", two, &[&[0xFE, 0xFF, 0xFF, 0xFF], END].concat()), 2),
        ("no end", reel(two, b"AB", two, b""), 2),
        ("bytes behind the end", reel(two, b"AB", two, &[END, b"A"].concat()), 3),
        ("a second end", reel(two, b"AB", two, &[END, END].concat()), 3),
    ]
}

#[test]
fn the_torn_reel_is_named() {
    let d = folder("simh-torn");
    // A good reel of two items, and a torn one in each place among three.
    let good = [MARK, END].concat();
    for (what, torn, item) in torn_reels() {
        for place in 0..3 {
            let mut bytes = [&good[..]; 3];
            bytes[place] = &torn;
            let [a, b, c] = reels(&d, bytes);
            let item = item + 2 * place as u32;
            let sentence = format!(
                "{}/{}.tap: refused 15 at item {item} byte 0: {TORN}",
                d.display(),
                place + 1
            );
            let out = d.join("out");
            run(&["import", &a, &b, &c, "-o", out.to_str().unwrap()]).told(1, &sentence);
            assert_eq!(names_in(&d), ["1.tap", "2.tap", "3.tap"], "{what}");
        }
    }
}

#[test]
fn a_torn_reel_is_refused_by_each_command() {
    let d = folder("simh-each");
    let [one, two] = reels(&d, [&[MARK, END].concat(), MARK]);
    let why = format!("{two}: refused 15 at item 3 byte 0: {TORN}");
    let out = d.join("out");
    let out = out.to_str().unwrap();
    run(&["record", "--simh", &one, &two, "1", "1"]).told(1, &why);
    run(&["records", "--simh", &one, &two, "1"]).told(1, &why);
    run(&["unpack", "--simh", &one, &two, out]).told(1, &why);
    let words = ["rewrite", "--simh", &one, &two, "--quota", "1", "--reels", "A", "-o", out];
    run(&words).told(1, &why);
    assert_eq!(names_in(&d), ["1.tap", "2.tap"]);

    let said = format!("tardorelga: {why}\n");
    let line = "refused 15 at item 3 byte 0\n";
    let list = run(&["list", "--simh", &one, &two]);
    assert_eq!((list.text(), &list.err, list.status), (line, &said, Some(1)));
    let check = run(&["check", "--simh", &one, &two]);
    let words = format!("refused 15 at item 3 byte 0: {TORN}");
    assert_eq!(check.text(), format!("{one} and 1 more: {words}\n"));
    assert_eq!((&check.err, check.status), (&said, Some(1)));
    let json = run(&["check", "--json", "--simh", &one, &two]);
    let refused =
        format!("\"accepted\":false,\"number\":15,\"item\":3,\"byte\":0,\"words\":\"{TORN}\"}}\n");
    assert_eq!(json.text(), format!("{{\"tapes\":[\"{one}\",\"{two}\"],{refused}"));
    assert_eq!((&json.err, json.status), (&said, Some(1)));
}

#[test]
fn a_set_has_sixteen_reels_at_most() {
    let d = folder("simh-seventeen");
    let [end, torn] = reels(&d, [END, b"A"]);
    assert_eq!(import(&[&end; 16]).done().out.len(), 5 + 16 * 3);
    let many = format!("{end} and 16 more: refused 2 at item 0 byte 0: a set has 1 to 16 reels");
    import(&[&end; 17]).told(1, &many);
    let why = format!("{torn}: refused 15 at item 17 byte 0: {TORN}");
    import(&[&[&end; 17][..], &[&torn]].concat()).told(1, &why);
}

#[test]
fn reels_that_make_too_long_an_image_are_refused() {
    let d = folder("simh-long");
    let ones = b"\x01\0\0\0A\0\x01\0\0\0".repeat(4_194_302);
    let [long] = reels(&d, [&[&ones, END].concat()]);
    let why = format!("{long}: refused 14: the image would be longer than 16777215 bytes");
    import(&[&long]).told(1, &why);
    let ran = run(&["check", "--simh", &long]);
    assert_eq!(ran.text(), format!("{why}\n"));
}

#[test]
fn an_endless_reel_is_trouble() {
    let d = folder("simh-endless");
    let endless = "the reels up to here have more than 268435456 bytes, and no set has so many";
    shell("$T import samples/messages-1.tap - -o $D/out < /dev/zero", &d)
        .told(2, &format!("standard input: {endless}"));
    let json = run(&["check", "--json", "--simh", "/dev/zero"]);
    let why = format!("/dev/zero: {endless}");
    assert_eq!(json.text(), format!("{{\"tapes\":[\"/dev/zero\"],\"trouble\":\"{why}\"}}\n"));
    assert_eq!((json.err, json.status), (format!("tardorelga: {why}\n"), Some(2)));
    assert_eq!(names_in(&d), [""; 0]);
}

#[test]
fn a_reel_that_cannot_be_read_is_trouble() {
    let [first, ..] = MESSAGES;
    import(&[first, "samples"]).told(2, "samples: Is a directory");
    let none = "none.tap: No such file or directory";
    import(&[first, "none.tap"]).told(2, none);
    run(&["list", "--simh", first, "none.tap"]).told(2, none);
    run(&["check", "--simh", first, "none.tap"]).told(2, none);
    let json = run(&["check", "--json", "--simh", "none.tap"]);
    assert_eq!(json.text(), format!("{{\"tapes\":[\"none.tap\"],\"trouble\":\"{none}\"}}\n"));
    assert_eq!(json.status, Some(2));
    run(&["export", "none.tgi", "-o", "-"]).told(2, "none.tgi: No such file or directory");
}

#[test]
fn nothing_is_exported_beside_a_reel_that_is_there() {
    let d = folder("simh-there");
    let own = "is there already; choose another name, or write over it with --force";
    let other =
        "is there already, and would be taken for a reel of this set; remove it, or choose \
                 another name with -o";
    // The set of messages has three reels, the ledger one.
    for (number, of_messages, of_ledger) in [(1, own, own), (3, own, other), (16, other, other)] {
        let there = d.join(format!("a-{number}.tap"));
        fs::write(&there, "old").unwrap();
        let why = |why: &str| format!("{}: {why}", there.display());
        shell("$T export samples/messages.tgi -o $D/a", &d).told(2, &why(of_messages));
        shell("$T export samples/ledger.tgi -o $D/a", &d).told(2, &why(of_ledger));
        if number == 16 {
            shell("$T export --force samples/messages.tgi -o $D/a", &d).told(2, &why(other));
        }
        assert_eq!(names_in(&d), [format!("a-{number}.tap")]);
        assert_eq!(fs::read(&there).unwrap(), b"old");
        fs::remove_file(&there).unwrap();
    }
    symlink("nowhere", d.join("a-2.tap")).unwrap();
    assert_eq!(shell("$T export samples/ledger.tgi -o $D/a", &d).status, Some(2));
    fs::write(d.join("b-17.tap"), "no reel").unwrap();
    shell("$T export samples/ledger.tgi -o $D/b", &d).done();
    assert_eq!(names_in(&d), ["a-2.tap", "b-1.tap", "b-17.tap"]);
}

#[test]
fn all_reels_are_exported_or_none() {
    let d = folder("simh-none");
    // The first two reels have 492 and 490 bytes, the third more than one block of 512.
    let size = "ulimit -f 1; trap '' XFSZ; $T export samples/messages.tgi -o $D/a";
    shell(size, &d).told(2, &format!("{}/a-3.tap: File too large", d.display()));
    shell("$T export samples/refused-2.tgi -o $D/a", &d).told(
        1,
        "samples/refused-2.tgi: refused 2 at item 10 byte 0: \
         an item is torn, or there are not 1 to 16 reels with an end each",
    );
    let none = format!("{}/no/a-1.tap: No such file or directory", d.display());
    shell("$T export samples/messages.tgi -o $D/no/a", &d).told(2, &none);
    let below = "samples/ledger.tgi/a-1.tap: Not a directory";
    shell("$T export samples/messages.tgi -o samples/ledger.tgi/a", &d).told(2, below);
    assert_eq!(names_in(&d), [""; 0]);
    let locked = unwritable(&folder("simh-locked"));
    let ran = run(&["export", "samples/messages.tgi", "-o", locked.join("a").to_str().unwrap()]);
    let said = format!("tardorelga: {}/a-1.tap: ", locked.display());
    assert!(ran.status == Some(2) && ran.err.starts_with(&said), "{}", ran.err);
    assert!(!locked.join("a-1.tap").exists());
}

#[test]
fn export_wants_a_name_that_the_reels_can_have() {
    let usage = "usage: tardorelga export [--force] FILE -o NAME";
    for name in ["", "samples/", "/"] {
        let why = format!("-o is how the names of the reels begin, not {name:?}\n{usage}");
        run(&["export", "samples/ledger.tgi", "-o", name]).told(2, &why);
    }
    run(&["export", "-o", "a"]).told(2, &format!("no file is named\n{usage}"));
    run(&["export", "a"]).told(2, &format!("-o is missing\n{usage}"));
    run(&["export", "a", "b", "-o", "c"]).told(2, &format!("one word too many: \"b\"\n{usage}"));
}

#[test]
fn a_set_on_reels_wants_one_reel() {
    run(&["import", "-o", "-"])
        .told(2, "no reel is named\nusage: tardorelga import [--force] REEL.. -o OUT");
    let usage = "usage: tardorelga check [-r] [--json | --quiet] (FILE.. | --simh REEL..)";
    run(&["check", "--simh"]).told(2, &format!("no reel is named\n{usage}"));
    let usage = "usage: tardorelga list [--json] (FILE | --simh REEL..)";
    run(&["list", "--simh"]).told(2, &format!("no reel is named\n{usage}"));
    run(&["list", "a", "b"]).told(2, &format!("one word too many: \"b\"\n{usage}"));
    let usage = "usage: tardorelga record [--hex | --lines] (FILE | --simh REEL..) N R";
    let none = |what: &str| format!("no {what} is named\n{usage}");
    run(&["record", "--simh"]).told(2, &none("reel"));
    run(&["record", "--simh", "a"]).told(2, &none("number of a file"));
    run(&["record", "--simh", "a", "1"]).told(2, &none("number of a record"));
    let number = format!("N is a number, not \"b\"\n{usage}");
    run(&["record", "--simh", "a", "b", "1"]).told(2, &number);
}

#[test]
fn odd_names_are_names() {
    let d = folder("simh-names");
    let odd = |name: &[u8]| d.join(OsString::from_vec(name.to_vec())).into_os_string();
    for name in [&b"a b"[..], b"a\nb\"\\", b"\xFF\xFE", b"-", b".", "\u{e9}".as_bytes()] {
        let name = odd(name);
        run(&["export".into(), "samples/ledger.tgi".into(), "-o".into(), name.clone()]).done();
        let mut reel = name;
        reel.push("-1.tap");
        let ran = run(&["check".into(), "--simh".into(), reel.clone()]).done();
        let accepted = ": accepted, 1 file, 1 record, 10 bytes\n";
        assert!(ran.text().ends_with(accepted) && ran.text().lines().count() == 1);
        assert_eq!(import(&[reel]).done().out, sample("ledger.tgi"));
    }
    let json = run(&["check".into(), "--json".into(), "--simh".into(), odd(b"a\nb\"\\-1.tap")]);
    assert!(json.done().text().contains(r#"a\u000ab\"\\-1.tap"],"accepted":true"#));
    let hyphen = "cd $D && $T export /dev/stdin -o -x < $OLDPWD/samples/ledger.tgi";
    shell(hyphen, &d).done();
    shell("cd $D && $T import -o - -- -x-1.tap | cmp - $OLDPWD/samples/ledger.tgi", &d).done();
}
