//! What `check` says: numbers in words, folders and their totals, and nothing where it is to be quiet.

mod common;

use common::{folder, in_json, names_in, root, run, shell, terminal, Ran};
use std::fs;
use std::os::unix::fs::symlink;
use std::path::Path;
use std::sync::mpsc;
use std::thread;
use std::time::Duration;

/// What `check` says behind the place of each refused sample.
const WORDS: [&str; 9] = [
    "this is no image of a tape set",
    "an item is torn, or there are not 1 to 16 reels with an end each",
    "an item stands where the order of a reel forbids it",
    "a label field has a wrong content: the creation date of HDR1 must be a date (SPACE or 0, year, day)",
    "access to the volume or file is restricted: the accessibility of HDR1",
    "labels, counts or names do not agree with each other: the block count of EOF1",
    "a data block is too long, or cannot be cut into records",
    "the segments of a record are out of turn or have no end, or it is too long",
    "over a limit: 16777215 bytes, 64 files, 16 reels",
];

#[test]
fn a_refusal_is_said_in_words_and_as_other_commands_say_it() {
    for (words, number) in WORDS.iter().zip(1..) {
        let file = format!("samples/refused-{number}.tgi");
        let check = run(&["check", &file]);
        assert!(check.text().starts_with(&format!("{file}: refused {number} at item ")));
        assert!(check.text().ends_with(&format!(": {words}\n")), "{}", check.text());
        let records = run(&["records", &file, "1"]);
        assert_eq!(records.err, format!("tardorelga: {}", check.text()));
        assert_eq!((check.status, check.err), (Some(1), String::new()));
    }
}

/// Nothing is torn where a set has a reel too many, and a block that is too long can be cut.
#[test]
fn a_sentence_is_true_of_each_fault_of_its_number() {
    let d = folder("check-sentences");
    let image = fs::read(root().join("samples/ledger.tgi")).unwrap();
    let (head, reel) = image.split_at(5);
    fs::write(d.join("reels.tgi"), [head, &reel.repeat(17)].concat()).unwrap();
    let block = reel.windows(3).position(|length| length == [0, 0, 10]).unwrap();
    let (before, behind) = (&reel[..block], &reel[block + 13..]);
    let long = [&[0, 0, 30], &b"0123456789".repeat(3)[..]].concat();
    fs::write(d.join("block.tgi"), [head, before, &long, behind].concat()).unwrap();
    let said = lines(&shell("$T check $D/reels.tgi $D/block.tgi", &d), &d);
    let reels = format!("reels.tgi: refused 2 at item 176 byte 0: {}", WORDS[1]);
    let block = format!("block.tgi: refused 7 at item 4 byte 0: {}", WORDS[6]);
    assert_eq!(said, [reels, block]);
    assert!(WORDS[1].contains("16 reels") && WORDS[6].contains("too long"));
}

#[test]
fn what_a_block_count_must_be_is_told_for_its_label() {
    let d = folder("check-count");
    let image = fs::read(root().join("samples/ledger.tgi")).unwrap();
    for (item, label, holds) in [(1, b"HDR1", "ZEROs"), (6, b"EOF1", "digits")] {
        let mut image = image.clone();
        let at = image.windows(4).position(|name| name == label).unwrap();
        image[at + 54] = b'X';
        fs::write(d.join("a.tgi"), image).unwrap();
        let what = "a label field has a wrong content: the block count of";
        let (place, label) = (format!("item {item} byte 55"), String::from_utf8_lossy(label));
        let line = format!("a.tgi: refused 4 at {place}: {what} {label} must be {holds}");
        assert_eq!(lines(&shell("$T check $D/a.tgi", &d), &d), [line]);
    }
}

#[test]
fn json_has_the_words_and_the_field() {
    let ran = run(&["check", "--json", "samples/refused-6.tgi"]);
    assert_eq!(
        ran.text(),
        "{\"file\":\"samples/refused-6.tgi\",\"accepted\":false,\"number\":6,\"item\":6,\"byte\":55,\
         \"words\":\"labels, counts or names do not agree with each other\",\
         \"label\":\"EOF1\",\"field\":\"block count\"}\n"
    );
    let torn = run(&["check", "--json", "samples/refused-2.tgi"]);
    assert_eq!(in_json(&torn.out, "v['words']"), WORDS[1]);
    assert_eq!(in_json(&torn.out, "'label' in v or 'field' in v"), "False");
}

fn copy(sample: &str, to: &Path) {
    fs::copy(root().join("samples").join(sample), to).unwrap();
}

/// The lines on standard output, without the folder's name.
fn lines(ran: &Ran, folder: &Path) -> Vec<String> {
    let before = format!("{}/", folder.display());
    ran.text().lines().map(|line| line.replace(&before, "")).collect()
}

const LEDGER: &str = "accepted, 1 file, 1 record, 10 bytes";

#[test]
fn folders_are_checked_in_the_order_of_names_with_totals_at_the_end() {
    let d = folder("check-folders");
    fs::create_dir_all(d.join("m/deep.tgi")).unwrap();
    for name in ["b.tgi", "A.TGI", "m/x.Tgi", "m/deep.tgi/.tgi", "z.tgi", "plain"] {
        copy("ledger.tgi", &d.join(name));
    }
    copy("refused-6.tgi", &d.join("m/a.tgi"));
    fs::write(d.join("notes.tgi.txt"), "no image").unwrap();
    let ran = run(&["check", "-r", d.to_str().unwrap()]);
    let refused = format!("m/a.tgi: refused 6 at item 6 byte 55: {}", WORDS[5]);
    let expected = [
        &format!("A.TGI: {LEDGER}"),
        &format!("b.tgi: {LEDGER}"),
        &refused,
        &format!("m/deep.tgi/.tgi: {LEDGER}"),
        &format!("m/x.Tgi: {LEDGER}"),
        &format!("z.tgi: {LEDGER}"),
        "total: 6 sets, 5 accepted, 1 refused, 0 unread; 2 other files not looked at",
    ];
    assert_eq!(lines(&ran, &d), expected);
    assert_eq!((ran.status, &ran.err[..]), (Some(1), ""));
    let plain = d.join("plain");
    let words =
        ["check", "-r", plain.to_str().unwrap(), d.join("m").to_str().unwrap()].map(String::from);
    let named = run(&words);
    assert_eq!(lines(&named, &d)[0], format!("plain: {LEDGER}"), "what is named is checked");
    assert_eq!(
        lines(&named, &d)[4],
        "total: 4 sets, 3 accepted, 1 refused, 0 unread; 0 other files not looked at"
    );
}

#[test]
fn links_to_files_are_followed_and_links_to_folders_are_not() {
    let d = folder("check-links");
    fs::create_dir(d.join("in")).unwrap();
    copy("ledger.tgi", &d.join("far"));
    symlink(d.join("far"), d.join("in/near.tgi")).unwrap();
    symlink(&d, d.join("in/loop")).unwrap();
    symlink(&d, d.join("in/loop.tgi")).unwrap();
    symlink(d.join("none"), d.join("in/lost")).unwrap();
    let ran = run(&["check", "-r", d.join("in").to_str().unwrap()]).done();
    let total = "total: 1 set, 1 accepted, 0 refused, 0 unread; 3 other files not looked at";
    assert_eq!(lines(&ran, &d), [&format!("in/near.tgi: {LEDGER}"), total]);
    symlink(d.join("in"), d.join("named")).unwrap();
    let named = run(&["check", "-r", d.join("named").to_str().unwrap()]).done();
    assert_eq!(lines(&named, &d), [&format!("named/near.tgi: {LEDGER}"), total]);
}

#[test]
fn what_cannot_be_read_is_told_and_counted() {
    let d = folder("check-unread");
    copy("ledger.tgi", &d.join("a.tgi"));
    symlink("nowhere", d.join("b.tgi")).unwrap();
    shell("mkfifo $D/c.tgi", &d).done();
    let ran = run(&["check", "-r", d.to_str().unwrap()]);
    let total = "total: 2 sets, 1 accepted, 0 refused, 1 unread; 1 other file not looked at";
    assert_eq!(lines(&ran, &d), [&format!("a.tgi: {LEDGER}"), total]);
    let said = format!("tardorelga: {}/b.tgi: No such file or directory\n", d.display());
    assert_eq!((&ran.err, ran.status), (&said, Some(2)));
    let json = run(&["check", "-r", "--json", d.to_str().unwrap()]);
    let last = json.text().lines().last().unwrap();
    assert_eq!(last, r#"{"total":{"sets":2,"accepted":1,"refused":0,"unread":1,"others":1}}"#);
    assert_eq!(json.text().lines().count(), 3);
}

/// Nobody can read a folder whose name is too long to be said, whatever their rights.
#[test]
fn a_folder_that_cannot_be_read_is_told_and_counted() {
    let d = folder("check-deep");
    let down = "import os; [(os.mkdir('d' * 250), os.chdir('d' * 250)) for _ in range(20)]";
    shell(&format!("cd $D && python3 -c \"{down}\""), &d).done();
    copy("ledger.tgi", &d.join("z.tgi"));
    let ran = run(&["check", "-r", d.to_str().unwrap()]);
    let total = "total: 2 sets, 1 accepted, 0 refused, 1 unread; 0 other files not looked at";
    assert_eq!(lines(&ran, &d), [&format!("z.tgi: {LEDGER}"), total]);
    assert!(ran.err.ends_with(": File name too long\n") && ran.err.lines().count() == 1);
    assert_eq!(ran.status, Some(2));
    fs::remove_dir_all(&d).unwrap();
}

#[test]
fn a_folder_without_images_does_not_pass_for_a_good_one() {
    let d = folder("check-none");
    fs::write(d.join("notes"), "").unwrap();
    let ran = run(&["check", "-r", d.to_str().unwrap()]);
    let total = "total: 0 sets, 0 accepted, 0 refused, 0 unread; 1 other file not looked at\n";
    let said = "tardorelga: nothing was checked: no file there is named *.tgi\n";
    assert_eq!((ran.text(), &ran.err[..], ran.status), (total, said, Some(2)));
    let gone = d.join("gone");
    let words = ["check", "-r", "--quiet", gone.to_str().unwrap()];
    run(&words).told(2, &format!("{}: No such file or directory", gone.display()));
    assert_eq!(names_in(&d), ["notes"]);
}

#[test]
fn a_folder_wants_a_word_of_its_own() {
    let why = "Is a directory; -r checks the images below it";
    run(&["check", "samples"]).told(2, &format!("samples: {why}"));
    let json = run(&["check", "--json", "samples"]);
    assert_eq!(json.text(), format!("{{\"file\":\"samples\",\"trouble\":\"{why}\"}}\n"));
}

#[test]
fn quiet_leaves_it_to_the_exit_status() {
    let quiet = |file: &str| run(&["check", "--quiet", file]);
    assert_eq!(quiet("samples/ledger.tgi").done().out, b"");
    let refused = quiet("samples/refused-6.tgi");
    assert_eq!((refused.status, refused.text(), &refused.err[..]), (Some(1), "", ""));
    quiet("none").told(2, "none: No such file or directory");
    let folder_of_samples = run(&["check", "--quiet", "-r", "samples"]);
    assert_eq!((folder_of_samples.status, folder_of_samples.text()), (Some(1), ""));
    shell("$T check --quiet samples/ledger.tgi >&-", &folder("check-quiet")).done();
}

#[test]
fn words_that_exclude_each_other_are_told() {
    let usage = "usage: tardorelga check [-r] [--json | --quiet] (FILE.. | --simh REEL..)";
    let both = format!("--json and --quiet exclude each other\n{usage}");
    run(&["check", "--json", "--quiet", "x"]).told(2, &both);
    let both = format!("-r and --simh exclude each other\n{usage}");
    run(&["check", "-r", "--simh", "x"]).told(2, &both);
}

/// The second set is standard input, which stays open until the first line was seen, or for too long.
#[test]
fn each_line_is_on_the_terminal_as_soon_as_its_set_is_checked() {
    let mut shown = terminal::start(&["check", "samples/ledger.tgi", "-"], &[]);
    let input = shown.child.stdin.take();
    let (seen, wait) = mpsc::channel();
    let holder = thread::spawn(move || {
        let was_seen = wait.recv_timeout(Duration::from_secs(30)).is_ok();
        drop(input);
        was_seen
    });
    assert_eq!(shown.glance(), format!("samples/ledger.tgi: {LEDGER}\n"));
    let _ = seen.send(());
    assert!(holder.join().unwrap(), "the line came only when all was checked");
    assert_eq!(shown.text(), format!("-: refused 1 at item 0 byte 0: {}\n", WORDS[0]));
}
