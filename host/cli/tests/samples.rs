//! The samples, and what the program says of them.

mod common;

use common::{expected, fed, names_in, root, run};
use std::fs;
use std::process::Command;

#[test]
fn each_image_is_as_its_description_says() {
    let make = Command::new("python3").arg(root().join("samples/make.py")).arg("--check").status();
    assert!(make.expect("python3").success());
}

#[test]
fn each_image_has_its_expected_answer_and_no_other_is_there() {
    let expected = expected();
    let there = names_in(&root().join("samples"));
    let images: Vec<&String> = there.iter().filter(|name| name.ends_with(".tgi")).collect();
    assert_eq!(images, expected.iter().map(|(name, _)| name).collect::<Vec<_>>());
    for (name, answer) in expected {
        let file = format!("samples/{name}");
        let ran = run(&["check", &file]);
        let is_accepted = answer.starts_with("accepted");
        let said = format!("{file}: {answer}{}", if is_accepted { "\n" } else { ": " });
        assert!(ran.text().starts_with(&said) && ran.text().lines().count() == 1, "{}", ran.text());
        assert_eq!(ran.status, Some(if is_accepted { 0 } else { 1 }), "{name}");
        assert_eq!(ran.err, "", "{name}");
    }
}

#[test]
fn a_sample_is_refused_with_each_number_of_reading() {
    for number in 1..=9 {
        let refused = format!("refused {number} at ");
        assert!(expected().iter().any(|(_, answer)| answer.starts_with(&refused)), "{number}");
    }
}

#[test]
fn several_files_give_a_line_each_and_the_worst_status() {
    let both = run(&["check", "samples/ledger.tgi", "samples/refused-6.tgi"]);
    assert_eq!(
        both.text(),
        "samples/ledger.tgi: accepted, 1 file, 1 record, 10 bytes\n\
         samples/refused-6.tgi: refused 6 at item 6 byte 55: labels, counts or names do not agree \
         with each other: the block count of EOF1\n"
    );
    assert_eq!(both.status, Some(1));
    let trouble = run(&["check", "samples/refused-6.tgi", "nowhere", "samples/ledger.tgi"]);
    assert_eq!(trouble.text().lines().count(), 2);
    assert_eq!(trouble.err, "tardorelga: nowhere: No such file or directory\n");
    assert_eq!(trouble.status, Some(2));
}

#[test]
fn check_gives_json_a_line_a_file() {
    let words = ["check", "--json", "samples/messages.tgi", "samples/refused-4.tgi", "no\"where"];
    let ran = run(&words);
    assert_eq!(
        ran.text(),
        "{\"file\":\"samples/messages.tgi\",\"accepted\":true,\"files\":2,\"records\":6,\"bytes\":69}\n\
         {\"file\":\"samples/refused-4.tgi\",\"accepted\":false,\"number\":4,\"item\":1,\"byte\":42,\
         \"words\":\"a label field has a wrong content\",\"label\":\"HDR1\",\"field\":\"creation date\"}\n\
         {\"file\":\"no\\\"where\",\"trouble\":\"No such file or directory\"}\n"
    );
    assert_eq!(ran.status, Some(2));
}

#[test]
fn records_come_raw_in_hexadecimal_or_as_lines() {
    let messages = "LINE OPEN\nFLOOD AT THE LOWER GATE, SEND HELP\n\nLINE CLOSED\n";
    let lines = run(&["records", "--lines", "samples/messages.tgi", "1"]).done();
    assert_eq!(lines.text(), messages);
    let raw = run(&["records", "samples/messages.tgi", "1"]).done();
    assert_eq!(raw.text(), messages.replace('\n', ""));
    let hex = run(&["records", "samples/messages.tgi", "2", "--hex"]).done();
    assert_eq!(hex.text(), "4e49474854205348494654\n444f4e45\n");
}

#[test]
fn one_record_comes_by_its_number() {
    let joined = run(&["record", "samples/messages.tgi", "1", "2"]).done();
    assert_eq!(joined.text(), "FLOOD AT THE LOWER GATE, SEND HELP");
    let empty = run(&["record", "samples/messages.tgi", "1", "3", "--lines"]).done();
    assert_eq!(empty.text(), "\n");
    let padded = run(&["record", "--hex", "samples/options.tgi", "2", "3"]).done();
    assert_eq!(padded.text(), "464f475e5e5e\n", "circumflexes of a record are its own");
}

#[test]
fn what_is_not_there_is_refused() {
    let none = "samples/messages.tgi: refused 13: there is no such file or record";
    let files = format!("{none}: the set has 2 files, counted from 1");
    let records = format!("{none}: file 1 has 4 records, counted from 1");
    for number in ["5", "0", "18446744073709551615"] {
        run(&["record", "samples/messages.tgi", "1", number]).told(1, &records);
        run(&["record", "samples/messages.tgi", number, "1"]).told(1, &files);
        run(&["records", "samples/messages.tgi", number]).told(1, &files);
    }
    let own = "samples/refused-6.tgi: refused 6 at item 6 byte 55: \
               labels, counts or names do not agree with each other: the block count of EOF1";
    run(&["records", "samples/refused-6.tgi", "9"]).told(1, own);
}

#[test]
fn a_file_without_records_prints_nothing() {
    assert_eq!(run(&["records", "--lines", "samples/options.tgi", "3"]).done().out, b"");
}

#[test]
fn a_hand_written_sheet_gives_the_image_it_orders() {
    let packed = run(&["pack", "samples/ledger.sheet", "-o", "-"]).done();
    assert_eq!(packed.out, fs::read(root().join("samples/ledger.tgi")).unwrap());
    let packed = run(&["pack", "samples/harbour.sheet", "-o", "-"]).done();
    let ships = fed(&["records", "--lines", "-", "1"], &packed.out).done();
    assert_eq!(ships.out, fs::read(root().join("samples/ships.txt")).unwrap());
    let signals = fed(&["records", "--lines", "-", "2"], &packed.out).done();
    assert_eq!(signals.out, b"ALL SHIPS KEEP CLEAR OF THE NORTH MOLE\n\x00\xFF^\n");
}
