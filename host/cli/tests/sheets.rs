//! Order sheets as texts: what may stand on them, and how a wrong line is told.

mod common;

use common::{fed, folder, names_in, run, shell};
use std::fs;

const HEAD: &str = "set SET001\nquota 9\nreel GATE01\n";
const FILE: &str = "file LEDGER\nformat D\nblock-length 40\nrecord-length 30\n";

const CHARACTERS: &str =
    "capital letters, digits, SPACE and ! \" % & ' ( ) * + , - . / : ; < = > ? _";

/// The records of file 1 in hexadecimal, of a set packed from this sheet in a folder with these files.
fn packed(test: &str, sheet: &str, files: &[(&str, &[u8])]) -> String {
    let d = folder(test);
    for (name, bytes) in files {
        fs::write(d.join(name), bytes).unwrap();
    }
    fs::write(d.join("sheet"), sheet).unwrap();
    let image = run(&["pack", d.join("sheet").to_str().unwrap(), "-o", "-"]).done().out;
    fed(&["records", "--hex", "-", "1"], &image).done().text().replace('\n', " ")
}

/// The sentence on a sheet that stands on standard input.
fn wrong(status: i32, sheet: &str, sentence: &str) {
    fed(&["pack", "-", "-o", "-"], sheet.as_bytes())
        .told(status, &format!("standard input: {sentence}"));
}

#[test]
fn records_stand_on_the_sheet_as_text_or_in_hexadecimal() {
    let lines = "text A B\ntext\t [ A ]\r\n text []\ntext [[A]]\ntext\nhex 00 fFa0\nhex\n# none\n";
    let sheet = format!("{HEAD}{FILE}{lines}");
    assert_eq!(packed("inline", &sheet, &[]), "412042 204120  5b415d  00ffa0  ");
}

#[test]
fn records_stand_in_files_in_every_form_one_behind_the_other() {
    let lines =
        "lines a.txt\nhex-lines [b hex]\ndata [c d] each 2\ntext E\ndata f lengths f.lengths\n";
    let files: &[(&str, &[u8])] = &[
        ("a.txt", b"A\n\nB\r"),
        ("b hex", b"00\n\n01 02\n"),
        ("c d", b"CCDD"),
        ("f", b"FGGHHH"),
        ("f.lengths", b"1\n0 x 2\n2\n3x1\n"),
    ];
    let sheet = format!("{HEAD}{FILE}{lines}");
    assert_eq!(packed("files", &sheet, files), "41  420d 00  0102 4343 4444 45 46   4747 484848 ");
}

#[test]
fn fields_are_filled_up_to_their_width() {
    let fields = "file [ A  ]\ngeneration 7\nversion 3\ncreated 85335\nexpires 000000\n\
                  format F\nblock-length 9\nrecord-length 9\n";
    let sheet = format!("set S\nquota 1\nreel [ R]\n{fields}text 123456789\n");
    let image = fed(&["pack", "-", "-o", "-"], sheet.as_bytes()).done().out;
    let text = String::from_utf8_lossy(&image);
    assert!(text.contains("VOL1 R    "));
    assert!(text.contains("HDR1 A               S     00010001000703 85335000000"));
    assert!(text.contains("HDR2F0000900009"));
}

#[test]
fn a_line_that_has_no_meaning_is_named() {
    let words =
        "expected one of set, quota, reel, file, generation, version, created, expires, format, \
                 block-length, record-length, text, hex, lines, hex-lines, data";
    wrong(1, "set SET001\n\n# x\nreal GATE01\n", &format!("line 4: {words}; found \"real\""));
    wrong(1, "file\n", "line 1: expected 1 to 17 characters behind 'file'");
    wrong(1, "set TOOLONG\n", "line 1: expected 1 to 6 characters behind 'set'");
    wrong(1, "quota many\n", "line 1: expected a number behind 'quota'");
    wrong(1, "quota +1\n", "line 1: expected a number behind 'quota'");
    wrong(1, "set A\nset B\n", "line 2: expected 'set' once; line 1 has it");
    wrong(1, "quota 1\nquota 1\n", "line 2: expected 'quota' once; line 1 has it");
    wrong(1, "text A\n", "line 1: expected a 'file' line before 'text'");
    wrong(1, "format F\n", "line 1: expected a 'file' line before 'format'");
    wrong(1, "reel A\n", "at the end: expected a 'set' line");
    wrong(1, "set A\n", "at the end: expected a 'quota' line");
}

#[test]
fn a_wrong_field_is_named() {
    let sheet = |line: &str| format!("{HEAD}{FILE}{line}\n");
    let number = "expected a number of at most";
    wrong(1, &sheet("version 100"), &format!("line 8: {number} 2 digits behind 'version'"));
    wrong(1, &sheet("generation x"), &format!("line 8: {number} 4 digits behind 'generation'"));
    let date = "expected a date behind 'created': two digits of the year, three of the day";
    wrong(1, &sheet("created 1985-12-01"), &format!("line 8: {date}"));
    wrong(1, &sheet("format S"), "line 8: expected 'format' once a file; line 5 has it");
    wrong(1, &sheet("reel GATE02"), "line 8: expected 'reel' before the first file");
    wrong(
        1,
        &format!("{HEAD}file A\nformat F\n"),
        "line 4: expected a 'block-length' line for this file",
    );
    wrong(1, &format!("{HEAD}file A\n{FILE}"), "line 4: expected a 'format' line for this file");
}

#[test]
fn wrong_records_are_named() {
    let sheet = |line: &str| format!("{HEAD}{FILE}{line}\n");
    wrong(1, &sheet("hex 0"), "line 8: expected pairs of hexadecimal digits");
    wrong(1, &sheet("hex 0g"), "line 8: expected pairs of hexadecimal digits");
    wrong(1, &sheet("lines"), "line 8: expected the name of a file");
    wrong(1, &sheet("lines a\0b"), "line 8: expected the name of a file");
    let none = "expected a file that can be read; none: No such file or directory";
    wrong(2, &sheet("lines none"), &format!("line 8: {none}"));
    let data = "line 8: expected NAME each LENGTH, or NAME lengths NAME, behind 'data'";
    for line in ["data", "data Cargo.toml", "data README.md each", "data README.md by 3"] {
        wrong(1, &sheet(line), data);
    }
    let odd = "expected whole records of 5 bytes; samples/ledger.tgi has 448 bytes";
    wrong(1, &sheet("data samples/ledger.tgi each 5"), &format!("line 8: {odd}"));
    let none = "expected 1 or more behind 'each'; a file of lengths can say 0";
    wrong(1, &sheet("data samples/ledger.tgi each 0"), &format!("line 8: {none}"));
}

#[test]
fn lengths_that_do_not_add_up_are_named() {
    let d = folder("lengths");
    fs::write(d.join("data"), "12345").unwrap();
    let all = "expected lengths of 5 bytes in all, as data has";
    let cases = [
        ("2\n2\n", format!("{all}; lengths leaves 1 over")),
        ("2\n4\n", format!("{all}; they pass it on line 2 of lengths")),
        ("9 x 4611686018427387904\n", format!("{all}; they pass it on line 1 of lengths")),
        ("5\n0 x 99999999\n", "expected at most 16777216 records on a sheet".into()),
        ("5\nx\n", "expected LENGTH or LENGTH x COUNT on line 2 of lengths".into()),
        ("-5\n", "expected LENGTH or LENGTH x COUNT on line 1 of lengths".into()),
    ];
    fs::write(d.join("sheet"), format!("{HEAD}{FILE}data data lengths lengths\n")).unwrap();
    for (lengths, what) in cases {
        fs::write(d.join("lengths"), lengths).unwrap();
        let sentence = format!("{}/sheet: line 8: {what}", d.display());
        shell("$T pack $D/sheet -o $D/out", &d).told(1, &sentence);
    }
    assert_eq!(names_in(&d), ["data", "lengths", "sheet"]);
}

#[test]
fn an_illegal_line_is_found_by_asking_the_library() {
    let illegal = |sheet: String, what: &str| {
        wrong(1, &sheet, &format!("refused 11: the order sheet is illegal: {what}"));
    };
    let with = |old: &str, new: &str| format!("{HEAD}{FILE}text A\n").replace(old, new);
    let held = |what: &str| format!("expected {what} that a label can hold: {CHARACTERS}");
    illegal(with("SET001", "set001"), &format!("line 1: {}", held("a set identifier")));
    illegal(with("quota 9", "quota 0"), "line 2: expected a quota of 1 to 999999");
    illegal(with("quota 9", "quota 1000000"), "line 2: expected a quota of 1 to 999999");
    illegal(with("GATE01", "gate01"), &format!("line 3: {}", held("a reel name")));
    let above = "expected a reel name that no line above has";
    illegal(with("file", "reel GATE01\nfile"), &format!("line 4: {above}"));
    illegal(with("reel GATE01\n", ""), "at the end: expected a 'reel' line");
    illegal(HEAD.into(), "at the end: expected a 'file' line");
    let value = |line: usize, key: &str, good: &str| {
        format!("line {line}: expected a value that a label can hold behind '{key}': {good}")
    };
    illegal(with("LEDGER", "ledger"), &value(4, "file", CHARACTERS));
    illegal(with("text", "generation 0\ntext"), &value(8, "generation", "1 to 9999"));
    let date = "a year, and a day of 001 to 366; or 00000 for no date";
    illegal(with("text", "expires 85367\ntext"), &value(8, "expires", date));
    illegal(with("format D", "format V"), &value(5, "format", "F, D or S"));
    illegal(with("length 40", "length 0"), &value(6, "block-length", "1 to 99999"));
    let suit = "expected format, block length and record length to suit each other: for F 1 to the \
                block length, for D 5 to the block length, for S 1 or more with a block length of 6 \
                or more";
    illegal(with("length 30", "length 41"), &format!("line 7: {suit}"));
    illegal(with("length 30", "length 4"), &format!("line 7: {suit}"));
    let records = "expected records that the file's format and record length allow";
    let long = "text 123456789012345678901234567";
    illegal(
        with("text A", &format!("text A\n{long}\ntext B")),
        &format!("line 9: {records}; number 1 of this line has 27 bytes"),
    );
    let second =
        format!("text A\n{FILE}lines samples/ships.txt\n").replace("length 30", "length 28");
    illegal(
        with("text A\n", &second),
        &format!("line 13: {records}; number 2 of this line has 25 bytes"),
    );
}
