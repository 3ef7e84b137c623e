//! The header and the archive as programs in C and C++ have them.

use cases::ledger::{base, base_with, set_of};
use oracle::generate::image_of;
use std::collections::BTreeSet;
use std::fs;
use std::io::Write;
use std::path::{Path, PathBuf};
use std::process::{Command, Stdio};

/// A source of this repository, compiled as this language into a program of this name.
fn compiled(source: &str, name: &str, compiler: &[&str]) -> PathBuf {
    let program = Path::new(env!("CARGO_TARGET_TMPDIR")).join(name);
    let status = Command::new(compiler[0])
        .args(&compiler[1..])
        .args(["-Wall", "-Wextra", "-Wpedantic", "-Werror", "-I"])
        .arg(root().join("include"))
        .arg(root().join(source))
        .args(["-x", "none"])
        .arg(root().join("target/staticlib/libtardorelga.a"))
        .arg("-o")
        .arg(&program)
        .status()
        .expect("a compiler");
    assert!(status.success(), "{compiler:?} compiles and links {source}");
    program
}

fn root() -> PathBuf {
    Path::new(env!("CARGO_MANIFEST_DIR")).join("../..")
}

/// What the program writes on this image, and its exit status.
fn said(program: &Path, image: &[u8]) -> (String, Option<i32>) {
    let mut child = Command::new(program)
        .stdin(Stdio::piped())
        .stdout(Stdio::piped())
        .spawn()
        .expect("the program starts");
    child.stdin.take().expect("a pipe").write_all(image).expect("the program reads");
    let output = child.wait_with_output().expect("the program ends");
    (String::from_utf8(output.stdout).expect("text"), output.status.code())
}

const HEADING: &str = "SEQ FILE              FMT RECORDS BYTES";
const TOO_SHORT: &str = "listing 0 refused 10 at item 0 byte 0";

/// What is said of every image, as the last lines.
const WRITTEN: &str =
    "written 0 refused 10 at item 0 byte 0\nwritten 448 accepted\nread back accepted\n";

/// What is said of an image of so many bytes that makes one tape file of so many; `end` is its last item.
fn converted(image: usize, tape: usize, end: u32) -> String {
    let short = "tapes 0 0 refused 10 at item 0 byte 0";
    let back = format!("back {image} same accepted\nback 0 refused 15 at item {end} byte 0");
    format!("{short}\n{short}\ntapes {tape} 1 accepted\n{back}")
}

#[track_caller]
fn says(program: &Path, image: &[u8], lines: &[&str], status: i32) {
    let lines: String = lines.iter().map(|line| format!("{line}\n")).collect();
    assert_eq!(said(program, image), (lines + WRITTEN, Some(status)));
}

fn says_what_is_due(program: &Path) {
    says_of_ledger(program);
    says_of_joined(program);
    says_of_refused(program);
}

fn says_of_ledger(program: &Path) {
    let one = ["image 0123456789", "record 2 refused 13 at item 0 byte 0"];
    let tape = converted(448, 478, 10);
    let ledger = [
        &["accepted"][..],
        &one,
        &one,
        &["row 1 260 10", "image 0123456789", "step 13", "file LEDGER F holds 1 10"],
        &[TOO_SHORT, HEADING, "0001 LEDGER            F 1 10", "rewritten 448 accepted", &tape],
    ]
    .concat();
    says(program, &image_of(&base()), &ledger, 0);
}

fn says_of_joined(program: &Path) {
    let joined = [
        "accepted",
        "record 1 refused 10 at item 0 byte 0",
        "image ",
        "record 3 refused 13 at item 0 byte 0",
        "joined ABC",
        "image ",
        "record 3 refused 13 at item 0 byte 0",
        "row 0",
        "joined ABC",
        "image ",
        "step 13",
        "file LEDGER S holds 2 3",
        TOO_SHORT,
        HEADING,
        "0001 LEDGER            S 2 3",
        "rewritten 451 accepted",
        &converted(459, 496, 11),
    ];
    let blocks: [&[u8]; 2] = [b"10007AB", b"30006C00005"];
    says(program, &image_of(&set_of("S0002000010", "00", &blocks)), &joined, 0);
}

fn says_of_refused(program: &Path) {
    // A tape file needs good framing and no more.
    let miscounted = image_of(&base_with(&[(6, 55, "000002")]));
    says_refusal(program, &miscounted, "6 at item 6 byte 55", &converted(448, 478, 10));
    let none = "tapes 0 0 refused 1 at item 0 byte 0\n".repeat(3);
    let back = "back 0 same refused 2 at item 0 byte 0";
    says_refusal(program, b"", "1 at item 0 byte 0", &(none + back));
}

#[track_caller]
fn says_refusal(program: &Path, image: &[u8], what: &str, tape: &str) {
    let refused = format!("refused {what}");
    let (record, walk) = (format!("record 1 {refused}"), format!("walk {refused}"));
    let rewritten = format!("rewritten 0 {refused}");
    let lines =
        [&refused, &record, &record, &walk, "holds 0 0", TOO_SHORT, &refused, &rewritten, tape];
    says(program, image, &lines, 1);
}

const CHECK: &str = "host/tardorelga/tests/c/check.c";

#[test]
fn a_program_in_c() {
    says_what_is_due(&compiled(CHECK, "check-c", &["gcc", "-std=c99"]));
}

#[test]
fn a_program_in_cpp() {
    says_what_is_due(&compiled(CHECK, "check-cpp", &["g++", "-std=c++11", "-x", "c++"]));
}

const ITEMS: &str = "host/tardorelga/tests/c/items.c";

const ITEMS_OF_LEDGER: &str = "\
VOL 1, 80 at 8, 0: 1 5 11 12 25 38 52 80
HDR 1, 80 at 91, 1: 1 5 22 28 32 36 40 42 48 54 55 61 74
HDR 2, 80 at 174, 1: 1 5 6 11 16 51 53
tape mark 0, 0 at 257, 2:
data block 0, 10 at 260, 2:
tape mark 0, 0 at 273, 0:
EOF 1, 80 at 276, 0: 1 5 22 28 32 36 40 42 48 54 55 61 74
EOF 2, 80 at 359, 0: 1 5 6 11 16 51 53
tape mark 0, 0 at 442, 0:
tape mark 0, 0 at 445, 0:
end of reel 0, 0 at 448, 0:
end 0, 0 at 448, 0:
file at 91 and 174
files end with 13
";

/// Without any HDR1 the place of the first is the end of the image, which goes from file to file.
const WITHOUT_FIRST_HEADER: &str = "\
VOL 1, 80 at 8, 0: 1 5 11 12 25 38 52 80
HDR 2, 80 at 91, 1: 1 5 6 11 16 51 53
HDR 2, 80 at 174, 1: 1 5 6 11 16 51 53
end 0, 0 at 254, 0:
file at 254 and 91
file at 254 and 174
files end with 13
";

fn without_first_header() -> Vec<u8> {
    let label = |name: &str| [&[0, 0, 80], format!("{name:80}").as_bytes()].concat();
    [b"TGI\0\x01".to_vec(), label("VOL1"), label("HDR2"), label("HDR2")].concat()
}

/// Items, fields and files are found without a check, in what is torn and in nothing too.
#[test]
fn items_in_c() {
    for (name, compiler) in [
        ("items-c89", &["gcc", "-std=c89", "-Wconversion"][..]),
        ("items-c11", &["gcc", "-std=c11", "-Wconversion"]),
        ("items-cpp", &["g++", "-std=c++11", "-Wconversion", "-x", "c++"]),
    ] {
        let program = compiled(ITEMS, name, compiler);
        let says =
            |image: &[u8], due: &str| assert_eq!(said(&program, image), (due.into(), Some(0)));
        says(&image_of(&base()), ITEMS_OF_LEDGER);
        says(b"", "end 0, 0 at 5, 0:\nfiles end with 13\n");
        let torn = "tape mark 0, 0 at 8, 0:\ntorn 0, 4 at 8, 0:\nfiles end with 13\n";
        says(b"TGI\0\x01\0\0\0\0\0\x02A", torn);
        says(&without_first_header(), WITHOUT_FIRST_HEADER);
    }
}

/// The header needs no other before it, in either language, and may be included twice.
#[test]
fn the_header_alone() {
    for (compiler, standard, language) in [
        ("gcc", "-std=c89", "c"),
        ("gcc", "-std=c99", "c"),
        ("gcc", "-std=c17", "c"),
        ("g++", "-std=c++11", "c++"),
        ("g++", "-std=c++20", "c++"),
    ] {
        let mut child = Command::new(compiler)
            .args([standard, "-Wall", "-Wextra", "-Wpedantic", "-Werror", "-fsyntax-only", "-I"])
            .arg(root().join("include"))
            .args(["-x", language, "-"])
            .stdin(Stdio::piped())
            .spawn()
            .expect("a compiler");
        let text = "#include \"tardorelga.h\"\n#include \"tardorelga.h\"\n";
        child.stdin.take().expect("a pipe").write_all(text.as_bytes()).expect("it reads");
        assert!(child.wait().expect("it ends").success(), "{compiler} {standard}");
    }
}

/// What the example for users prints of a file, on both streams, and its exit status.
fn example_says(program: &Path, image: &Path) -> (String, String, Option<i32>) {
    let output = Command::new(program).arg(image).output().expect("the example starts");
    let text = |bytes| String::from_utf8(bytes).expect("text");
    (text(output.stdout), text(output.stderr), output.status.code())
}

#[test]
fn the_example() {
    let example = compiled("bindings/c/example.c", "example", &["gcc", "-std=c99"]);
    let messages = "0001 MESSAGES          S 4 54\n\
                    0002 INDEX             D 2 15\n\
                    LINE OPEN\nFLOOD AT THE LOWER GATE, SEND HELP\n\nLINE CLOSED\n";
    let said = example_says(&example, &root().join("samples/messages.tgi"));
    assert_eq!(said, (messages.into(), String::new(), Some(0)));
    let refused = root().join("samples/refused-6.tgi");
    let sentence = format!("{}: refused 6 at item 6 byte 55\n", refused.display());
    assert_eq!(example_says(&example, &refused), (String::new(), sentence, Some(1)));
    let folder = example_says(&example, &root());
    assert_eq!((&folder.0[..], folder.2), ("", Some(2)));
    assert_eq!(example_says(&example, &root().join("samples/none")).2, Some(2));
    let long = Path::new(env!("CARGO_TARGET_TMPDIR")).join("too-long-for-the-example.tgi");
    fs::write(&long, vec![0; tardorelga::LONGEST_IMAGE + 1]).expect("a file");
    let sentence = format!("{}: refused 9 at item 0 byte 0\n", long.display());
    assert_eq!(example_says(&example, &long), (String::new(), sentence, Some(1)));
}

/// The constants of the header, without the front that they share.
fn constants() -> Vec<(String, String)> {
    let header = fs::read_to_string(root().join("include/tardorelga.h")).expect("the header");
    let constant = |line: &str| {
        let (name, value) = line.strip_prefix("#define TARDORELGA_")?.split_once(' ')?;
        Some((name.into(), value.split_whitespace().next()?.into()))
    };
    header.lines().filter_map(constant).collect()
}

#[track_caller]
fn constant(name: &str) -> String {
    let found: Vec<_> = constants().into_iter().filter(|(named, _)| named == name).collect();
    assert_eq!(found.len(), 1, "{name}");
    found[0].1.clone()
}

/// The functions that a text names in front of a parenthesis, or a program of symbols prints.
fn functions<'a>(words: impl Iterator<Item = &'a str>) -> BTreeSet<String> {
    words.filter(|word| word.starts_with("tardorelga_")).map(String::from).collect()
}

#[test]
fn the_header_and_the_rust_library_declare_what_the_archive_has() {
    let archive = root().join("target/staticlib/libtardorelga.a");
    let output =
        Command::new("nm").args(["-g", "--defined-only"]).arg(archive).output().expect("nm");
    let symbols = String::from_utf8(output.stdout).expect("text");
    let exported = functions(symbols.split_whitespace());
    assert!(exported.len() >= 15, "{exported:?}");
    for file in ["include/tardorelga.h", "host/tardorelga/src/ffi.rs"] {
        let text = fs::read_to_string(root().join(file)).expect("the file");
        let code = text.lines().filter(|line| !line.starts_with(" *"));
        let called = code.flat_map(|line| line.split('(').rev().skip(1));
        let declared = called.filter_map(|front| front.split_whitespace().next_back());
        assert_eq!(functions(declared), exported, "{file}");
    }
}

#[test]
fn the_version_is_that_of_the_library() {
    let version = env!("CARGO_PKG_VERSION");
    assert_eq!(constant("VERSION"), format!("\"{version}\""));
    let parts = ["MAJOR", "MINOR", "PATCH"].map(|part| constant(&format!("VERSION_{part}")));
    assert_eq!(parts.join("."), version);
}

#[test]
fn the_limits_are_those_of_the_library() {
    let limits = [
        ("LONGEST_IMAGE", tardorelga::LONGEST_IMAGE),
        ("LONGEST_RECORD", tardorelga::LONGEST_RECORD),
        ("LONGEST_LISTING", tardorelga::LONGEST_LISTING),
        ("MOST_FILES", tardorelga::MOST_FILES),
        ("MOST_REELS", tardorelga::MOST_REELS),
        ("HIGHEST_QUOTA", tardorelga::HIGHEST_QUOTA as usize),
        ("NAME", tardorelga::NAME),
        ("FILE_ENTRY", tardorelga::FILE_ENTRY),
    ];
    limits.iter().for_each(|(name, limit)| assert_eq!(constant(name), limit.to_string()));
}

#[test]
fn the_numbers_have_the_names_of_the_library() {
    let source = include_str!("../src/numbers.rs");
    let constants = source.lines().filter_map(|line| line.strip_prefix("pub const "));
    let named = constants.filter_map(|line| line.trim_end_matches(';').split_once(": u32 = "));
    let named: Vec<(&str, &str)> = named.collect();
    assert_eq!(named.len(), 16);
    named.iter().for_each(|(name, value)| assert_eq!(constant(name), *value));
}

/// Each number, kind and group has one name, and the table above the numbers has the same names.
#[test]
fn every_number_has_one_name() {
    let values = |front: &str| -> Vec<usize> {
        let named = constants().into_iter().filter(|(name, _)| name.starts_with(front));
        named.map(|(_, value)| value.parse().expect("a number")).collect()
    };
    assert!(values("KIND_").into_iter().eq(0..=12));
    assert!(values("GROUP_").into_iter().eq(0..=2));
    let header = fs::read_to_string(root().join("include/tardorelga.h")).expect("the header");
    let rows: Vec<Vec<&str>> = header
        .lines()
        .skip_while(|line| !line.contains("Numbers given back"))
        .take_while(|line| !line.starts_with("#define"))
        .map(|line| line.split_whitespace().skip(1).take(2).collect())
        .filter(|row: &Vec<&str>| row.first().is_some_and(|word| word.parse::<u32>().is_ok()))
        .collect();
    assert_eq!(rows.len(), 16);
    rows.iter().for_each(|row| assert_eq!(constant(row[1]), row[0]));
}
