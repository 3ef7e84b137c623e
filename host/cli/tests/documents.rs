//! Every example of the documents is run, and prints what the document says.
//!
//! A block "```c hello.c" is a file, a block "```console" is commands behind `$ ` and what they print.
//! The tables of label fields are compared with what the library says of each byte.

mod common;

use common::root;
use std::os::unix::fs::symlink;
use std::path::{Path, PathBuf};
use std::process::Command;
use std::{env, fs};
use tardorelga::Kind;

/// A folder outside of any other project, in which the repository's folders can be named as in its root.
fn workplace(name: &str) -> PathBuf {
    let place = env::temp_dir().join(format!("tardorelga-{name}-{}", std::process::id()));
    let _ = fs::remove_dir_all(&place);
    fs::create_dir_all(place.join("target")).unwrap();
    for folder in ["bindings", "docs", "host", "include", "samples", "target/staticlib"] {
        symlink(root().join(folder), place.join(folder)).unwrap();
    }
    place
}

/// What a command prints, on both streams.
fn printed(command: &str, place: &Path) -> String {
    let program = Path::new(env!("CARGO_BIN_EXE_tardorelga")).parent().expect("its folder");
    let path = format!("{}:{}", program.display(), env::var("PATH").unwrap_or_default());
    let output = Command::new("sh")
        .args(["-c", &format!("({command}) 2>&1")])
        .current_dir(place)
        .env("PATH", path)
        .env("LC_ALL", "C")
        .env_remove("CARGO_TARGET_DIR")
        .output()
        .expect("a shell");
    String::from_utf8(output.stdout).expect("text")
}

/// The blocks between lines of three backquotes: what stands behind the first, and the lines.
fn blocks(text: &str) -> Vec<(String, String)> {
    let parts = text.split("```").skip(1).step_by(2);
    let cut = |part: &str| part.split_once('\n').map(|(head, body)| (head.into(), body.into()));
    parts.map(|part| cut(part).expect("lines")).collect()
}

fn run_console(body: &str, place: &Path) -> usize {
    let body = format!("\n{body}");
    let examples = body.split("\n$ ").skip(1);
    for example in examples.clone() {
        let (command, said) = example.split_once('\n').unwrap_or((example, ""));
        assert_eq!(printed(command, place).trim_end(), said.trim_end(), "$ {command}");
    }
    examples.count()
}

/// Runs a document's examples, and tells how many commands there were.
fn run_document(name: &str) -> usize {
    let text = fs::read_to_string(root().join(name)).unwrap();
    let place = workplace(&name.replace('/', "-"));
    let mut commands = 0;
    for (head, body) in blocks(&text) {
        match head.split_once(' ') {
            None if head == "console" => commands += run_console(&body, &place),
            Some((_, file)) => {
                let file = place.join(file);
                fs::create_dir_all(file.parent().expect("a folder")).unwrap();
                fs::write(file, body).unwrap();
            }
            None => panic!("{name}: a block that is neither a file nor commands: {head}"),
        }
    }
    fs::remove_dir_all(&place).unwrap();
    commands
}

#[test]
fn the_examples_of_the_readme_print_what_it_says() {
    assert!(run_document("README.md") >= 15);
}

#[test]
fn the_examples_on_the_container_print_what_they_say() {
    assert!(run_document("docs/FORMAT.md") >= 20);
}

#[test]
fn the_examples_on_order_sheets_print_what_they_say() {
    assert!(run_document("docs/SHEET.md") >= 5);
}

/// A row of a table of fields: the first and the last byte, the name of the field, and what it holds.
struct Row {
    first: usize,
    last: usize,
    name: String,
    holds: String,
}

/// The tables of docs/FORMAT.md that stand behind a line with the names of labels: those names, and the rows.
fn label_tables() -> Vec<(Vec<String>, Vec<Row>)> {
    let text = fs::read_to_string(root().join("docs/FORMAT.md")).unwrap();
    let heads = text.split("\n\n").zip(text.split("\n\n").skip(1));
    let tables = heads.filter(|(_, table)| table.starts_with("| bytes | field | holds |"));
    tables.map(|(head, table)| (names(head), table.lines().skip(2).map(row).collect())).collect()
}

fn names(head: &str) -> Vec<String> {
    head.split("**").skip(1).step_by(2).map(String::from).collect()
}

fn row(line: &str) -> Row {
    let cells: Vec<&str> = line.split('|').map(str::trim).collect();
    let (first, last) = cells[1].split_once('-').unwrap_or((cells[1], cells[1]));
    let name = cells[2].split(',').next().unwrap().into();
    Row { first: first.parse().unwrap(), last: last.parse().unwrap(), name, holds: cells[3].into() }
}

/// A sample that has this label, and where the label begins in it.
fn sample_with(label: &str) -> (Vec<u8>, usize) {
    let led = [&[0, 0, 80], label.as_bytes()].concat();
    let samples = ["samples/options.tgi", "samples/messages.tgi"]
        .map(|name| fs::read(root().join(name)).unwrap());
    let found = samples.into_iter().find_map(|image| {
        let at = image.windows(led.len()).position(|bytes| bytes == led)?;
        Some((image, at + 3))
    });
    found.unwrap_or_else(|| panic!("no sample has {label}"))
}

/// The number and the byte that are answered where this byte of the label, from 1, is a letter that no field may hold.
fn answer_to_a_wrong(byte: usize, label: &str) -> (u32, u32) {
    let (mut image, at) = sample_with(label);
    image[at + byte - 1] = b'a';
    let verdict = tardorelga::check(&image);
    (verdict.number, verdict.byte)
}

#[test]
fn the_tables_of_label_fields_are_those_of_the_library() {
    let tables = label_tables();
    let labels: Vec<&String> = tables.iter().flat_map(|(names, _)| names).collect();
    assert_eq!(labels, ["VOL1", "HDR1", "EOV1", "EOF1", "HDR2", "EOV2", "EOF2", "UHL", "UTL"]);
    for (names, rows) in &tables {
        let ends =
            rows.iter().fold(1, |next, row| if row.first == next { row.last + 1 } else { 0 });
        assert_eq!(ends, 81, "{names:?}: the fields follow each other from byte 1 to byte 80");
        for (label, row) in names.iter().flat_map(|name| rows.iter().map(move |row| (name, row))) {
            let expected = match (row.first, &row.holds[..]) {
                (1, _) => (3, 0),
                (_, "any bytes") => (0, 0),
                (first, _) => (4, first as u32),
            };
            for byte in row.first..=row.last {
                assert_eq!(answer_to_a_wrong(byte, label), expected, "{label} byte {byte}");
            }
        }
    }
}

/// The kind of a label by its name.
fn kind(label: &str) -> Kind {
    let kinds = [Kind::Vol(1), Kind::Uhl, Kind::Utl].into_iter();
    let of_files = |number| [Kind::Hdr(number), Kind::Eov(number), Kind::Eof(number)];
    let mut kinds = kinds.chain(of_files(1)).chain(of_files(2));
    kinds.find(|kind| kind.to_string() == label).expect("a label with fields")
}

#[test]
fn the_fields_have_the_names_that_the_program_prints() {
    for (names, rows) in label_tables() {
        for label in names {
            let printed = tardorelga::fields(kind(&label)).map(|field| field.name);
            assert!(printed.eq(rows.iter().map(|row| &row.name[..])), "{label}");
        }
    }
}

#[test]
fn the_characters_that_a_label_may_hold_are_those_of_the_library() {
    let text = fs::read_to_string(root().join("docs/FORMAT.md")).unwrap();
    let listed = text.split("SPACE first: ``").nth(1).and_then(|rest| rest.split("``").next());
    let mut listed: Vec<u8> = listed.expect("the list").into();
    listed.sort();
    let (image, at) = sample_with("VOL1");
    let is_taken = |byte: &u8| {
        let mut image = image.clone();
        image[at + 37] = *byte;
        tardorelga::check(&image).number == 0
    };
    assert_eq!(listed, (0..=255).filter(is_taken).collect::<Vec<u8>>());
}
