//! A program of the project as a user runs it, fed on standard input, and inputs for it.

use cases::ledger::set_of;
use oracle::generate::image_of;
use std::io::Write;
use std::path::Path;
use std::process::{Command, Stdio};

/// What a program writes of an input that is too long for it.
pub const TOO_LONG: &str = "refused 9 at item 0 byte 0";

/// What the program writes for this input; it ends well and complains of nothing.
#[track_caller]
pub fn written(name: &str, input: &[u8]) -> Vec<u8> {
    let program = Path::new(env!("CARGO_MANIFEST_DIR")).join("../../target/bin").join(name);
    let mut child = Command::new(&program)
        .stdin(Stdio::piped())
        .stdout(Stdio::piped())
        .stderr(Stdio::piped())
        .spawn()
        .unwrap_or_else(|trouble| panic!("{}: {trouble}; build it first", program.display()));
    // The program may stop reading behind the most bytes that it takes, and writes nothing before that.
    let _ = child.stdin.take().expect("a pipe").write_all(input);
    let output = child.wait_with_output().expect("the program ends");
    assert!(output.status.success(), "{:?}", output.status);
    assert_eq!(output.stderr, b"");
    output.stdout
}

/// A set of one record, whose image has so many bytes.
pub fn of_length(bytes: usize) -> Vec<u8> {
    let empty = image_of(&set_of("F0000100001", "00", &[])).len();
    let record = vec![b'A'; bytes - empty - 3];
    let shape = format!("F{0:05}{0:05}", record.len());
    let image = image_of(&set_of(&shape, "00", &[&record]));
    assert_eq!(image.len(), bytes);
    image
}
