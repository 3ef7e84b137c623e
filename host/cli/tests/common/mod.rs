//! Runs the built program as a user does, from the root of the repository.
#![allow(dead_code)]

pub mod terminal;

use std::ffi::{OsStr, OsString};
use std::fs::{self, Permissions};
use std::io::Write;
use std::os::unix::fs::{chown, MetadataExt, PermissionsExt};
use std::path::{Path, PathBuf};
use std::process::{Command, Stdio};

/// What a run left behind.
#[derive(Debug)]
pub struct Ran {
    pub status: Option<i32>,
    pub out: Vec<u8>,
    pub err: String,
}

impl Ran {
    pub fn text(&self) -> &str {
        std::str::from_utf8(&self.out).expect("text")
    }

    /// Done, without a word on standard error.
    pub fn done(self) -> Ran {
        assert_eq!((self.status, &self.err[..]), (Some(0), ""));
        self
    }

    /// Ended with this status, one sentence and no output.
    pub fn told(self, status: i32, sentence: &str) {
        let said = format!("tardorelga: {sentence}\n");
        assert_eq!((self.status, self.err, self.out.len()), (Some(status), said, 0));
    }
}

pub fn root() -> PathBuf {
    Path::new(env!("CARGO_MANIFEST_DIR")).join("../..").canonicalize().expect("the repository")
}

/// An empty folder of the test's own.
pub fn folder(name: &str) -> PathBuf {
    let folder = Path::new(env!("CARGO_TARGET_TMPDIR")).join(name);
    let _ = fs::remove_dir_all(&folder);
    fs::create_dir_all(&folder).expect("a folder");
    folder
}

pub fn names_in(folder: &Path) -> Vec<String> {
    let name =
        |entry: std::io::Result<fs::DirEntry>| entry.unwrap().file_name().into_string().unwrap();
    let mut names: Vec<String> = fs::read_dir(folder).unwrap().map(name).collect();
    names.sort();
    names
}

pub fn lines_of(file: &Path) -> Vec<String> {
    fs::read_to_string(file).expect("a text").lines().map(String::from).collect()
}

/// The bytes of a file among the samples.
pub fn sample(name: &str) -> Vec<u8> {
    fs::read(root().join("samples").join(name)).expect("a sample")
}

/// Runs the program with these words and nothing on standard input.
pub fn run<W: AsRef<OsStr>>(words: &[W]) -> Ran {
    fed(words, b"")
}

pub fn fed<W: AsRef<OsStr>>(words: &[W], input: &[u8]) -> Ran {
    let mut command = Command::new(env!("CARGO_BIN_EXE_tardorelga"));
    command.args(words);
    ran(command, input)
}

/// Runs a line of the shell, to which the program is `$T` and a folder `$D`.
pub fn shell(line: &str, folder: &Path) -> Ran {
    let mut command = Command::new("sh");
    command.args(["-c", line]).env("T", env!("CARGO_BIN_EXE_tardorelga")).env("D", folder);
    ran(command, b"")
}

/// Runs the program so many times at once.
pub fn at_once(times: usize, words: &[&str]) -> Vec<Ran> {
    std::thread::scope(|scope| {
        let runs: Vec<_> = (0..times).map(|_| scope.spawn(|| run(words))).collect();
        runs.into_iter().map(|run| run.join().expect("a run")).collect()
    })
}

fn ran(mut command: Command, input: &[u8]) -> Ran {
    command.current_dir(root()).env("LC_ALL", "C");
    command.stdin(Stdio::piped()).stdout(Stdio::piped()).stderr(Stdio::piped());
    let mut child = command.spawn().expect("the program");
    let mut stdin = child.stdin.take().expect("its input");
    let input = input.to_vec();
    // The program may end without reading all of it.
    let feeder = std::thread::spawn(move || drop(stdin.write_all(&input)));
    let output = child.wait_with_output().expect("its output");
    feeder.join().expect("fed");
    let err = String::from_utf8(output.stderr).expect("text");
    Ran { status: output.status.code(), out: output.stdout, err }
}

/// The samples and what `check` says of each, from samples/expected.txt.
pub fn expected() -> Vec<(String, String)> {
    let table = fs::read_to_string(root().join("samples/expected.txt")).expect("the table");
    let rows = table.lines().filter(|line| !line.starts_with('#'));
    let row =
        |line: &str| line.split_once(' ').map(|(name, answer)| (name.into(), answer.trim().into()));
    rows.map(|line| row(line).expect("a name and an answer")).collect()
}

/// What the program says of a torn reel.
pub const TORN: &str =
    "no good record, tape mark or end of the medium stands there, or bytes follow the end";

/// The files `NAME-1.tap` and so on, as many as there are.
pub fn reels_named(name: &Path) -> Vec<PathBuf> {
    let path = |number| PathBuf::from(format!("{}-{number}.tap", name.display()));
    (1..).map(path).take_while(|path| path.exists()).collect()
}

/// Imports reels, with the image on standard output.
pub fn import<R: AsRef<OsStr>>(reels: &[R]) -> Ran {
    let mut words: Vec<OsString> = vec!["import".into(), "-o".into(), "-".into()];
    words.extend(reels.iter().map(|reel| reel.as_ref().into()));
    run(&words)
}

/// A folder in which nobody can make a file, be it the owner of the system.
pub fn unwritable(folder: &Path) -> PathBuf {
    fs::set_permissions(folder, Permissions::from_mode(0o555)).expect("a folder of ours");
    let probe = folder.join("probe");
    match fs::write(&probe, "") {
        Ok(()) => {
            fs::remove_file(probe).expect("the probe");
            "/sys".into()
        }
        Err(_) => folder.into(),
    }
}

pub fn mode(path: &Path) -> u32 {
    fs::metadata(path).expect("a file").mode() & 0o7777
}

/// User and group of a file or folder.
pub fn owner_of(path: &Path) -> (u32, u32) {
    let there = fs::metadata(path).expect("a file");
    (there.uid(), there.gid())
}

/// Gives a file or folder another owner, where that may be done, and tells whose it is now.
pub fn give_away(path: &Path) -> (u32, u32) {
    let _ = chown(path, Some(1234), Some(5678));
    owner_of(path)
}

/// What Python finds in a JSON text, by an expression on its value `v`.
pub fn in_json(text: &[u8], expression: &str) -> String {
    let mut command = Command::new("python3");
    let program =
        format!("import json, sys\nv = json.load(sys.stdin)\nfound = {expression}\nprint(found)");
    command.args(["-c", &program]);
    ran(command, text).done().text().trim_end().to_string()
}
