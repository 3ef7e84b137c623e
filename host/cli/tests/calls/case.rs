//! A run of the program that writes into a folder of its own, and stops at each system call.

use crate::common::{folder, names_in, root, shell};
use crate::trace::{Ended, Traced};
use std::fs;
use std::os::unix::fs::PermissionsExt;
use std::path::{Path, PathBuf};
use std::process::Command;

pub const PACK: &str = "pack samples/ledger.sheet -o $D/out";
pub const PACK_OVER: &str = "pack --force samples/ledger.sheet -o $D/out";
pub const UNPACK: &str = "unpack samples/messages.tgi $D/out";
pub const EXPORT: &str = "export samples/messages.tgi -o $D/out";
pub const EXPORT_OVER: &str = "export --force samples/messages.tgi -o $D/out";

pub struct Case {
    pub folder: PathBuf,
    line: &'static str,
    prepare: fn(&Path),
}

/// What is there before.
pub fn nothing(_: &Path) {}

pub fn an_old_file(folder: &Path) {
    fs::write(folder.join("out"), "old").unwrap();
    fs::set_permissions(folder.join("out"), fs::Permissions::from_mode(0o400)).unwrap();
}

pub fn an_empty_folder(folder: &Path) {
    fs::create_dir(folder.join("out")).unwrap();
}

pub fn a_read_only_folder(folder: &Path) {
    an_empty_folder(folder);
    fs::set_permissions(folder.join("out"), fs::Permissions::from_mode(0o500)).unwrap();
}

pub fn an_old_reel(folder: &Path) {
    fs::write(folder.join("out-1.tap"), "old").unwrap();
}

pub fn old_reels(folder: &Path) {
    for reel in ["out-1.tap", "out-2.tap", "out-3.tap"] {
        fs::write(folder.join(reel), "old").unwrap();
    }
}

/// Names and contents of all that is below a folder, without what is being written.
pub type Tree = Vec<(String, Vec<u8>)>;

pub fn tree(folder: &Path) -> Tree {
    let mut tree = Vec::new();
    for name in names_in(folder).into_iter().filter(|name| !is_temporary(name)) {
        let path = folder.join(&name);
        if !path.is_dir() {
            tree.push((name, fs::read(&path).unwrap()));
            continue;
        }
        tree.push((format!("{name}/"), Vec::new()));
        let below = |(own, bytes)| (format!("{name}/{own}"), bytes);
        tree.extend(self::tree(&path).into_iter().map(below));
    }
    tree
}

pub fn temporaries(folder: &Path) -> Vec<String> {
    names_in(folder).into_iter().filter(|name| is_temporary(name)).collect()
}

fn is_temporary(name: &str) -> bool {
    let digits = name.strip_prefix(".tardorelga-").and_then(|rest| rest.strip_suffix(".part"));
    let is_digit = |byte: u8| byte.is_ascii_digit() || (b'a'..=b'f').contains(&byte);
    digits.is_some_and(|digits| digits.len() == 16 && digits.bytes().all(is_digit))
}

impl Case {
    pub fn new(name: &str, line: &'static str, prepare: fn(&Path)) -> Case {
        Case { folder: folder(name), line, prepare }
    }

    /// Empties the folder, and puts there what is there before.
    pub fn fresh(&self) -> Tree {
        fs::remove_dir_all(&self.folder).unwrap();
        fs::create_dir(&self.folder).unwrap();
        (self.prepare)(&self.folder);
        tree(&self.folder)
    }

    /// The program with the words of the line, in which `$D` is the folder.
    pub fn command(&self) -> Command {
        let mut command = Command::new(env!("CARGO_BIN_EXE_tardorelga"));
        let line = self.line.replace("$D", self.folder.to_str().unwrap());
        command.args(line.split(' ')).current_dir(root()).env("LC_ALL", "C");
        command
    }

    /// What is there when it is done.
    pub fn done(&self) -> Tree {
        shell(&format!("$T {}", self.line), &self.folder).done();
        tree(&self.folder)
    }

    /// A run that stands behind so many stops, if it has so many.
    pub fn at(&self, stops: usize, command: &mut Command) -> Result<Traced, Ended> {
        (0..stops).try_fold(Traced::start(command), |traced, _| traced.step())
    }

    /// The number of a stop shortly before the first at which a temporary is there: in the calls before it
    /// the program is loaded and reads its input, and writes nothing.
    pub fn begin(&self) -> usize {
        self.fresh();
        let (mut stops, mut traced) = (0usize, Traced::start(&mut self.command()));
        while temporaries(&self.folder).is_empty() {
            traced = traced.step().ok().expect("a temporary file or folder");
            stops += 1;
        }
        traced.go_on();
        stops.saturating_sub(40)
    }
}
