//! The scripts that install, uninstall and make a package, run on what is built here.
#![allow(dead_code)]

use super::common::root;
use std::path::{Path, PathBuf};
use std::process::{Command, Output};
use std::sync::Once;

/// The program and the shared object are of the code as it stands; nothing is proved.
fn build() {
    static BUILT: Once = Once::new();
    BUILT.call_once(|| {
        let words = ["build", "--quiet", "--offline", "--release", "--package", "tardorelga-cli"];
        let mut cargo = Command::new(env!("CARGO"));
        cargo.args(words).current_dir(root().join("host")).env_remove("CARGO_TARGET_DIR");
        assert!(cargo.status().expect("cargo").success());
        let script = root().join("bindings/python/build");
        assert!(Command::new(script).status().expect("bindings/python/build").success());
    });
}

/// A script of the repository, to be run from another folder.
pub fn script(name: &str, words: &[&Path]) -> Command {
    build();
    let mut command = Command::new(root().join(name));
    command.args(words).current_dir("/").env_remove("DESTDIR").env("LC_ALL", "C");
    command
}

pub fn install(prefix: &Path) -> Command {
    script("install", &[Path::new("--as-built"), prefix])
}

pub fn uninstall(prefix: &Path) -> Command {
    script("uninstall", &[prefix])
}

/// What a command that must succeed prints.
pub fn printed(command: &mut Command) -> String {
    let Output { status, stdout, stderr } = command.output().expect("a command that starts");
    let trouble = String::from_utf8_lossy(&stderr);
    assert!(status.success(), "{command:?}: {trouble}");
    String::from_utf8(stdout).expect("text")
}

/// What a command that must fail says, and its exit status.
pub fn refused(command: &mut Command) -> (Option<i32>, String) {
    let output = command.output().expect("a command that starts");
    assert!(!output.status.success(), "{command:?}");
    (output.status.code(), String::from_utf8(output.stderr).expect("text"))
}

/// Every name below a folder, but for folders.
pub fn files_below(folder: &Path) -> Vec<PathBuf> {
    let mut found = Vec::new();
    for entry in std::fs::read_dir(folder).expect("a folder") {
        let path = entry.expect("an entry").path();
        match path.is_dir() && !path.is_symlink() {
            true => found.extend(files_below(&path)),
            false => found.push(path),
        }
    }
    found.sort();
    found
}

pub fn is_there(program: &str) -> bool {
    let words = ["-c", "command -v \"$1\"", "sh", program];
    Command::new("sh").args(words).output().expect("a shell").status.success()
}

/// What `tardorelga --version` says behind the name.
pub fn version() -> String {
    let said = printed(Command::new(env!("CARGO_BIN_EXE_tardorelga")).arg("--version"));
    said.trim_end().strip_prefix("tardorelga ").expect("the name").into()
}
