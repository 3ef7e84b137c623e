//! A pseudo terminal, on which a test looks at the program as a person does.

use super::root;
use std::ffi::{c_char, c_int, CStr};
use std::fs::{File, OpenOptions};
use std::io::{self, Read};
use std::os::fd::{AsRawFd, FromRawFd};
use std::os::unix::fs::OpenOptionsExt;
use std::process::{Child, Command, Stdio};

const O_RDWR: c_int = 2;
const O_NOCTTY: c_int = 0o400;

extern "C" {
    fn posix_openpt(flags: c_int) -> c_int;
    fn grantpt(terminal: c_int) -> c_int;
    fn unlockpt(terminal: c_int) -> c_int;
    fn ptsname_r(terminal: c_int, name: *mut c_char, len: usize) -> c_int;
}

/// The end at which a person looks and the end at which a program writes.
fn open() -> (File, File) {
    // SAFETY: a new descriptor, which nobody else has.
    let looked_at = unsafe {
        let terminal = posix_openpt(O_RDWR | O_NOCTTY);
        assert!(terminal >= 0, "a terminal: {}", io::Error::last_os_error());
        File::from_raw_fd(terminal)
    };
    let mut name: [c_char; 64] = [0; 64];
    // SAFETY: the descriptor is open, and the name is written within its 64 bytes, with a NUL behind it.
    let name = unsafe {
        let terminal = looked_at.as_raw_fd();
        assert_eq!((grantpt(terminal), unlockpt(terminal)), (0, 0));
        assert_eq!(ptsname_r(terminal, name.as_mut_ptr(), name.len()), 0);
        CStr::from_ptr(name.as_ptr())
    };
    let name = name.to_str().expect("a name");
    let written = OpenOptions::new().read(true).write(true).custom_flags(O_NOCTTY).open(name);
    (looked_at, written.expect("the other end"))
}

/// A program whose standard output is a terminal.
pub struct Shown {
    terminal: File,
    pub child: Child,
}

/// Starts the program with these words and variables; nothing else is set that speaks of terminals.
pub fn start(words: &[&str], variables: &[(&str, &str)]) -> Shown {
    let (terminal, written) = open();
    let mut command = Command::new(env!("CARGO_BIN_EXE_tardorelga"));
    command.args(words).current_dir(root()).env_remove("NO_COLOR").env_remove("TERM");
    command.envs(variables.iter().copied());
    command.stdin(Stdio::piped()).stdout(written).stderr(Stdio::null());
    let child = command.spawn().expect("the program");
    Shown { terminal, child }
}

impl Shown {
    /// What is on the terminal as soon as anything is.
    pub fn glance(&mut self) -> String {
        let mut bytes = [0; 4096];
        let len = self.terminal.read(&mut bytes).unwrap_or(0);
        String::from_utf8(bytes[..len].to_vec()).expect("text").replace('\r', "")
    }

    /// All that is on the terminal when the program has ended.
    pub fn text(mut self) -> String {
        drop(self.child.stdin.take());
        let mut text = String::new();
        loop {
            // The system's error when no program has the other end any more is the end, too.
            match self.glance() {
                part if part.is_empty() => break,
                part => text += &part,
            }
        }
        self.child.wait().expect("its end");
        text
    }
}
