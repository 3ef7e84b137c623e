//! The command line program: it reads files, asks the library and prints what it answers, and
//! decides no rule of tape sets by itself.
//!
//! It has an entry of its own, since the usual one opens the null device in place of a standard
//! stream that is closed: input that is not there would pass for an empty image, and output that
//! goes nowhere for written. Nor does it catch the signal of a closed pipe, so that `tardorelga
//! records set.tgi 1 | head` ends as other tools do.
#![no_main]

mod commands;
mod fault;
mod halves;
mod help;
mod input;
mod needed;
mod output;
mod room;
mod sheet;
mod stop;
mod streams;
mod text;
mod words;

use commands::{Command, COMMANDS};
use std::env;
use std::ffi::{c_char, c_int, OsString};
use stop::{Status, Stop};
use text::names::word;
use words::Words;

#[no_mangle]
pub extern "C" fn main(_count: c_int, _words: *const *const c_char) -> c_int {
    streams::hold();
    let words: Vec<OsString> = env::args_os().skip(1).collect();
    let status = answer(&words).unwrap_or_else(|stop| stop.tell());
    status as c_int
}

/// The first word says what to do.
fn answer(words: &[OsString]) -> Result<Status, Stop> {
    let Some((name, rest)) = words.split_first() else {
        return Err(Stop::misused("no command", help::ALL));
    };
    match name.to_str() {
        Some("--help" | "-h" | "help") => tell(help::ALL),
        Some("--version" | "-V") => tell(concat!("tardorelga ", env!("CARGO_PKG_VERSION"), "\n")),
        name => match COMMANDS.iter().find(|command| Some(command.name) == name) {
            Some(command) => obey(command, rest),
            None => Err(Stop::misused(&format!("no command {}", word(&words[0])), help::ALL)),
        },
    }
}

fn obey(command: &Command, words: &[OsString]) -> Result<Status, Stop> {
    let misused = |what: String| Stop::misused(&what, command.help);
    let words = Words::read(words, command.flags, command.options).map_err(misused)?;
    match words.wants_help() {
        true => tell(command.help),
        false => (command.run)(&words).map_err(|stop| stop.of(command.help)),
    }
}

fn tell(text: &str) -> Result<Status, Stop> {
    let mut out = streams::Out::open()?;
    out.put(text.as_bytes())?;
    out.end()
}
