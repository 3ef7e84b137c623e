//! The commands, a file each, and the table of them.

mod check;
mod export;
mod import;
mod list;
mod members;
mod pack;
mod records;
mod rewrite;
mod show;
mod unpack;

use crate::help;
use crate::stop::{Status, Stop};
use crate::words::Words;

/// A command: its name, the words it takes, and what it does.
pub struct Command {
    pub name: &'static str,
    pub help: &'static str,
    pub flags: &'static [&'static str],
    pub options: &'static [&'static str],
    pub run: fn(&Words) -> Result<Status, Stop>,
}

pub const COMMANDS: [Command; 10] = [
    Command {
        name: "check",
        help: help::CHECK,
        flags: &["-r", "--json", "--quiet", "--simh"],
        options: &[],
        run: check::run,
    },
    Command {
        name: "list",
        help: help::LIST,
        flags: &["--json", "--simh"],
        options: &[],
        run: list::run,
    },
    Command {
        name: "show",
        help: help::SHOW,
        flags: &["--all", "--json", "--simh"],
        options: &["--item"],
        run: show::run,
    },
    Command {
        name: "record",
        help: help::RECORD,
        flags: &["--hex", "--lines", "--simh"],
        options: &[],
        run: records::one,
    },
    Command {
        name: "records",
        help: help::RECORDS,
        flags: &["--hex", "--lines", "--simh"],
        options: &[],
        run: records::all,
    },
    Command {
        name: "unpack",
        help: help::UNPACK,
        flags: &["--hex", "--lines", "--simh"],
        options: &["--quota", "--reels"],
        run: unpack::run,
    },
    Command {
        name: "pack",
        help: help::PACK,
        flags: &["--anywhere", "--force"],
        options: &["-o"],
        run: pack::run,
    },
    Command {
        name: "rewrite",
        help: help::REWRITE,
        flags: &["--force", "--simh"],
        options: &["--quota", "--reels", "-o"],
        run: rewrite::run,
    },
    Command {
        name: "import",
        help: help::IMPORT,
        flags: &["--force"],
        options: &["-o"],
        run: import::run,
    },
    Command {
        name: "export",
        help: help::EXPORT,
        flags: &["--force"],
        options: &["-o"],
        run: export::run,
    },
];
