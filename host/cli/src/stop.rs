//! How the program ends: its exit status, and the sentence on standard error.

use std::fmt::Display;
use std::io::{self, ErrorKind, Write};
use tardorelga::numbers::{LONG_IMAGE, SHORT_BUFFER};
use tardorelga::Verdict;

/// The exit status; the worst of several counts.
#[derive(Clone, Copy, Debug, PartialEq, Eq, PartialOrd, Ord)]
pub enum Status {
    /// Accepted, or done.
    Done = 0,
    /// The set or the sheet was refused.
    Refused = 1,
    /// It was called wrongly, or the system failed.
    Trouble = 2,
}

/// Why a command can't go on.
#[derive(Debug)]
pub enum Stop {
    /// The words on the command line, and the command's help where it is known.
    Misused(String, Option<&'static str>),
    /// The library's refusal, and the sentence on it.
    Refused(Verdict, String),
    /// An order sheet that has not the form of one, so that the library is not asked.
    Sheet(String),
    Trouble(String),
    /// Nobody reads the output any more, which needs no sentence.
    Unread,
}

impl Stop {
    pub fn misused(what: &str, help: &'static str) -> Stop {
        Stop::Misused(what.into(), Some(help))
    }

    pub fn words(what: impl Into<String>) -> Stop {
        Stop::Misused(what.into(), None)
    }

    pub fn trouble(whose: impl Display, error: io::Error) -> Stop {
        match error.kind() {
            ErrorKind::BrokenPipe => Stop::Unread,
            _ => Stop::Trouble(format!("{whose}: {}", reason(&error))),
        }
    }

    /// The library's refusal of what is in `whose`.
    pub fn refused(whose: impl Display, verdict: Verdict) -> Stop {
        Stop::Refused(verdict, format!("{whose}: {}", refusal(verdict)))
    }

    /// With the help of the command that found its words wrong.
    pub fn of(self, help: &'static str) -> Stop {
        match self {
            Stop::Misused(what, None) => Stop::Misused(what, Some(help)),
            other => other,
        }
    }

    /// Says the sentence; there is nobody to tell that it can't be said.
    pub fn tell(self) -> Status {
        let (status, text) = match self {
            Stop::Misused(what, help) => {
                let usage = help.and_then(|help| help.lines().next()).unwrap_or("");
                (Status::Trouble, format!("{what}\n{usage}"))
            }
            Stop::Refused(_, what) | Stop::Sheet(what) => (Status::Refused, what),
            Stop::Trouble(what) => (Status::Trouble, what),
            Stop::Unread => return Status::Trouble,
        };
        say(&text);
        status
    }
}

/// A sentence on standard error.
pub fn say(text: &str) {
    let _ = writeln!(io::stderr(), "tardorelga: {text}");
}

/// What the system says, without its number.
pub fn reason(error: &io::Error) -> String {
    let text = error.to_string();
    text.split(" (os error").next().unwrap_or(&text).to_string()
}

/// The number, its place where it can have one, and the number in words.
pub fn refusal(verdict: Verdict) -> String {
    match verdict.number {
        SHORT_BUFFER..=LONG_IMAGE => number_in_words(verdict),
        _ => format!("{verdict}: {}", verdict.words()),
    }
}

/// The number alone, for what has no items.
pub fn number_in_words(verdict: Verdict) -> String {
    format!("refused {}: {}", verdict.number, verdict.words())
}
