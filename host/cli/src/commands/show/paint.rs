//! Colour, where a person at a terminal wants it.

use std::env;
use std::io::{self, IsTerminal};

pub struct Paint {
    is_on: bool,
}

impl Paint {
    /// On a terminal only; `NO_COLOR` with any value, and a terminal that can't, keep it off.
    pub fn of_output() -> Paint {
        let is_unwanted = env::var_os("NO_COLOR").is_some_and(|value| !value.is_empty());
        let can = env::var_os("TERM").is_some_and(|term| !term.is_empty() && term != "dumb");
        Paint { is_on: io::stdout().is_terminal() && can && !is_unwanted }
    }

    /// Bold and red.
    pub fn wrong(&self, text: &str) -> String {
        self.put("\x1b[1;31m", text)
    }

    /// Bold.
    pub fn label(&self, text: &str) -> String {
        self.put("\x1b[1m", text)
    }

    fn put(&self, colour: &str, text: &str) -> String {
        match self.is_on {
            true => format!("{colour}{text}\x1b[0m"),
            false => text.into(),
        }
    }
}
