//! What is wrong with a sheet: where, what was expected, and who found it.

use crate::stop::{number_in_words, Stop};
use std::fmt;
use tardorelga::Verdict;

/// What is wrong with a sheet, and where.
#[derive(Debug)]
pub struct Wrong {
    place: Place,
    fault: Fault,
}

#[derive(Debug)]
enum Place {
    Sheet,
    Line(usize),
    /// For what is missing.
    End,
}

/// What is wrong, wherever it stands.
#[derive(Debug)]
pub struct Fault {
    pub what: String,
    pub judge: Judge,
}

/// Who finds the fault.
#[derive(Debug)]
pub enum Judge {
    /// The reader of sheets, by their form.
    Form,
    /// The system, where a file can't be read.
    System,
    Library(Verdict),
}

/// A fault of form.
impl From<String> for Fault {
    fn from(what: String) -> Fault {
        Fault { what, judge: Judge::Form }
    }
}

impl Wrong {
    pub fn at(line: usize, fault: impl Into<Fault>) -> Wrong {
        Wrong { place: Place::Line(line), fault: fault.into() }
    }

    pub fn of_sheet(fault: impl Into<Fault>) -> Wrong {
        Wrong { place: Place::Sheet, fault: fault.into() }
    }

    pub fn at_end(what: &str) -> Wrong {
        Wrong { place: Place::End, fault: what.to_string().into() }
    }

    /// The same, found by the library.
    pub fn by(mut self, verdict: Verdict) -> Wrong {
        self.fault.judge = Judge::Library(verdict);
        self
    }

    /// Why a command can't go on with the sheet of this name.
    pub fn stop(self, sheet: &str) -> Stop {
        match self.fault.judge {
            Judge::Form => Stop::Sheet(format!("{sheet}: {self}")),
            Judge::System => Stop::Trouble(format!("{sheet}: {self}")),
            Judge::Library(verdict) => {
                let number = number_in_words(verdict);
                Stop::Refused(verdict, format!("{sheet}: {number}: {self}"))
            }
        }
    }
}

impl fmt::Display for Wrong {
    fn fmt(&self, f: &mut fmt::Formatter) -> fmt::Result {
        let what = &self.fault.what;
        match self.place {
            Place::Sheet => write!(f, "{what}"),
            Place::Line(line) => write!(f, "line {line}: {what}"),
            Place::End => write!(f, "at the end: {what}"),
        }
    }
}
