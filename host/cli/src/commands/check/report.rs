//! The lines of `check` as they are printed, and what they add up to.

use super::answer::{Answer, Named};
use crate::stop::{Status, Stop};
use crate::streams::Out;
use crate::text::many;
use crate::words::Words;
use std::ffi::OsStr;
use std::io;

pub struct Report {
    /// None where only the exit status is to tell.
    out: Option<Out>,
    is_json: bool,
    worst: Status,
    totals: Totals,
}

#[derive(Default)]
struct Totals {
    accepted: u64,
    refused: u64,
    unread: u64,
    /// Files that were passed over.
    others: u64,
}

impl Report {
    pub fn open(words: &Words) -> Result<Report, Stop> {
        let (is_json, is_quiet) = (words.has("--json"), words.has("--quiet"));
        if is_json && is_quiet {
            return Err(Stop::words("--json and --quiet exclude each other"));
        }
        let out = if is_quiet { None } else { Some(Out::open()?) };
        Ok(Report { out, is_json, worst: Status::Done, totals: Totals::default() })
    }

    pub fn tell(&mut self, set: &Named) -> Result<(), Stop> {
        self.put(set, &set.answer()?)
    }

    pub fn tell_unread(&mut self, file: &OsStr, error: &io::Error) -> Result<(), Stop> {
        self.put(&Named::Image(file), &Answer::unread(file, error))
    }

    pub fn pass_over(&mut self) {
        self.totals.others += 1;
    }

    fn put(&mut self, set: &Named, answer: &Answer) -> Result<(), Stop> {
        self.worst = self.worst.max(answer.status());
        self.totals.add(answer);
        let line = if self.is_json { set.json_line(answer) } else { set.line(answer) };
        self.print(&line)
    }

    /// Who looks on sees each line when it is there.
    fn print(&mut self, line: &[u8]) -> Result<(), Stop> {
        self.out.as_mut().map_or(Ok(()), |out| out.put_seen(line))
    }

    pub fn end(self) -> Result<Status, Stop> {
        self.out.map_or(Ok(Status::Done), Out::end)?;
        Ok(self.worst)
    }

    /// Where no set was met nothing was checked, which must not pass for a good answer.
    pub fn end_with_totals(mut self) -> Result<Status, Stop> {
        let line = if self.is_json { self.totals.json() } else { self.totals.line() };
        self.print(line.as_bytes())?;
        let is_empty = self.totals.sets() == 0;
        let status = self.end()?;
        match is_empty {
            true => Err(Stop::Trouble("nothing was checked: no file there is named *.tgi".into())),
            false => Ok(status),
        }
    }
}

impl Totals {
    fn add(&mut self, answer: &Answer) {
        match answer {
            Answer::Accepted(_) => self.accepted += 1,
            Answer::Refused(_) => self.refused += 1,
            Answer::Unread(_) => self.unread += 1,
        }
    }

    fn sets(&self) -> u64 {
        self.accepted + self.refused + self.unread
    }

    fn line(&self) -> String {
        let Totals { accepted, refused, unread, others } = self;
        let (sets, others) = (many(self.sets(), "set"), many(*others, "other file"));
        format!(
            "total: {sets}, {accepted} accepted, {refused} refused, {unread} unread; \
             {others} not looked at\n"
        )
    }

    fn json(&self) -> String {
        let Totals { accepted, refused, unread, others } = self;
        let sets = self.sets();
        format!(
            "{{\"total\":{{\"sets\":{sets},\"accepted\":{accepted},\"refused\":{refused},\
             \"unread\":{unread},\"others\":{others}}}}}\n"
        )
    }
}
