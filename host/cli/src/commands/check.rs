//! `check FILE..`: a line a file; `check -r FOLDER..`: a line for each image below, and the totals;
//! `check --simh REEL..`: a line for the set.

mod answer;
mod report;
mod walk;

use crate::stop::{Status, Stop};
use crate::words::Words;
use answer::Named;
use report::Report;
use std::ffi::OsStr;
use std::path::Path;
use walk::Met;

/// The worst of the files decides the exit status.
pub fn run(words: &Words) -> Result<Status, Stop> {
    if words.has("-r") && words.is_simh() {
        return Err(Stop::words("-r and --simh exclude each other"));
    }
    let names = words.some(words.of_a_set())?;
    if !words.is_simh() && names.iter().filter(|name| *name == "-").count() > 1 {
        return Err(Stop::words("standard input is one image, and - is named twice"));
    }
    let mut report = Report::open(words)?;
    if words.is_simh() {
        report.tell(&Named::Reels(names))?;
        return report.end();
    }
    for name in names {
        match words.has("-r") && is_folder(name) {
            true => walk::below(Path::new(name), &mut |met| tell(&mut report, met))?,
            false => report.tell(&Named::Image(name))?,
        }
    }
    match words.has("-r") {
        true => report.end_with_totals(),
        false => report.end(),
    }
}

fn is_folder(name: &OsStr) -> bool {
    name != "-" && Path::new(name).is_dir()
}

fn tell(report: &mut Report, met: Met) -> Result<(), Stop> {
    match met {
        Met::Image(path) => report.tell(&Named::Image(path.as_os_str())),
        Met::Unread(path, error) => report.tell_unread(path.as_os_str(), &error),
        Met::Other => {
            report.pass_over();
            Ok(())
        }
    }
}
