//! The words behind a command: flags, options with a value, and plain words.

use crate::sheet::{self, Unfit};
use crate::stop::Stop;
use crate::text::names::{self, echoed, short};
use std::ffi::{OsStr, OsString};
use std::os::unix::ffi::OsStrExt;
use std::path::Path;

/// The words of one command, sorted.
pub struct Words {
    plain: Vec<OsString>,
    flags: Vec<&'static str>,
    values: Vec<(&'static str, OsString)>,
}

const HELP: [&str; 2] = ["--help", "-h"];

impl Words {
    /// Behind `--` every word is a plain one; `-` is a plain word too.
    pub fn read(
        words: &[OsString],
        flags: &[&'static str],
        options: &[&'static str],
    ) -> Result<Words, String> {
        let mut read = Words { plain: Vec::new(), flags: Vec::new(), values: Vec::new() };
        let mut words = words.iter();
        while let Some(word) = words.next() {
            let known = |names: &[&'static str]| names.iter().copied().find(|name| word == *name);
            if word == "--" {
                read.plain.extend(words.by_ref().cloned());
            } else if let Some(flag) = known(flags).or_else(|| known(&HELP)) {
                read.flags.push(flag);
            } else if let Some(option) = known(options) {
                let value = words.next().ok_or(format!("{option} wants a value"))?;
                read.values.push((option, value.clone()));
            } else if let Some((option, value)) = joined(word, options) {
                read.values.push((option, value));
            } else if word.as_bytes().starts_with(b"-") && word != "-" {
                return Err(format!("no option {} here{}", names::word(word), if_a_file(word)));
            } else {
                read.plain.push(word.clone());
            }
        }
        Ok(read)
    }

    pub fn wants_help(&self) -> bool {
        HELP.iter().any(|help| self.has(help))
    }

    pub fn has(&self, flag: &str) -> bool {
        self.flags.contains(&flag)
    }

    /// Whether sets are named by their reels in SIMH's form, and not by an image.
    pub fn is_simh(&self) -> bool {
        self.has("--simh")
    }

    /// What the words of a set name.
    pub fn of_a_set(&self) -> &'static str {
        match self.is_simh() {
            true => "reel",
            false => "file",
        }
    }

    /// All plain words, of which there is one at least.
    pub fn some(&self, what: &str) -> Result<&[OsString], Stop> {
        some(&self.plain, what)
    }

    /// Exactly the plain words that are named here.
    pub fn exactly<const N: usize>(&self, what: [&str; N]) -> Result<[&OsStr; N], Stop> {
        exactly(&self.plain, what)
    }

    /// The words of a set, one file or with `--simh` one reel or more, and behind them exactly the
    /// words that are named here.
    pub fn set_and<const N: usize>(
        &self,
        what: [&str; N],
    ) -> Result<(&[OsString], [&OsStr; N]), Stop> {
        let count = self.plain.len();
        let own = if self.is_simh() { count.saturating_sub(N).max(1) } else { 1 };
        let (set, rest) = self.plain.split_at(own.min(count));
        Ok((some(set, self.of_a_set())?, exactly(rest, what)?))
    }

    /// The value of an option that may be given once.
    pub fn value(&self, option: &'static str) -> Result<Option<&OsStr>, Stop> {
        let mut values = self.values(option);
        match (values.next(), values.next()) {
            (value, None) => Ok(value),
            _ => Err(Stop::words(format!("{option} is given twice"))),
        }
    }

    pub fn needed(&self, option: &'static str) -> Result<&OsStr, Stop> {
        self.value(option)?.ok_or_else(|| Stop::words(format!("{option} is missing")))
    }

    pub fn values(&self, option: &'static str) -> impl Iterator<Item = &OsStr> {
        let of_option = move |&&(name, _): &&(&str, OsString)| name == option;
        self.values.iter().filter(of_option).map(|(_, value)| value.as_os_str())
    }
}

/// What to do where the word is the name of a file.
fn if_a_file(word: &OsStr) -> &'static str {
    match Path::new(word).symlink_metadata() {
        Ok(_) => "; a file has this name, and is named behind --",
        Err(_) => "",
    }
}

fn some<'a>(words: &'a [OsString], what: &str) -> Result<&'a [OsString], Stop> {
    match words.is_empty() {
        true => Err(Stop::words(format!("no {what} is named"))),
        false => Ok(words),
    }
}

fn exactly<'a, const N: usize>(
    words: &'a [OsString],
    what: [&str; N],
) -> Result<[&'a OsStr; N], Stop> {
    if let Some(more) = words.get(N) {
        return Err(too_many(more));
    }
    match what.get(words.len()) {
        Some(missing) => Err(Stop::words(format!("no {missing} is named"))),
        None => Ok(std::array::from_fn(|i| words[i].as_os_str())),
    }
}

pub fn too_many(word: &OsStr) -> Stop {
    Stop::words(format!("one word too many: {}", names::word(word)))
}

/// `--quota=7`, as one word.
fn joined(word: &OsStr, options: &[&'static str]) -> Option<(&'static str, OsString)> {
    let equals = word.as_bytes().iter().position(|&byte| byte == b'=')?;
    let (name, value) = word.as_bytes().split_at(equals);
    let long = |option: &&&str| option.starts_with("--") && option.as_bytes() == name;
    Some((options.iter().find(long)?, OsStr::from_bytes(&value[1..]).into()))
}

/// A number as it stands on the command line.
pub fn number(word: &OsStr, what: &str) -> Result<u64, Stop> {
    let number = word.to_str().and_then(|word| word.parse().ok());
    number.ok_or_else(|| {
        let most = match word.as_bytes().iter().all(u8::is_ascii_digit) && !word.is_empty() {
            true => format!(" of at most {}", u64::MAX),
            false => String::new(),
        };
        Stop::words(format!("{what} is a number{most}, not {}", names::word(word)))
    })
}

/// A quota that the library takes.
pub fn quota(word: &OsStr) -> Result<u64, Stop> {
    let number = word.to_str().and_then(|word| word.parse().ok());
    number.filter(|&quota| sheet::is_quota(quota)).ok_or_else(|| {
        let told = match word.as_bytes().iter().all(u8::is_ascii_digit) {
            true => short(word.as_bytes()),
            false => echoed(word.as_bytes()),
        };
        Stop::words(format!("--quota is {}, not {told}", sheet::QUOTAS))
    })
}

/// Reel names that the library takes, from a list with commas.
pub fn reel_names(list: &OsStr) -> Result<Vec<u8>, Stop> {
    let words: Vec<&[u8]> = list.as_bytes().split(|&byte| byte == b',').collect();
    let wrong = |name: &[u8], why: &str| Stop::words(format!("--reels: {} {why}", echoed(name)));
    let mut names = Vec::new();
    for word in &words {
        let name = sheet::reel_name(word);
        names.extend(name.map_err(|_| wrong(word, "is no reel name: one has 1 to 6 characters"))?);
    }
    if sheet::too_many_names(&names).is_some() {
        let count = words.len();
        return Err(Stop::words(format!(
            "--reels: {count} names are more than a set has reels, 1 to 16"
        )));
    }
    match sheet::unfit_name(&names) {
        None => Ok(names),
        Some((i, Unfit::Again)) => Err(wrong(words[i], "is named twice")),
        Some((i, Unfit::Alone)) => {
            Err(wrong(words[i], &format!("is no reel name: a label holds {}", sheet::CHARACTERS)))
        }
    }
}
