//! A refusal of a set, and the field of a label that it is about.

use crate::stop::{refusal, say, Stop};
use crate::text::json;
use std::fmt;
use tardorelga::numbers::WRONG_FIELD;
use tardorelga::{Field, Kind, Verdict};

pub struct Fault {
    pub verdict: Verdict,
    /// Where the verdict names a byte: the label, and the field which begins there.
    field: Option<(Kind, Field)>,
}

impl Fault {
    /// Of reels that no image could be made of. The sentence, which names the reel, is said at once.
    pub fn told(stop: Stop) -> Result<Fault, Stop> {
        match stop {
            Stop::Refused(verdict, sentence) => {
                say(&sentence);
                Ok(Fault { verdict, field: None })
            }
            other => Err(other),
        }
    }

    /// Of an image; only a refusal with a byte of its own is looked up there.
    pub fn of(image: &[u8], verdict: Verdict) -> Fault {
        let item = || tardorelga::items(image).nth(verdict.item as usize);
        let label = (verdict.byte > 0).then(item).flatten().map(|item| item.kind);
        let field = label.and_then(|kind| Some((kind, tardorelga::field(kind, verdict.byte)?)));
        Fault { verdict, field }
    }

    /// What `check` says against an image, if anything.
    pub fn found_in(image: &[u8]) -> Option<Fault> {
        let verdict = tardorelga::check(image);
        (!verdict.is_accepted()).then(|| Fault::of(image, verdict))
    }

    /// The members of a JSON object.
    pub fn json(&self) -> String {
        let Verdict { number, item, byte } = self.verdict;
        let words = json::text(self.verdict.words());
        let place = format!(r#""number":{number},"item":{item},"byte":{byte},"words":{words}"#);
        match &self.field {
            Some((label, field)) => {
                let name = json::text(field.name);
                format!(r#""accepted":false,{place},"label":"{label}","field":{name}"#)
            }
            None => format!(r#""accepted":false,{place}"#),
        }
    }
}

/// Number, place and sentence, and the field that they are about.
impl fmt::Display for Fault {
    fn fmt(&self, f: &mut fmt::Formatter) -> fmt::Result {
        write!(f, "{}", refusal(self.verdict))?;
        match &self.field {
            Some((label, Field { name, holds, .. })) if self.verdict.number == WRONG_FIELD => {
                write!(f, ": the {name} of {label} must be {holds}")
            }
            Some((label, Field { name, .. })) => write!(f, ": the {name} of {label}"),
            None => Ok(()),
        }
    }
}
