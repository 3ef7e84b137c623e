//! The items as lines of text: each begins with an arrow where it is wrong, else with blanks.

use super::dump;
use super::paint::Paint;
use super::run::{Run, Told};
use super::view::View;
use crate::stop::Stop;
use crate::streams::Out;
use crate::text::{escaped, many};
use std::mem::take;
use tardorelga::{Field, Item, Kind};

/// So many bytes of a block are shown where it is not asked for.
const SOME: usize = 256;

struct Page<'a> {
    view: &'a View<'a>,
    out: &'a mut Out,
    paint: Paint,
    /// The place in the image behind what is shown.
    behind: usize,
}

pub fn put(view: &View, out: &mut Out) -> Result<(), Stop> {
    let mut page = Page { view, out, paint: Paint::of_output(), behind: 0 };
    if view.is_head_wrong() && !view.is_one {
        page.head()?;
    }
    page.items()?;
    page.ending()
}

impl<'a> Page<'a> {
    fn line(&mut self, text: &str) -> Result<(), Stop> {
        self.out.put(format!("    {text}\n").as_bytes())
    }

    fn wrong_line(&mut self, text: &str) -> Result<(), Stop> {
        let text = self.paint.wrong(&format!("--> {text}"));
        self.out.put(format!("{text}\n").as_bytes())
    }

    fn line_of(&mut self, is_wrong: bool, text: &str) -> Result<(), Stop> {
        match is_wrong {
            true => self.wrong_line(text),
            false => self.line(text),
        }
    }

    /// The first bytes of what is no image, or too long for one.
    fn head(&mut self) -> Result<(), Stop> {
        let image = self.view.image;
        self.wrong_line(&format!("{:>8}  head", ""))?;
        let has_no_items = !self.view.is_image();
        let most = if self.view.is_all && has_no_items { image.len() } else { SOME };
        self.behind = image.len().min(most);
        self.dump(&image[..self.behind])?;
        self.sentence()
    }

    fn items(&mut self) -> Result<(), Stop> {
        let view = self.view;
        let mut run = Run::default();
        let (mut reel, mut begins) = (0, !view.is_one);
        for item in view.items() {
            if begins && item.kind != Kind::EndOfImage {
                reel += 1;
                self.out.put(format!("reel {reel}\n").as_bytes())?;
            }
            begins = item.kind == Kind::EndOfReel;
            self.behind = item.behind;
            match is_summed(view, &item) {
                true => run.push(item),
                false => {
                    self.run(&take(&mut run))?;
                    self.item(&item)?;
                }
            }
        }
        self.run(&run)
    }

    fn run(&mut self, run: &Run) -> Result<(), Stop> {
        match run.told() {
            Told::Each(blocks) => blocks.iter().try_for_each(|block| self.item(block)),
            Told::Sum(line) => self.line(&line),
        }
    }

    fn item(&mut self, item: &Item) -> Result<(), Stop> {
        let is_wrong = self.view.is_wrong(item);
        self.heading(item, is_wrong)?;
        match item.kind {
            kind if kind.is_label() => self.label(item)?,
            Kind::DataBlock if !is_wrong && !self.view.is_one => {}
            Kind::Torn if self.view.is_all => self.dump(item.bytes)?,
            _ if self.view.is_one => self.dump(item.bytes)?,
            _ => self.some_of(item)?,
        }
        if is_wrong {
            self.sentence()?;
        }
        Ok(())
    }

    fn heading(&mut self, item: &Item, is_wrong: bool) -> Result<(), Stop> {
        let kind = format!("{:<11}", item.kind);
        let kind = match item.kind.is_label() && !is_wrong {
            true => self.paint.label(&kind),
            false => kind,
        };
        let mut text = format!("{:>8}  {kind}", item.number);
        if !item.bytes.is_empty() {
            text += &format!("  {}", many(item.bytes.len() as u64, "byte"));
        }
        if self.view.is_one || item.kind == Kind::Torn {
            text += &format!("  at offset {} of the image", item.at);
        }
        self.line_of(is_wrong, text.trim_end())
    }

    /// The fields of a label, or all of one that has none.
    fn label(&mut self, item: &Item) -> Result<(), Stop> {
        let mut fields = tardorelga::fields(item.kind).peekable();
        if fields.peek().is_none() {
            return self.field("1-80", "text", item.bytes, false);
        }
        for field in fields {
            let is_wrong = self.view.is_wrong_field(item, &field);
            self.field(&positions(&field), field.name, field.of(item.bytes), is_wrong)?;
        }
        Ok(())
    }

    fn field(&mut self, at: &str, name: &str, value: &[u8], is_wrong: bool) -> Result<(), Stop> {
        let value = escaped(value);
        self.line_of(is_wrong, &format!("{:10}{at:<7}{name:<24}[{value}]", ""))
    }

    fn dump(&mut self, bytes: &[u8]) -> Result<(), Stop> {
        dump::lines(bytes).try_for_each(|line| self.line(&format!("{:4}{line}", "")))
    }

    fn some_of(&mut self, item: &Item) -> Result<(), Stop> {
        let (shown, more) = item.bytes.split_at(item.bytes.len().min(SOME));
        self.dump(shown)?;
        match more.len() {
            0 => Ok(()),
            more => {
                let (more, number) = (many(more as u64, "more byte"), item.number);
                self.line(&format!("{:10}{more}: --item {number} shows all", ""))
            }
        }
    }

    fn sentence(&mut self) -> Result<(), Stop> {
        let sentence = self.view.fault.as_ref().map(|fault| fault.to_string());
        sentence.map_or(Ok(()), |sentence| self.wrong_line(&sentence))
    }

    /// The verdict where no arrow tells it, and how much is left out behind the wrong item.
    fn ending(&mut self) -> Result<(), Stop> {
        let view = self.view;
        match &view.fault {
            None if view.is_one => Ok(()),
            None => self.out.put(b"accepted\n"),
            Some(_) if !view.is_one => self.left_out(),
            Some(_) if view.items().any(|item| view.is_wrong(&item)) => Ok(()),
            Some(fault) => self.out.put(format!("{fault}\n").as_bytes()),
        }
    }

    fn left_out(&mut self) -> Result<(), Stop> {
        let read = self.view.image.len();
        if self.behind < read {
            let left = many((read - self.behind) as u64, "byte");
            self.line(&format!("not shown behind it: {left}; --all shows all"))?;
        }
        match self.view.is_too_long() {
            true => self.line(&format!("what is behind the first {read} bytes was not read")),
            false => Ok(()),
        }
    }
}

/// Only data blocks of which nothing is to be told.
fn is_summed(view: &View, item: &Item) -> bool {
    item.kind == Kind::DataBlock && !view.is_all && !view.is_one && !view.is_wrong(item)
}

fn positions(field: &Field) -> String {
    match field.len {
        1 => field.first.to_string(),
        _ => format!("{}-{}", field.first, field.last()),
    }
}
