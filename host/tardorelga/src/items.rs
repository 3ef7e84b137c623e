//! The items of an image, whatever its bytes: what each is, and where it stands.

use crate::ffi;
use crate::fields::field;
use std::fmt;
use std::iter::FusedIterator;

/// What an item is where it stands; a label with the number that it has in its name.
#[derive(Clone, Copy, Debug, PartialEq, Eq, Hash)]
pub enum Kind {
    /// A block that is no label, where a label is due.
    Other,
    /// A volume label, at the head of a reel.
    Vol(u32),
    /// A user's volume label.
    Uvl(u32),
    /// A header label, before the data of a file.
    Hdr(u32),
    /// A user's header label.
    Uhl,
    /// A trailer label behind the last data of a file.
    Eof(u32),
    /// A trailer label behind data of a file that goes on at the next reel.
    Eov(u32),
    /// A user's trailer label.
    Utl,
    /// A block of the data of a file.
    DataBlock,
    /// A tape mark.
    TapeMark,
    /// The end of a reel.
    EndOfReel,
    /// The end of the image, which has the number behind its last item.
    EndOfImage,
    /// A bad length or an item cut short, and all that is left behind it.
    Torn,
}

impl Kind {
    /// The kind of the library's two numbers.
    fn of(kind: u32, number: u32) -> Kind {
        match kind {
            0 => Kind::Other,
            1 => Kind::Vol(number),
            2 => Kind::Uvl(number),
            3 => Kind::Hdr(number),
            4 => Kind::Uhl,
            5 => Kind::Eof(number),
            6 => Kind::Eov(number),
            7 => Kind::Utl,
            8 => Kind::DataBlock,
            9 => Kind::TapeMark,
            10 => Kind::EndOfReel,
            11 => Kind::EndOfImage,
            _ => Kind::Torn,
        }
    }

    /// The library's two numbers of the kind.
    pub(crate) fn numbers(self) -> (u32, u32) {
        match self {
            Kind::Other => (0, 0),
            Kind::Vol(number) => (1, number),
            Kind::Uvl(number) => (2, number),
            Kind::Hdr(number) => (3, number),
            Kind::Uhl => (4, 0),
            Kind::Eof(number) => (5, number),
            Kind::Eov(number) => (6, number),
            Kind::Utl => (7, 0),
            Kind::DataBlock => (8, 0),
            Kind::TapeMark => (9, 0),
            Kind::EndOfReel => (10, 0),
            Kind::EndOfImage => (11, 0),
            Kind::Torn => (12, 0),
        }
    }

    /// Whether it is a label, of the system or of a user.
    pub fn is_label(self) -> bool {
        (1..=7).contains(&self.numbers().0)
    }
}

/// The name of a label, or what an item is in words.
///
/// ```
/// use tardorelga::Kind;
/// assert_eq!(Kind::Hdr(2).to_string(), "HDR2");
/// assert_eq!(Kind::TapeMark.to_string(), "tape mark");
/// ```
impl fmt::Display for Kind {
    fn fmt(&self, f: &mut fmt::Formatter) -> fmt::Result {
        match self {
            Kind::Other => f.pad("no label"),
            Kind::Vol(number) => f.pad(&format!("VOL{number}")),
            Kind::Uvl(number) => f.pad(&format!("UVL{number}")),
            Kind::Hdr(number) => f.pad(&format!("HDR{number}")),
            Kind::Uhl => f.pad("UHL"),
            Kind::Eof(number) => f.pad(&format!("EOF{number}")),
            Kind::Eov(number) => f.pad(&format!("EOV{number}")),
            Kind::Utl => f.pad("UTL"),
            Kind::DataBlock => f.pad("data block"),
            Kind::TapeMark => f.pad("tape mark"),
            Kind::EndOfReel => f.pad("end of reel"),
            Kind::EndOfImage => f.pad("end"),
            Kind::Torn => f.pad("torn"),
        }
    }
}

/// An item of an image.
#[derive(Clone, Copy, PartialEq, Eq)]
pub struct Item<'a> {
    /// What it is where it stands.
    pub kind: Kind,
    /// Its number, from 0 over the whole image, tape marks and ends of reels counted too; 4,294,967,295 for
    /// a higher one.
    pub number: u32,
    /// The place in the image of the item's bytes; the place behind an item that has none.
    pub at: usize,
    /// The bytes of a block, or all that is left of a torn image; else none.
    pub bytes: &'a [u8],
    /// The place in the image behind the item.
    pub behind: usize,
}

/// Without its bytes, which may be many.
impl fmt::Debug for Item<'_> {
    fn fmt(&self, f: &mut fmt::Formatter) -> fmt::Result {
        let Item { kind, number, at, behind, .. } = self;
        f.debug_struct("Item")
            .field("kind", kind)
            .field("number", number)
            .field("at", at)
            .field("behind", behind)
            .finish_non_exhaustive()
    }
}

/// The items of an image, in order, and at last its end or what is torn.
#[derive(Clone)]
pub struct Items<'a> {
    image: &'a [u8],
    at: u64,
    group: u32,
    number: u32,
    is_over: bool,
}

/// The items of any bytes whatever, whether [`check`](crate::check) accepts them or not. Nothing is asked of
/// the head, the first five bytes.
///
/// ```
/// // A head, a tape mark, and then a block that says 2 bytes and has one.
/// let kinds = tardorelga::items(b"TGI\x00\x01\x00\x00\x00\x00\x00\x02A").map(|item| item.kind.to_string());
/// assert_eq!(kinds.collect::<Vec<_>>(), ["tape mark", "torn"]);
/// let last = tardorelga::items(include_bytes!("../doc/ledger.tgi")).last().unwrap();
/// assert_eq!((last.kind, last.number, last.at), (tardorelga::Kind::EndOfImage, 11, 448));
/// ```
pub fn items(image: &[u8]) -> Items<'_> {
    const HEAD: u64 = 5;
    Items { image, at: HEAD, group: 0, number: 0, is_over: false }
}

impl<'a> Iterator for Items<'a> {
    type Item = Item<'a>;

    fn next(&mut self) -> Option<Item<'a>> {
        if self.is_over {
            return None;
        }
        let ffi::Item { kind, number, group, start, len, behind } =
            item_at(self.image, self.at, self.group);
        let kind = Kind::of(kind, number);
        // An image that is shorter than a head ends before the place of the first item.
        let end = behind.min(self.image.len() as u64) as usize;
        let at = if len == 0 { end } else { start as usize };
        let item = Item { kind, number: self.number, at, bytes: &self.image[at..end], behind: end };
        self.is_over = matches!(kind, Kind::EndOfImage | Kind::Torn);
        (self.at, self.group, self.number) = (behind, group, self.number.saturating_add(1));
        Some(item)
    }

    /// No item but the last has fewer bytes than its length of three.
    fn size_hint(&self) -> (usize, Option<usize>) {
        const LEAST: usize = 3;
        match self.is_over {
            true => (0, Some(0)),
            false => (1, Some(self.image.len().saturating_sub(self.at as usize) / LEAST + 1)),
        }
    }
}

impl FusedIterator for Items<'_> {}

/// Without the image, which may be long.
impl fmt::Debug for Items<'_> {
    fn fmt(&self, f: &mut fmt::Formatter) -> fmt::Result {
        let Items { at, number, is_over, .. } = self;
        f.debug_struct("Items")
            .field("at", at)
            .field("number", number)
            .field("is_over", is_over)
            .finish_non_exhaustive()
    }
}

/// The names of the reels of an accepted image, 6 bytes each: the volume identifiers of its VOL1 labels.
///
/// ```
/// let names: Vec<_> = tardorelga::reel_names(include_bytes!("../doc/ledger.tgi")).collect();
/// assert_eq!(names, [b"GATE01"]);
/// ```
pub fn reel_names(image: &[u8]) -> impl Iterator<Item = &[u8]> {
    const VOLUME_IDENTIFIER: u32 = 5;
    let name = field(Kind::Vol(1), VOLUME_IDENTIFIER);
    let volumes = items(image).filter(|item| item.kind == Kind::Vol(1));
    volumes.filter_map(move |volume| name.map(|name| name.of(volume.bytes)))
}

/// What stands at a place between two items, in a group.
fn item_at(image: &[u8], at: u64, group: u32) -> ffi::Item {
    // SAFETY: the image is lent to read for the whole call, and nothing of it is kept.
    unsafe { ffi::tardorelga_item_at(image.as_ptr(), image.len(), at, group) }
}
