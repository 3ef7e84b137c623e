//! Labelled magnetic tape sets (ECMA-13, 4th edition, Label Standard Version 4): checked, read,
//! written, put into normal form and into SIMH tape files and back, by a library whose answers are
//! proved equal to their definition.
//!
//! ```
//! let verdict = tardorelga::check(b"TGI\x00\x01\xFF\xFF\xFF");
//! assert_eq!(verdict.to_string(), "refused 3 at item 0 byte 0");
//! ```
//!
//! [`files`] hands out the files of a set and their records, and an [`Order`] is written as one:
//!
//! ```
//! # fn main() -> Result<(), tardorelga::Verdict> {
//! let image = include_bytes!("../doc/ledger.tgi");
//! let mut order = tardorelga::Order::new("COPY01");
//! order.reel("GATE02");
//! for file in tardorelga::files(image)? {
//!     assert_eq!((file.identifier(), file.created()), ("LEDGER", " 85335"));
//!     assert!(file.records().all(|record| record.len() == 10));
//!     order.copy(&file).generation(2);
//! }
//! assert!(tardorelga::check(&order.write()?).is_accepted());
//! # Ok(())
//! # }
//! ```
//!
//! # The numbers
//!
//! They have [names](numbers) too.
//!
//! | number | given where |
//! |--:|---|
//! | 0 | done |
//! | 1 | no image: under five bytes, or mark or version wrong |
//! | 2 | torn items: a bad length, an item cut short, no reel, more than 16, no end of reel at the end |
//! | 3 | an item, or the end of the image, where the order of a reel forbids it |
//! | 4 | a label field with a wrong content |
//! | 5 | a volume or file that is not accessible to all |
//! | 6 | a cross-check fails |
//! | 7 | a data block can't be cut into units, or is too long |
//! | 8 | segments out of turn, a record of segments that is too long, or one that is never ended |
//! | 9 | an image over 16,777,215 bytes, a 65th file, more than 16 reel names |
//! | 10 | a lent buffer or list is too short |
//! | 11 | an illegal order sheet |
//! | 12 | too few reel names |
//! | 13 | no such file or record, or no further step of a walk |
//! | 14 | the written image would pass 16,777,215 bytes |
//! | 15 | a SIMH tape file that is torn, or lengths that don't add up |
//!
//! # Lent buffers
//!
//! A buffer that is lent to be written to keeps every byte with a refusal, and behind what was
//! written. Nothing is kept of any buffer behind a call, and nothing is allocated but by [`Records`],
//! [`Order`] and what makes a text.

#![deny(missing_docs)]

#[doc(hidden)]
pub mod ffi;
mod fields;
mod file;
mod files;
mod format;
mod items;
mod listing;
pub mod numbers;
mod order;
mod records;
mod rewrite;
mod sheet;
mod simh;
mod verdict;

pub use fields::{field, fields, Field};
pub use file::{file, File};
pub use files::{files, Files};
pub use format::Format;
pub use items::{items, reel_names, Item, Items, Kind};
pub use listing::listing;
pub use order::{Order, OrderedFile};
pub use records::{begin, place, record, records, Facts, Place, Records, Walk};
pub use rewrite::rewrite;
pub use sheet::{write, Sheet};
pub use simh::{from_simh, to_simh, Tapes};
pub use verdict::{check, Verdict};

/// No image has more bytes.
pub const LONGEST_IMAGE: usize = 16_777_215;
/// No set has more files.
pub const MOST_FILES: usize = 64;
/// No set has more reels.
pub const MOST_REELS: usize = 16;
/// No reel may be allowed more data blocks by an order sheet.
pub const HIGHEST_QUOTA: u64 = 999_999;
/// No record has more bytes: a joining buffer of so many takes any.
pub const LONGEST_RECORD: usize = 99_999;
/// No listing has more bytes.
pub const LONGEST_LISTING: usize = 4_096;

/// The bytes of a set identifier or a reel name.
pub const NAME: usize = 6;
/// The bytes of a file on an order sheet, see [`Sheet::files`].
pub const FILE_ENTRY: usize = 46;
