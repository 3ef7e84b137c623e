//! The numbers of answers by name, as `include/tardorelga.h` has them for C.
//! [The crate's page](crate#the-numbers) says where each is given.
//!
//! ```
//! use tardorelga::numbers::NO_IMAGE;
//! assert_eq!(tardorelga::check(b"no tape").number, NO_IMAGE);
//! ```

/// It is done, or accepted.
pub const DONE: u32 = 0;
/// The bytes are no image.
pub const NO_IMAGE: u32 = 1;
/// An item is torn, or the reels do not end as they must.
pub const TORN_ITEM: u32 = 2;
/// An item, or the end of the image, stands where the order of a reel forbids it.
pub const OUT_OF_ORDER: u32 = 3;
/// A label field has a wrong content.
pub const WRONG_FIELD: u32 = 4;
/// A volume or file is not accessible to all.
pub const NO_ACCESS: u32 = 5;
/// Labels, counts or names do not agree with each other.
pub const CROSS_CHECK: u32 = 6;
/// A data block can't be cut into records, or is too long.
pub const WRONG_BLOCK: u32 = 7;
/// Segments are out of turn, or a record of them is too long or never ended.
pub const WRONG_SEGMENT: u32 = 8;
/// There are more bytes, files or reel names than may be.
pub const OVER_LIMIT: u32 = 9;
/// A lent buffer or list is too short.
pub const SHORT_BUFFER: u32 = 10;
/// The order sheet is illegal.
pub const ILLEGAL_SHEET: u32 = 11;
/// More reels are needed than are named.
pub const FEW_REELS: u32 = 12;
/// There is no such file or record, or no further step of a walk.
pub const NOT_THERE: u32 = 13;
/// The image to be written would be too long.
pub const LONG_IMAGE: u32 = 14;
/// A SIMH tape file is torn, or lengths don't add up.
pub const TORN_TAPE: u32 = 15;
