//! An order sheet that is put together piece by piece.

use crate::{write, File, Format, Sheet, Verdict, FILE_ENTRY, HIGHEST_QUOTA, LONGEST_IMAGE, NAME};
use std::fmt;

/// An order sheet of its own bytes: set identifier, quota, reel names, and files with their records.
/// Anything may be ordered; [`write()`](Order::write) tells whether it is legal.
///
/// ```
/// use tardorelga::{Format, Order};
/// let mut order = Order::new("SET001");
/// order.quota(1).reel("GATE01");
/// order.file("LEDGER", Format::Fixed, 20, 10).created(" 85335").record(b"0123456789");
/// assert_eq!(order.write().unwrap(), include_bytes!("../doc/ledger.tgi"));
/// ```
#[derive(Clone)]
pub struct Order {
    set: [u8; NAME],
    files: Vec<u8>,
    counts: Vec<u64>,
    lengths: Vec<u64>,
    data: Vec<u8>,
    quota: u64,
    names: Vec<u8>,
}

/// What a value that does not fit its field is put down as: no label can hold it, so that the library
/// refuses the sheet.
const UNFIT: u8 = 0;

/// A text at the width of its field, with SPACEs behind it.
fn text<const WIDTH: usize>(value: &str) -> [u8; WIDTH] {
    let mut field = [b' '; WIDTH];
    match field.get_mut(..value.len()) {
        Some(front) => front.copy_from_slice(value.as_bytes()),
        None => field.fill(UNFIT),
    }
    field
}

/// A number at the width of its field, with ZEROs before it.
fn number<const WIDTH: usize>(value: u32) -> [u8; WIDTH] {
    text(&format!("{value:0WIDTH$}"))
}

impl Order {
    /// An order for a set of this identifier, without reels and files, and with the highest quota, so that as
    /// few reels as can be are needed.
    pub fn new(set: &str) -> Order {
        Order {
            set: text(set),
            files: Vec::new(),
            counts: Vec::new(),
            lengths: Vec::new(),
            data: Vec::new(),
            quota: HIGHEST_QUOTA,
            names: Vec::new(),
        }
    }

    /// How many data blocks a reel may hold, 1 to 999,999.
    pub fn quota(&mut self, blocks: u64) -> &mut Order {
        self.quota = blocks;
        self
    }

    /// The name of the next reel; 1 to 16 are named, and as many as needed are written.
    pub fn reel(&mut self, name: &str) -> &mut Order {
        self.names.extend(text::<NAME>(name));
        self
    }

    /// The next file, of generation 1, version 0 and no dates.
    pub fn file(
        &mut self,
        identifier: &str,
        format: Format,
        block_length: u32,
        record_length: u32,
    ) -> OrderedFile<'_> {
        let mut entry = *b"                 000100 00000 00000           ";
        entry[..17].copy_from_slice(&text::<17>(identifier));
        entry[35] = format.letter();
        entry[36..41].copy_from_slice(&number::<5>(block_length));
        entry[41..].copy_from_slice(&number::<5>(record_length));
        self.begin(&entry)
    }

    /// The next file, with the fields and the records of one that was read.
    ///
    /// ```
    /// let image = include_bytes!("../doc/ledger.tgi");
    /// let mut order = tardorelga::Order::new("SET001");
    /// order.reel("GATE01").copy(&tardorelga::file(image, 1).unwrap());
    /// assert_eq!(order.write().unwrap(), image);
    /// ```
    pub fn copy(&mut self, file: &File) -> OrderedFile<'_> {
        let mut copy = self.begin(&file.entry());
        copy.records(file.records());
        copy
    }

    fn begin(&mut self, entry: &[u8; FILE_ENTRY]) -> OrderedFile<'_> {
        self.files.extend(entry);
        self.counts.push(0);
        OrderedFile { order: self }
    }

    /// The sheet, lent.
    ///
    /// ```
    /// let order = tardorelga::Order::new("SET");
    /// assert_eq!((order.sheet().set, order.sheet().quota), (&b"SET   "[..], 999_999));
    /// ```
    pub fn sheet(&self) -> Sheet<'_> {
        Sheet {
            set: &self.set,
            files: &self.files,
            counts: &self.counts,
            lengths: &self.lengths,
            data: &self.data,
            quota: self.quota,
            names: &self.names,
        }
    }

    /// The image of the set, or 9, 11, 12 or 14; 11 too where a value does not fit its field.
    ///
    /// ```
    /// let without_files = tardorelga::Order::new("SET001").reel("GATE01").write();
    /// assert_eq!(without_files.unwrap_err().number, 11);
    /// ```
    pub fn write(&self) -> Result<Vec<u8>, Verdict> {
        let mut image = vec![0; LONGEST_IMAGE];
        let len = write(&self.sheet(), &mut image)?;
        image.truncate(len);
        image.shrink_to_fit();
        Ok(image)
    }
}

/// As its sheet, without the records.
impl fmt::Debug for Order {
    fn fmt(&self, f: &mut fmt::Formatter) -> fmt::Result {
        f.debug_tuple("Order").field(&self.sheet()).finish()
    }
}

/// The file of an [`Order`] that was begun last: its fields that have a usual value, and its records.
///
/// ```
/// use tardorelga::{Format, Order};
/// let mut order = Order::new("NIGHT7");
/// order.reel("GATE01");
/// let mut log = order.file("LOG", Format::Variable, 2048, 84);
/// log.generation(3).version(1).created(" 85335").expires(" 86001");
/// log.record(b"LINE OPEN").records(["NIGHT SHIFT", "LINE CLOSED"]);
/// let image = order.write().unwrap();
/// let file = tardorelga::file(&image, 1).unwrap();
/// assert_eq!((file.generation(), file.version(), file.created()), (3, 1, " 85335"));
/// assert_eq!((file.records().len(), file.bytes()), (3, 31));
/// ```
#[derive(Debug)]
pub struct OrderedFile<'a> {
    order: &'a mut Order,
}

impl OrderedFile<'_> {
    /// The generation, 1 to 9999, else 1.
    pub fn generation(&mut self, generation: u32) -> &mut Self {
        self.put(17, number::<4>(generation))
    }

    /// The version of the generation, 0 to 99, else 0.
    pub fn version(&mut self, version: u32) -> &mut Self {
        self.put(21, number::<2>(version))
    }

    /// The creation date, six characters such as ` 85335`: SPACE or `0`, year and day; else ` 00000`.
    pub fn created(&mut self, date: &str) -> &mut Self {
        self.put(23, text::<6>(date))
    }

    /// The expiration date, in the same form.
    pub fn expires(&mut self, date: &str) -> &mut Self {
        self.put(29, text::<6>(date))
    }

    /// The next record.
    pub fn record(&mut self, record: &[u8]) -> &mut Self {
        let Order { counts, lengths, data, .. } = &mut *self.order;
        data.extend_from_slice(record);
        lengths.push(record.len() as u64);
        if let Some(count) = counts.last_mut() {
            *count += 1;
        }
        self
    }

    /// The next records.
    pub fn records<R: AsRef<[u8]>>(&mut self, records: impl IntoIterator<Item = R>) -> &mut Self {
        for record in records {
            self.record(record.as_ref());
        }
        self
    }

    /// Writes over a field of the last entry.
    fn put<const WIDTH: usize>(&mut self, at: usize, value: [u8; WIDTH]) -> &mut Self {
        let entry = self.order.files.len() - FILE_ENTRY;
        self.order.files[entry + at..][..WIDTH].copy_from_slice(&value);
        self
    }
}
