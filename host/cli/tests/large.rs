//! Images of real size, up to the longest.

mod common;

use common::{folder, run, shell};
use std::fs;
use std::path::Path;

const LONGEST: usize = 16_777_215;

/// A sheet of one fixed-length file over the bytes of `data`.
fn fixed(folder: &Path, block: usize, record: usize, data: &[u8]) {
    let sheet = format!(
        "set BIG001\nquota 999999\nreel GATE01\nfile BIG\nformat F\nblock-length {block}\n\
         record-length {record}\ndata data each {record}\n"
    );
    fs::write(folder.join("sheet"), sheet).unwrap();
    fs::write(folder.join("data"), data).unwrap();
}

/// Bytes without a pattern that repeats at records or blocks, and none of them padding.
fn bytes(count: usize) -> Vec<u8> {
    (0..count as u64).map(|i| (i * i % 64) as u8).collect()
}

/// No command needs more than the image, the output and a few megabytes.
const MEMORY: &str = "ulimit -v 60000; ";

#[test]
fn an_image_of_sixteen_megabytes_is_packed_checked_and_read() {
    let d = folder("large");
    let data = bytes(208_000 * 80);
    fixed(&d, 32_720, 80, &data);
    shell("$T pack $D/sheet -o $D/big.tgi", &d).done();
    assert!(fs::metadata(d.join("big.tgi")).unwrap().len() > 16_600_000);
    let checked = shell(&format!("{MEMORY} $T check $D/big.tgi"), &d).done();
    let accepted = "/big.tgi: accepted, 1 file, 208000 records, 16640000 bytes\n";
    assert!(checked.text().ends_with(accepted), "{}", checked.text());
    let records = shell(&format!("{MEMORY} $T records $D/big.tgi 1"), &d).done();
    assert!(records.out == data);
    let one = shell(&format!("{MEMORY} $T record - 1 208000 < $D/big.tgi"), &d).done();
    assert_eq!(one.out, data[data.len() - 80..]);
    let listing = shell(&format!("{MEMORY} $T list $D/big.tgi"), &d).done();
    assert!(listing.text().ends_with("0001 BIG               F 208000 16640000\n"));
    let same = "$T rewrite $D/big.tgi --quota 999999 --reels GATE01 -o $D/same.tgi";
    shell(&format!("{MEMORY} {same} && cmp $D/big.tgi $D/same.tgi"), &d).done();
    shell(&format!("{MEMORY} $T unpack $D/big.tgi $D/apart"), &d).done();
    shell("$T pack $D/apart/sheet -o - | cmp $D/big.tgi -", &d).done();
}

#[test]
fn millions_of_one_byte_records_are_packed_and_read() {
    let d = folder("many");
    let data = bytes(16_000_000);
    fixed(&d, 99_999, 1, &data);
    shell("$T pack $D/sheet -o $D/many.tgi", &d).done();
    assert!(shell("$T records $D/many.tgi 1", &d).done().out == data);
    assert_eq!(shell("$T record $D/many.tgi 1 16000000", &d).done().out, data[data.len() - 1..]);
    shell(&format!("{MEMORY} $T unpack $D/many.tgi $D/apart"), &d).done();
    shell("$T pack $D/apart/sheet -o - | cmp $D/many.tgi -", &d).done();
}

#[test]
fn millions_of_records_of_differing_lengths_come_back() {
    let d = folder("differing");
    let sheet = "set BIG001\nquota 999999\nreel GATE01\nfile BIG\nformat D\nblock-length 32760\n\
                 record-length 9\ndata data lengths lengths\n";
    let count = 3_000_000;
    let lengths: String = (0..count).map(|i| format!("{}\n", i % 2)).collect();
    fs::write(d.join("sheet"), sheet).unwrap();
    fs::write(d.join("lengths"), lengths).unwrap();
    fs::write(d.join("data"), bytes(count / 2)).unwrap();
    shell("$T pack $D/sheet -o $D/many.tgi", &d).done();
    shell(&format!("{MEMORY} $T unpack $D/many.tgi $D/apart"), &d).done();
    shell("cmp $D/apart/0001.lengths $D/lengths && cmp $D/apart/0001.records $D/data", &d).done();
    shell("$T pack $D/apart/sheet -o - | cmp $D/many.tgi -", &d).done();
}

/// One-byte blocks grow most; beside the reel there is room for an image and a few megabytes.
#[test]
fn the_longest_image_goes_out_as_a_reel_and_comes_back() {
    let d = folder("longest");
    let blocks = (LONGEST - 8) / 4;
    let image = [b"TGI\0\x01", &b"\0\0\x01A".repeat(blocks)[..], &[0xFF; 3]].concat();
    fs::write(d.join("long.tgi"), &image).unwrap();
    const MEMORY: &str = "ulimit -v 80000; ";
    shell(&format!("{MEMORY} $T export $D/long.tgi -o $D/long"), &d).done();
    let length = fs::metadata(d.join("long-1.tap")).unwrap().len();
    assert_eq!(length, 10 * blocks as u64 + 4);
    shell(&format!("{MEMORY} $T import $D/long-1.tap -o $D/same.tgi"), &d).done();
    assert!(fs::read(d.join("same.tgi")).unwrap() == image);
}

#[test]
fn a_longer_image_is_neither_written_nor_read() {
    let d = folder("too-large");
    fixed(&d, 32_720, 80, &bytes(209_700 * 80));
    let sheet = d.join("sheet");
    let long =
        "refused 14: the image would be longer than 16777215 bytes: its 209700 records have \
                16776000 bytes, and labels and blocks take more; make two sets of it";
    shell("$T pack $D/sheet -o $D/big.tgi", &d).told(1, &format!("{}: {long}", sheet.display()));
    assert!(!d.join("big.tgi").exists());
    let image = d.join("long.tgi");
    fs::write(&image, vec![0; LONGEST + 1]).unwrap();
    let ran = run(&["check", image.to_str().unwrap()]);
    let over = "refused 9 at item 0 byte 0: over a limit: 16777215 bytes, 64 files, 16 reels\n";
    assert_eq!(ran.text(), format!("{}: {over}", image.display()));
    let endless = shell(&format!("{MEMORY} $T check - < /dev/zero"), &d);
    assert_eq!((endless.text(), endless.status), (&format!("-: {over}")[..], Some(1)));
}
