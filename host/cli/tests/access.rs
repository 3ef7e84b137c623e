//! Access lists: what replaces a file or an empty folder is open to the same users, and to no others. On a file
//! system without lists all of them are empty, and the modes alone are compared.

mod common;

use common::{folder, mode, run};
use std::ffi::{c_char, c_int, c_void, CString};
use std::fs;
use std::os::unix::fs::PermissionsExt;
use std::path::Path;

extern "C" {
    fn setxattr(
        path: *const c_char,
        name: *const c_char,
        value: *const c_void,
        length: usize,
        flags: c_int,
    ) -> c_int;
    fn getxattr(path: *const c_char, name: *const c_char, value: *mut c_void, room: usize)
        -> isize;
}

const OF_ITSELF: &str = "system.posix_acl_access";
const OF_FILES_IN_IT: &str = "system.posix_acl_default";

/// A list as the system keeps it: user 4321 may read and write, the owning group nothing.
fn list() -> Vec<u8> {
    const NOBODY: u32 = u32::MAX;
    let (owner, user, group, most, others) = (1u16, 2u16, 4u16, 16u16, 32u16);
    let entries: [(u16, u16, u32); 5] = [
        (owner, 7, NOBODY),
        (user, 6, 4321),
        (group, 0, NOBODY),
        (most, 6, NOBODY),
        (others, 0, NOBODY),
    ];
    let mut bytes = 2u32.to_le_bytes().to_vec();
    for (whose, rights, number) in entries {
        bytes.extend(whose.to_le_bytes().into_iter().chain(rights.to_le_bytes()));
        bytes.extend(number.to_le_bytes());
    }
    bytes
}

fn text(path: &Path) -> CString {
    CString::new(path.to_str().unwrap()).unwrap()
}

fn set_list(path: &Path, name: &str) {
    let (path, name, value) = (text(path), CString::new(name).unwrap(), list());
    // SAFETY: both names end with a zero byte, and the value is lent for the call.
    unsafe {
        setxattr(path.as_ptr(), name.as_ptr(), value.as_ptr().cast(), value.len(), 0);
    }
}

fn list_of(path: &Path, name: &str) -> Option<Vec<u8>> {
    let (path, name, mut value) = (text(path), CString::new(name).unwrap(), vec![0u8; 1000]);
    let room = value.len();
    // SAFETY: both names end with a zero byte, and the call writes at most as much as there is room.
    let length = unsafe { getxattr(path.as_ptr(), name.as_ptr(), value.as_mut_ptr().cast(), room) };
    usize::try_from(length).ok().map(|length| value[..length].to_vec())
}

/// All by which something is open to anybody.
fn access(path: &Path) -> (u32, Option<Vec<u8>>, Option<Vec<u8>>) {
    (mode(path), list_of(path, OF_ITSELF), list_of(path, OF_FILES_IN_IT))
}

fn set_mode(path: &Path, mode: u32) {
    fs::set_permissions(path, fs::Permissions::from_mode(mode)).unwrap();
}

fn pack_over(out: &Path) {
    run(&["pack", "--force", "samples/ledger.sheet", "-o", out.to_str().unwrap()]).done();
    assert_eq!(fs::metadata(out).unwrap().len(), 448);
}

#[test]
fn a_file_keeps_its_list() {
    let out = folder("list-kept").join("out");
    fs::write(&out, "old").unwrap();
    set_list(&out, OF_ITSELF);
    let before = access(&out);
    pack_over(&out);
    assert_eq!(access(&out), before);
}

/// The folder would give each new file a list.
#[test]
fn a_file_without_a_list_gets_none() {
    let d = folder("list-none");
    let out = d.join("out");
    fs::write(&out, "old").unwrap();
    set_mode(&out, 0o660);
    set_list(&d, OF_FILES_IN_IT);
    pack_over(&out);
    assert_eq!(access(&out), (0o660, None, None));
}

#[test]
fn an_empty_folder_keeps_its_lists() {
    let d = folder("list-folder");
    set_list(&d, OF_FILES_IN_IT);
    let (listed, plain) = (d.join("listed"), d.join("plain"));
    for out in [&listed, &plain] {
        fs::create_dir(out).unwrap();
    }
    set_list(&listed, OF_ITSELF);
    set_mode(&plain, 0o750);
    for out in [&listed, &plain] {
        let before = access(out);
        run(&["unpack", "samples/ledger.tgi", out.to_str().unwrap()]).done();
        assert_eq!(access(out), before);
        let own = list_of(&out.join("sheet"), OF_ITSELF);
        assert_eq!(own.is_some(), before.2.is_some(), "files get a list of their folder");
    }
}
