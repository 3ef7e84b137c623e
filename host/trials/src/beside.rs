//! The library of another commit, as `host/beside` leaves it, for benchmarks that time both in one run.

use std::ffi::{c_char, c_int, c_void, CStr};
use tardorelga::Verdict;

const FILE: &CStr = {
    let path = concat!(env!("CARGO_MANIFEST_DIR"), "/../../target/beside.so\0");
    match CStr::from_bytes_with_nul(path.as_bytes()) {
        Ok(path) => path,
        Err(_) => panic!("a path has no zero byte"),
    }
};

extern "C" {
    fn dlopen(file: *const c_char, flags: c_int) -> *mut c_void;
    fn dlsym(library: *mut c_void, name: *const c_char) -> *mut c_void;
}

/// Names are looked up at once.
const NOW: c_int = 2;

#[derive(Clone, Copy)]
pub struct Beside(Check);

type Check = unsafe extern "C" fn(*const u8, usize) -> Verdict;

impl Beside {
    /// None where `host/beside` has left no library.
    pub fn open() -> Option<Beside> {
        // SAFETY: strings that end in a zero byte; a symbol of that name is the function of the C header.
        unsafe {
            let library = dlopen(FILE.as_ptr(), NOW);
            if library.is_null() {
                return None;
            }
            let check = dlsym(library, c"tardorelga_check".as_ptr());
            assert!(!check.is_null(), "target/beside.so has tardorelga_check");
            Some(Beside(std::mem::transmute::<*mut c_void, Check>(check)))
        }
    }

    pub fn check(self, image: &[u8]) -> Verdict {
        // SAFETY: a slice, lent for the call.
        unsafe { (self.0)(image.as_ptr(), image.len()) }
    }
}
