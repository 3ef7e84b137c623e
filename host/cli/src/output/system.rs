//! What the system offers and the standard library does not: random numbers, a renaming that replaces
//! nothing, access lists, the usual mode of folders, and signals that are waited for. All calls of C's library
//! are here.

use std::ffi::{c_char, c_int, c_uint, c_void, CStr, CString};
use std::fs::File;
use std::os::fd::AsRawFd;
use std::os::unix::ffi::OsStrExt;
use std::path::Path;
use std::{io, mem, ptr};

extern "C" {
    fn getrandom(bytes: *mut c_void, length: usize, flags: c_uint) -> isize;
    fn renameat2(
        from_folder: c_int,
        from: *const c_char,
        to_folder: c_int,
        to: *const c_char,
        flags: c_uint,
    ) -> c_int;
    fn getxattr(path: *const c_char, name: *const c_char, value: *mut c_void, room: usize)
        -> isize;
    fn fsetxattr(
        file: c_int,
        name: *const c_char,
        value: *const c_void,
        length: usize,
        flags: c_int,
    ) -> c_int;
    fn fremovexattr(file: c_int, name: *const c_char) -> c_int;
    fn umask(mask: c_uint) -> c_uint;
    fn sync();
    fn sigaddset(set: *mut Signals, signal: c_int) -> c_int;
    fn sigaction(signal: c_int, new: *const Action, old: *mut Action) -> c_int;
    fn pthread_sigmask(how: c_int, set: *const Signals, old: *mut Signals) -> c_int;
    fn sigwait(set: *const Signals, signal: *mut c_int) -> c_int;
    fn raise(signal: c_int) -> c_int;
    fn _exit(status: c_int) -> !;
}

/// Errors of a call that a file system does not know.
pub const INVALID: i32 = 22;
pub const NO_CALL: i32 = 38;

const CURRENT_FOLDER: c_int = -100;
const REPLACE_NOTHING: c_uint = 1;

/// A number from the system's random source.
pub fn random() -> io::Result<u64> {
    let mut bytes = [0; 8];
    // SAFETY: the call writes at most the eight bytes that are lent.
    match unsafe { getrandom(bytes.as_mut_ptr().cast(), bytes.len(), 0) } {
        8 => Ok(u64::from_ne_bytes(bytes)),
        _ => Err(io::Error::last_os_error()),
    }
}

/// Renames to a name that nothing has, in one step, or refuses.
pub fn rename_new(from: &Path, to: &Path) -> io::Result<()> {
    let (from, to) = (c_string(from)?, c_string(to)?);
    // SAFETY: both names end with a zero byte and live until the call is done.
    let done = unsafe {
        renameat2(CURRENT_FOLDER, from.as_ptr(), CURRENT_FOLDER, to.as_ptr(), REPLACE_NOTHING)
    };
    if done == 0 {
        return Ok(());
    }
    Err(io::Error::last_os_error())
}

fn c_string(path: &Path) -> io::Result<CString> {
    CString::new(path.as_os_str().as_bytes()).map_err(io::Error::other)
}

/// A list of users and groups that something is open to beside its mode.
#[derive(Clone, Copy)]
pub enum List {
    OfItself,
    /// Of a folder alone.
    OfFilesInIt,
}

impl List {
    fn name(self) -> &'static CStr {
        match self {
            List::OfItself => c"system.posix_acl_access",
            List::OfFilesInIt => c"system.posix_acl_default",
        }
    }
}

/// Gives a new file the list of an old one, or takes away what it got from its folder.
pub fn copy_list(list: List, old: &Path, new: &File) -> io::Result<()> {
    let (file, name) = (new.as_raw_fd(), list.name().as_ptr());
    if let Some(value) = list_of(list, old)? {
        // SAFETY: the name ends with a zero byte, and so many bytes are lent for the call.
        let done = unsafe { fsetxattr(file, name, value.as_ptr().cast(), value.len(), 0) };
        return if done == 0 { Ok(()) } else { Err(io::Error::last_os_error()) };
    }
    // SAFETY: the name ends with a zero byte.
    match unsafe { fremovexattr(file, name) } {
        0 => Ok(()),
        _ => none_is_fine(io::Error::last_os_error()),
    }
}

fn list_of(list: List, path: &Path) -> io::Result<Option<Vec<u8>>> {
    const LONGEST: usize = 1 << 16;
    let (path, mut value) = (c_string(path)?, vec![0u8; LONGEST]);
    // SAFETY: both names end with a zero byte, and the call writes at most as many bytes as are lent.
    let length = unsafe {
        getxattr(path.as_ptr(), list.name().as_ptr(), value.as_mut_ptr().cast(), LONGEST)
    };
    if length < 0 {
        return none_is_fine(io::Error::last_os_error()).map(|()| None);
    }
    value.truncate(length as usize);
    Ok(Some(value))
}

/// There may be no list, or a file system without lists.
fn none_is_fine(error: io::Error) -> io::Result<()> {
    const NO_DATA: i32 = 61;
    const NOT_SUPPORTED: i32 = 95;
    match error.raw_os_error() {
        Some(NO_DATA | NOT_SUPPORTED) => Ok(()),
        _ => Err(error),
    }
}

/// What a new folder may have of mode 777; the mask can be read only by setting it.
pub fn usual_folder_mode() -> u32 {
    // SAFETY: the call takes any number and touches no memory.
    let mask = unsafe { umask(0o077) };
    // SAFETY: as above.
    unsafe { umask(mask) };
    0o777 & !mask
}

/// Waits until all that was written anywhere is on its disk.
pub fn sync_all_disks() {
    // SAFETY: the call takes nothing and touches no memory.
    unsafe { sync() }
}

/// A set of signals, as C's library has it.
#[repr(C)]
pub struct Signals([u64; 16]);

/// What a process does at a signal, as C's library has it.
#[repr(C)]
struct Action {
    handler: usize,
    mask: Signals,
    flags: c_int,
    restorer: usize,
}

const HANGUP: c_int = 1;
const INTERRUPT: c_int = 2;
const TERMINATE: c_int = 15;
const FILE_TOO_LARGE: c_int = 25;

const BLOCK: c_int = 0;
const UNBLOCK: c_int = 1;
const IGNORED: usize = 1;

impl Signals {
    /// The signals by which a program is told to end, those that this process does not ignore: a wait
    /// takes ignored ones too, and a program under `nohup` goes on.
    pub fn that_end() -> Signals {
        let endings = [HANGUP, INTERRUPT, TERMINATE];
        Signals::of(endings.into_iter().filter(|&signal| !is_ignored(signal)))
    }

    /// The signal of a file over its size limit, which ends a program before the write can fail.
    pub fn of_a_file_too_large() -> Signals {
        Signals::of([FILE_TOO_LARGE])
    }

    fn of(signals: impl IntoIterator<Item = c_int>) -> Signals {
        let mut set = Signals([0; 16]);
        for signal in signals {
            // SAFETY: the set is lent for the call, and the number is that of a signal.
            unsafe { sigaddset(&mut set, signal) };
        }
        set
    }

    /// From now on they come neither to this thread nor to those that it starts.
    pub fn block(&self) {
        // SAFETY: the set is lent for the call; no old set is asked for.
        unsafe { pthread_sigmask(BLOCK, self, ptr::null_mut()) };
    }

    /// Waits for one of them.
    pub fn wait(&self) -> c_int {
        let mut signal = 0;
        // SAFETY: both are lent for the call, which writes a number.
        while unsafe { sigwait(self, &mut signal) } != 0 {}
        signal
    }

    /// Ends the process by the signal, so that its parent sees that. The first process of a container does
    /// not die of signals, and leaves as a shell would tell it.
    pub fn die_of(&self, signal: c_int) -> ! {
        // SAFETY: the set is lent for the call; no old set is asked for.
        unsafe { pthread_sigmask(UNBLOCK, self, ptr::null_mut()) };
        // SAFETY: the call takes the number of a signal and touches no memory.
        unsafe { raise(signal) };
        // SAFETY: the call takes a number and does not come back.
        unsafe { _exit(128 + signal) }
    }
}

fn is_ignored(signal: c_int) -> bool {
    // SAFETY: an action is numbers alone, for which zeros are values.
    let mut action: Action = unsafe { mem::zeroed() };
    // SAFETY: nothing is set; what holds is written into the action that is lent.
    unsafe { sigaction(signal, ptr::null(), &mut action) };
    action.handler == IGNORED
}
