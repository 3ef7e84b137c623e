//! Runs a command under ptrace, from one system call of its main thread to the next. Its other thread, which
//! waits for signals, runs freely. Where the system does not permit this, the tests fail.

use std::ffi::{c_int, c_long, c_ulong, c_void};
use std::io::{self, Read};
use std::os::unix::process::{CommandExt, ExitStatusExt};
use std::process::{Child, Command, ExitStatus, Stdio};

extern "C" {
    fn ptrace(request: c_int, process: c_int, at: *mut c_void, data: *mut c_void) -> c_long;
    fn waitpid(process: c_int, status: *mut c_int, options: c_int) -> c_int;
    fn kill(process: c_int, signal: c_int) -> c_int;
    fn signal(signal: c_int, handler: usize) -> usize;
    fn prctl(option: c_int, ...) -> c_int;
}

const TRACE_ME: c_int = 0;
const DETACH: c_int = 17;
const NEXT_CALL: c_int = 24;
const GET_REGISTERS: c_int = 12;
const SET_OPTIONS: c_int = 0x4200;
/// Stops at calls are told from others, and the program ends with the test.
const OPTIONS: usize = 0x0000_0001 | 0x0010_0000;
const STOP_AT_CALL: c_int = 5 | 0x80;

/// A program that stands still.
pub struct Traced {
    child: Child,
    /// A signal that it has yet to get.
    due: c_int,
}

/// How a program ended, and what it said.
pub struct Ended {
    pub status: ExitStatus,
    pub err: String,
}

/// What a call is made with: its number and its first word.
pub struct Call {
    pub number: u64,
    pub first: u64,
}

fn asked(request: c_int, process: c_int, data: *mut c_void) {
    // SAFETY: the requests made here write nothing, or registers into the room that is lent.
    let answer = unsafe { ptrace(request, process, std::ptr::null_mut(), data) };
    assert_ne!(answer, -1, "ptrace {request}: {}", io::Error::last_os_error());
}

fn waited(process: c_int) -> ExitStatus {
    let mut status = 0;
    // SAFETY: the call writes one number.
    let answer = unsafe { waitpid(process, &mut status, 0) };
    assert_eq!(answer, process, "waitpid: {}", io::Error::last_os_error());
    ExitStatus::from_raw(status)
}

/// Has a command begin with a signal ignored.
pub fn ignore(command: &mut Command, number: c_int) {
    const IGNORED: usize = 1;
    let ignore = move || {
        // SAFETY: the call takes two numbers.
        unsafe { signal(number, IGNORED) };
        Ok(())
    };
    // SAFETY: between fork and exec, one system call is made and nothing else.
    unsafe { command.pre_exec(ignore) };
}

/// Has a command begin without the right of the system's owner to read and write whatever the modes say.
/// Who may not take it away has none.
pub fn bind_to_modes(command: &mut Command) {
    const DROP_FOR_GOOD: c_int = 24;
    const OVERRIDE_MODES: c_ulong = 1;
    const READ_AND_SEARCH: c_ulong = 2;
    let bind = || {
        for right in [OVERRIDE_MODES, READ_AND_SEARCH] {
            // SAFETY: the call takes two numbers.
            unsafe { prctl(DROP_FOR_GOOD, right) };
        }
        Ok(())
    };
    // SAFETY: between fork and exec, two system calls are made and nothing else.
    unsafe { command.pre_exec(bind) };
}

impl Traced {
    /// Stands before the first instruction of the command.
    pub fn start(command: &mut Command) -> Traced {
        command.stdin(Stdio::null()).stdout(Stdio::null()).stderr(Stdio::piped());
        let trace_me = || {
            let none = std::ptr::null_mut();
            // SAFETY: the call takes no memory.
            match unsafe { ptrace(TRACE_ME, 0, none, none) } {
                0 => Ok(()),
                _ => Err(io::Error::last_os_error()),
            }
        };
        // SAFETY: between fork and exec, one system call is made and nothing else.
        unsafe { command.pre_exec(trace_me) };
        let traced = Traced { child: command.spawn().expect("a traced program"), due: 0 };
        assert!(waited(traced.id()).stopped_signal().is_some());
        asked(SET_OPTIONS, traced.id(), OPTIONS as *mut c_void);
        traced
    }

    pub fn id(&self) -> c_int {
        self.child.id() as c_int
    }

    /// Lets it go to where its next call begins or ends; not if it has ended before.
    pub fn step(mut self) -> Result<Traced, Ended> {
        loop {
            asked(NEXT_CALL, self.id(), self.due as usize as *mut c_void);
            let status = waited(self.id());
            self.due = match status.stopped_signal() {
                None => return Err(self.ended(status)),
                Some(STOP_AT_CALL) => 0,
                Some(signal) => signal,
            };
            if self.due == 0 {
                return Ok(self);
            }
        }
    }

    /// The call at whose begin or end it stands.
    pub fn call(&self) -> Call {
        let mut registers = [0u64; 27];
        asked(GET_REGISTERS, self.id(), registers.as_mut_ptr().cast());
        Call { number: registers[15], first: registers[14] }
    }

    /// Sends a signal, and lets it go.
    pub fn end_by(self, signal: c_int) -> Ended {
        // SAFETY: the process is a child that nobody has waited for.
        assert_eq!(unsafe { kill(self.id(), signal) }, 0);
        // Where the signal has ended it already, there is nothing to let go.
        // SAFETY: the request takes no memory.
        unsafe { ptrace(DETACH, self.id(), std::ptr::null_mut(), std::ptr::null_mut()) };
        let status = waited(self.id());
        self.ended(status)
    }

    /// Lets it go to its end.
    pub fn go_on(self) -> Ended {
        let mut going = Ok(self);
        loop {
            match going {
                Ok(traced) => going = traced.step(),
                Err(ended) => return ended,
            }
        }
    }

    fn ended(mut self, status: ExitStatus) -> Ended {
        let mut err = String::new();
        let mut said = self.child.stderr.take().expect("its sentences");
        said.read_to_string(&mut err).expect("text");
        Ended { status, err }
    }
}
