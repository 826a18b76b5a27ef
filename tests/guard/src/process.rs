//! A child of this process that may get killed.

use std::ffi::c_int;
use std::panic::{catch_unwind, AssertUnwindSafe};

extern "C" {
    fn fork() -> c_int;
    fn waitpid(child: c_int, status: *mut c_int, options: c_int) -> c_int;
    fn setrlimit(resource: c_int, limits: *const [u64; 2]) -> c_int;
    fn close(file: c_int) -> c_int;
}

const CORE_SIZE: c_int = 4;
const STANDARD_ERROR: c_int = 2;

/// The signal of an access to an inaccessible page.
pub const SEGMENTATION_FAULT: i32 = 11;

/// How a child ended.
#[derive(Debug, PartialEq)]
pub enum End {
    Exited(i32),
    Killed(i32),
}

/// Does the work in a child and answers how that ended: by 0, by 1 if it panicked, or by a signal.
/// This process has one thread, so the child is whole.
pub fn in_child(work: impl FnOnce()) -> End {
    // SAFETY: no other thread exists that could hold a lock in the child.
    let child = unsafe { fork() };
    assert_ne!(child, -1, "a child can be started");
    if child == 0 {
        // SAFETY: the limits are two numbers that outlive the call. A killed child leaves no core.
        unsafe { setrlimit(CORE_SIZE, &[0, 0]) };
        let panicked = catch_unwind(AssertUnwindSafe(work)).is_err();
        std::process::exit(i32::from(panicked));
    }
    let mut status = 0;
    // SAFETY: the status is one number that outlives the call.
    let waited = unsafe { waitpid(child, &mut status, 0) };
    assert_eq!(waited, child, "the child is waited for");
    match status & 0x7F {
        0 => End::Exited((status >> 8) & 0xFF),
        signal => End::Killed(signal),
    }
}

/// Drops what is written to standard error from now on: an emulator tells there that a child was
/// killed, which would look like a failure where it is what must happen.
pub fn be_silent() {
    // SAFETY: nothing here keeps the file in use.
    unsafe { close(STANDARD_ERROR) };
}
