//! Memory between inaccessible pages, mapped by hand.

use std::ffi::{c_int, c_long, c_void};
use std::ptr;
use std::sync::atomic::AtomicUsize;

extern "C" {
    fn mmap(
        address: *mut c_void,
        length: usize,
        protection: c_int,
        flags: c_int,
        file: c_int,
        offset: c_long,
    ) -> *mut c_void;
    fn mprotect(address: *mut c_void, length: usize, protection: c_int) -> c_int;
}

// Linux's numbers, on x86-64 and on most others.
const NO_ACCESS: c_int = 0;
const READ_AND_WRITE: c_int = 1 | 2;
const SHARED: c_int = 0x01;
const PRIVATE: c_int = 0x02;
const ANONYMOUS: c_int = 0x20;

/// A multiple of every usual page size, 4 to 64 KiB: an emulator protects pages of the host's size.
const PAGE: usize = 65_536;
/// More than the longest buffer here.
const ROOM: usize = 2 * PAGE;

/// Which side of a buffer lies against an inaccessible page.
#[derive(Clone, Copy, Debug)]
pub enum Side {
    Before,
    Behind,
}

/// Room for one buffer, with inaccessible pages on both sides.
pub struct Room {
    start: *mut u8,
}

impl Room {
    pub fn new() -> Room {
        let mapped = map(PAGE + PAGE + ROOM + PAGE, NO_ACCESS, PRIVATE);
        let aligned = mapped.wrapping_add(mapped.align_offset(PAGE));
        let start = aligned.wrapping_add(PAGE);
        // SAFETY: the room lies within what was just mapped, one page before and one behind it.
        let changed = unsafe { mprotect(start.cast(), ROOM, READ_AND_WRITE) };
        assert_eq!(changed, 0, "pages can be made accessible");
        Room { start }
    }

    /// Lays a buffer with this content against the page on one side. It holds until the next one is
    /// laid here.
    pub fn lay<T: Copy>(&self, content: &[T], side: Side) -> Lent<T> {
        let size = size_of_val(content);
        assert!(size <= ROOM, "the room is large enough");
        let start: *mut T = match side {
            Side::Before => self.start,
            Side::Behind => self.start.wrapping_add(ROOM - size),
        }
        .cast();
        assert!(start.is_aligned(), "a page's end is aligned for every type");
        // SAFETY: so many bytes from here on lie within the accessible room, and nothing else uses it.
        unsafe { ptr::copy_nonoverlapping(content.as_ptr(), start, content.len()) };
        Lent {
            start,
            length: content.len(),
        }
    }
}

/// A buffer that was laid.
#[derive(Clone, Copy)]
pub struct Lent<T> {
    pub start: *mut T,
    pub length: usize,
}

impl<T: Copy + PartialEq> Lent<T> {
    /// What it holds now.
    pub fn content(&self) -> &[T] {
        // SAFETY: the buffer lies in its room, which was filled up to this length and is never
        // given back.
        unsafe { std::slice::from_raw_parts(self.start, self.length) }
    }
}

/// A number that a child of this process shares with it.
pub fn shared_number() -> &'static AtomicUsize {
    let mapped = map(PAGE, READ_AND_WRITE, SHARED);
    // SAFETY: the page is accessible, zero, aligned, never given back, and used for this alone.
    unsafe { &*mapped.cast::<AtomicUsize>() }
}

fn map(length: usize, protection: c_int, sharing: c_int) -> *mut u8 {
    // SAFETY: a new mapping at an address of the system's choice touches no memory in use.
    let mapped = unsafe {
        mmap(
            ptr::null_mut(),
            length,
            protection,
            sharing | ANONYMOUS,
            -1,
            0,
        )
    };
    assert_ne!(mapped as isize, -1, "memory can be mapped");
    mapped.cast()
}
