//! Buffers between guard pages: who touches a byte beyond is stopped. What a call may only read can be
//! sealed, so that it is stopped at a store there, too.

use crate::library::{guard, Buffer, LentImages, GUARD};
use crate::random::Random;
use crate::reference::Images;
use std::ffi::c_void;
use std::ptr::{null_mut, NonNull};
use std::slice;

extern "C" {
    fn mmap(at: *mut c_void, len: usize, access: i32, flags: i32, file: i32, offset: i64) -> *mut c_void;
    fn mprotect(at: *mut c_void, len: usize, access: i32) -> i32;
    fn munmap(at: *mut c_void, len: usize) -> i32;
}

const NO_ACCESS: i32 = 0;
const READ: i32 = 1;
const WRITE: i32 = 2;
const PRIVATE_ANONYMOUS: i32 = 0x22;
/// A page of memory.
const GUARD_PAGE: usize = 4_096;

/// Where a buffer stands between the guard pages.
#[derive(Clone, Copy, PartialEq, Eq, Debug)]
pub enum Placement {
    /// Its last byte before the one behind.
    AtTheEnd,
    /// Its first byte behind the one in front.
    AtTheStart,
    /// At any byte.
    Free,
}

/// A copy lent to the library, with guard bytes where no guard page is.
pub struct PageGuarded {
    room: NonNull<u8>,
    size: usize,
    start: usize,
    len: usize,
}

impl PageGuarded {
    pub fn new() -> PageGuarded {
        PageGuarded { room: NonNull::dangling(), size: 0, start: 0, len: 0 }
    }

    /// Takes a copy of the content.
    pub fn lend(&mut self, content: &[u8], placement: Placement, random: &mut Random) {
        let needed = content.len() + 2 * GUARD + 16;
        if needed > self.size {
            self.build(needed);
        }
        self.len = content.len();
        self.start = match placement {
            Placement::AtTheEnd => self.size - self.len,
            Placement::AtTheStart => 0,
            Placement::Free => GUARD + random.below(16),
        };
        let (front, behind) = self.guards();
        let (start, len) = (self.start, self.len);
        let room = self.bytes_mut();
        room[start..start + len].copy_from_slice(content);
        front.chain(behind).for_each(|i| room[i] = guard(i));
    }

    fn build(&mut self, needed: usize) {
        self.tear_down();
        let size = needed.next_power_of_two().max(GUARD_PAGE);
        // SAFETY: new memory is asked for, and of it the middle is opened.
        unsafe {
            let all = mmap(null_mut(), size + 2 * GUARD_PAGE, NO_ACCESS, PRIVATE_ANONYMOUS, -1, 0);
            let room = (all as *mut u8).wrapping_add(GUARD_PAGE);
            let opened = all as isize != -1 && mprotect(room.cast(), size, READ | WRITE) == 0;
            assert!(opened, "no memory");
            (self.room, self.size) = (NonNull::new_unchecked(room), size);
        }
    }

    fn tear_down(&mut self) {
        if self.size > 0 {
            // SAFETY: `build` has asked for as much.
            unsafe { munmap(self.room.as_ptr().sub(GUARD_PAGE).cast(), self.size + 2 * GUARD_PAGE) };
        }
    }

    /// The places of the guard bytes before and behind the copy.
    fn guards(&self) -> (std::ops::Range<usize>, std::ops::Range<usize>) {
        let end = self.start + self.len;
        (self.start.saturating_sub(GUARD)..self.start, end..(end + GUARD).min(self.size))
    }

    fn bytes(&self) -> &[u8] {
        // SAFETY: `build` has opened as much.
        unsafe { slice::from_raw_parts(self.room.as_ptr(), self.size) }
    }

    fn bytes_mut(&mut self) -> &mut [u8] {
        // SAFETY: the same, and it is not sealed.
        unsafe { slice::from_raw_parts_mut(self.room.as_ptr(), self.size) }
    }

    pub fn content(&self) -> &[u8] {
        &self.bytes()[self.start..self.start + self.len]
    }

    /// True when no guard byte was changed.
    pub fn guarded(&self) -> bool {
        let (front, behind) = self.guards();
        let bytes = self.bytes();
        front.chain(behind).all(|i| bytes[i] == guard(i))
    }

    /// From here on the pages of memory that it is in can only be read, or be stored into again.
    pub fn seal(&mut self, sealed: bool) {
        let access = if sealed { READ } else { READ | WRITE };
        let (first, end) =
            (self.start / GUARD_PAGE * GUARD_PAGE, (self.start + self.len).next_multiple_of(GUARD_PAGE));
        // SAFETY: `build` has opened as much.
        let changed = unsafe { mprotect(self.room.as_ptr().add(first).cast(), end - first, access) };
        assert!(changed == 0, "memory keeps its access");
    }
}

impl Drop for PageGuarded {
    fn drop(&mut self) {
        self.tear_down();
    }
}

impl Buffer for PageGuarded {
    fn pointer(&mut self) -> *mut u8 {
        self.room.as_ptr().wrapping_add(self.start)
    }

    fn length(&self) -> usize {
        self.len
    }
}

impl LentImages<PageGuarded> {
    pub fn between_guard_pages() -> LentImages<PageGuarded> {
        LentImages { chips: PageGuarded::new(), records: PageGuarded::new(), slots: PageGuarded::new() }
    }

    pub fn lend(&mut self, images: &Images, placement: Placement, random: &mut Random) {
        self.chips.lend(&images.chips, placement, random);
        self.records.lend(&images.records, placement, random);
        self.slots.lend(&images.slots, placement, random);
    }
}
