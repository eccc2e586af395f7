//! Buffers between inaccessible pages, so that a read or write outside them ends the program; and calls with NULL for
//! empty buffers. Written for Linux.

use handover::c;
use std::ffi::{c_int, c_void};
use std::ptr::{null, null_mut};

/// A multiple of every page size in use.
const GUARD: usize = 65_536;
/// Room for the longest buffer that is lent: 256 threads over 256 names, and some more.
const SIZE: usize = 8 * GUARD;

extern "C" {
    fn mmap(
        address: *mut c_void,
        length: usize,
        protection: c_int,
        flags: c_int,
        file: c_int,
        offset: i64,
    ) -> *mut c_void;
    fn mprotect(address: *mut c_void, length: usize, protection: c_int) -> c_int;
}

/// Where in its region a buffer lies.
#[derive(Clone, Copy, PartialEq, Eq)]
pub enum Side {
    /// Right after an inaccessible page.
    Start,
    /// Right before one.
    End,
}

/// Accessible memory with inaccessible pages on both sides, kept for the whole run.
pub struct Region {
    base: *mut u8,
}

impl Region {
    pub fn new() -> Region {
        const NONE: c_int = 0;
        const READ_WRITE: c_int = 3;
        const PRIVATE_ANONYMOUS: c_int = 0x22;
        // SAFETY: new memory is asked for, and the part made accessible lies within it.
        unsafe {
            let all = mmap(null_mut(), SIZE + 2 * GUARD, NONE, PRIVATE_ANONYMOUS, -1, 0);
            assert_ne!(all as isize, -1, "no memory");
            let base = all.cast::<u8>().add(GUARD);
            assert_eq!(mprotect(base.cast(), SIZE, READ_WRITE), 0, "no accessible memory");
            Region { base }
        }
    }

    /// Copies the content to one side of the region and lends it.
    pub fn place<T: Copy>(&mut self, content: &[T], side: Side) -> &mut [T] {
        let length = std::mem::size_of_val(content);
        assert!(length <= SIZE, "the buffer is too long");
        let offset = if side == Side::Start { 0 } else { SIZE - length };
        // SAFETY: the region has that many bytes, nothing else points into it while it is borrowed, and both ends are
        // aligned.
        unsafe {
            let to = self.base.add(offset).cast::<T>();
            to.copy_from_nonoverlapping(content.as_ptr(), content.len());
            std::slice::from_raw_parts_mut(to, content.len())
        }
    }

    /// Reads the byte just outside, which must end the program.
    pub fn trespass(&mut self, side: Side) -> u8 {
        let outside = if side == Side::Start { self.base.wrapping_sub(1) } else { self.base.wrapping_add(SIZE) };
        // SAFETY: none. The page is mapped without any access, and this is only called to see that it traps.
        unsafe { outside.read_volatile() }
    }
}

impl Default for Region {
    fn default() -> Region {
        Region::new()
    }
}

/// The pointer of a buffer, NULL if it is empty.
fn pointer(bytes: &[u8]) -> *const u8 {
    if bytes.is_empty() {
        null()
    } else {
        bytes.as_ptr()
    }
}

/// The answers of check, start, step, walk, mend and remark with NULL lists and NULL for every empty buffer.
pub fn null_answers(array: &[u8], second: &[u8], count: usize, position: usize) -> [u64; 6] {
    let (a, n, b, m) = (pointer(array), array.len(), pointer(second), second.len());
    let (threads, markers) = (null_mut(), null_mut());
    // SAFETY: lengths are those of the slices; the lists have length 0.
    unsafe {
        [
            c::handover_check(a, n, b, m),
            c::handover_start(a, n, b, m, threads, 0),
            c::handover_step(a, n, b, m, threads, 0, count, markers, 0, count, position, position),
            c::handover_walk(a, n, b, m, threads, 0, count, markers, 0, count, position as u32),
            c::handover_mend(a, n, b, m, null_mut(), 0),
            c::handover_remark(a, n) as u64,
        ]
    }
}
