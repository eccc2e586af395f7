//! The entries of `include/handover.h`, safe to call: a slice is what the header asks of a pointer and its length, and `&mut` keeps the
//! written lists apart from the rest. Each function returns the number that the header describes.

/// The functions as the header declares them.
pub mod c {
    extern "C" {
        pub fn handover_check(array: *const u8, array_len: usize, table: *const u8, table_len: usize) -> u64;
        pub fn handover_mend(
            array: *const u8,
            array_len: usize,
            table: *const u8,
            table_len: usize,
            output: *mut u8,
            output_len: usize,
        ) -> u64;
        pub fn handover_start(
            array: *const u8,
            array_len: usize,
            choices: *const u8,
            choices_len: usize,
            threads: *mut u32,
            threads_len: usize,
        ) -> u64;
        pub fn handover_step(
            array: *const u8,
            array_len: usize,
            choices: *const u8,
            choices_len: usize,
            threads: *mut u32,
            threads_len: usize,
            thread_count: usize,
            markers: *mut u16,
            markers_len: usize,
            marker_count: usize,
            receiver: usize,
            sender: usize,
        ) -> u64;
        pub fn handover_walk(
            array: *const u8,
            array_len: usize,
            choices: *const u8,
            choices_len: usize,
            threads: *mut u32,
            threads_len: usize,
            thread_count: usize,
            markers: *mut u16,
            markers_len: usize,
            marker_count: usize,
            allowed: u32,
        ) -> u64;
        pub fn handover_remark(array: *const u8, array_len: usize) -> usize;
    }
}

/// The two lists of a configuration, and how many threads and markers of them are in use.
pub struct Lists<'a> {
    pub threads: &'a mut [u32],
    pub thread_count: usize,
    pub markers: &'a mut [u16],
    pub marker_count: usize,
}

pub fn check(array: &[u8], table: &[u8]) -> u64 {
    unsafe { c::handover_check(array.as_ptr(), array.len(), table.as_ptr(), table.len()) }
}

/// The mended table is written to the start of the output.
pub fn mend(array: &[u8], table: &[u8], output: &mut [u8]) -> u64 {
    unsafe {
        c::handover_mend(array.as_ptr(), array.len(), table.as_ptr(), table.len(), output.as_mut_ptr(), output.len())
    }
}

pub fn start(array: &[u8], choices: &[u8], threads: &mut [u32]) -> u64 {
    unsafe {
        c::handover_start(
            array.as_ptr(),
            array.len(),
            choices.as_ptr(),
            choices.len(),
            threads.as_mut_ptr(),
            threads.len(),
        )
    }
}

pub fn step(array: &[u8], choices: &[u8], lists: Lists, receiver: usize, sender: usize) -> u64 {
    unsafe {
        c::handover_step(
            array.as_ptr(),
            array.len(),
            choices.as_ptr(),
            choices.len(),
            lists.threads.as_mut_ptr(),
            lists.threads.len(),
            lists.thread_count,
            lists.markers.as_mut_ptr(),
            lists.markers.len(),
            lists.marker_count,
            receiver,
            sender,
        )
    }
}

pub fn walk(array: &[u8], choices: &[u8], lists: Lists, allowed: u32) -> u64 {
    unsafe {
        c::handover_walk(
            array.as_ptr(),
            array.len(),
            choices.as_ptr(),
            choices.len(),
            lists.threads.as_mut_ptr(),
            lists.threads.len(),
            lists.thread_count,
            lists.markers.as_mut_ptr(),
            lists.markers.len(),
            lists.marker_count,
            allowed,
        )
    }
}

/// The length of the remark, which is the file's first bytes.
pub fn remark(array: &[u8]) -> usize {
    unsafe { c::handover_remark(array.as_ptr(), array.len()) }
}

/// The low 8 bits: 0 for held, mended, done or quiet; a rule's number or 1 spent, 2 full; 100 + a refusal's number.
pub fn code(answer: u64) -> u8 {
    (answer % 256) as u8
}

/// The refusal's number, if the answer is a refusal.
pub fn refusal(answer: u64) -> Option<u8> {
    code(answer).checked_sub(100)
}

/// The three figures of the place in an answer of `check`; where `check` or `mend` refuses, the first is the place.
pub fn figures(answer: u64) -> [u64; 3] {
    [answer >> 8 & 0xffff, answer >> 24 & 0xffff, answer >> 40]
}

/// The number of bits set in an answer of `mend` that is no refusal.
pub fn bits(answer: u64) -> usize {
    (answer >> 8) as usize
}

/// Threads, markers and steps made in an answer of `start`, `step` or `walk` that is no refusal.
pub fn counts(answer: u64) -> (usize, usize, u32) {
    ((answer >> 8 & 0x3ff) as usize, (answer >> 18 & 0x3fff) as usize, (answer >> 32) as u32)
}
