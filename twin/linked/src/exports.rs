//! The exports of crates/board_c as the linker finds them, and a safe function over each. The exports
//! take any words, any process and any record, so all that is asked of a caller is that the slices it
//! lends are slices.

/// What a call returns: its number, 1 if an operation ended or else 0, and the age.
#[repr(C)]
#[derive(Clone, Copy, Debug, Default, PartialEq, Eq)]
pub struct Answer {
    pub number: u64,
    pub ended: u64,
    pub age: u64,
}

/// Where a reader's record stands: `len` words from `at` on if `yes` is 1, or all three are 0.
#[repr(C)]
#[derive(Clone, Copy, Debug, Default, PartialEq, Eq)]
pub struct Place {
    pub yes: u64,
    pub at: u64,
    pub len: u64,
}

extern "C" {
    fn board_make(
        area: *mut u64,
        words: usize,
        form: u64,
        n: u64,
        c: u64,
        record: *const u64,
        len: usize,
    ) -> Answer;
    fn board_begin_read(area: *mut u64, words: usize, reader: u64) -> Answer;
    fn board_begin_write(area: *mut u64, words: usize, record: *const u64, len: usize) -> Answer;
    fn board_step(area: *mut u64, words: usize, process: u64) -> Answer;
    fn board_show(area: *const u64, words: usize, reader: u64) -> Place;
    fn board_words(form: u64, n: u64, c: u64) -> u64;
}

// Safety, in each function: a slice's pointer is valid for its length, and Rust lets no other
// reference overlap one that may be written.

/// Makes a fresh area of the lent words.
pub fn make(area: &mut [u64], form: u64, n: u64, c: u64, record: &[u64]) -> Answer {
    let (from, len) = (record.as_ptr(), record.len());
    unsafe { board_make(area.as_mut_ptr(), area.len(), form, n, c, from, len) }
}

/// A reader begins a read.
pub fn begin_read(area: &mut [u64], reader: u64) -> Answer {
    unsafe { board_begin_read(area.as_mut_ptr(), area.len(), reader) }
}

/// The writer begins a write of a record.
pub fn begin_write(area: &mut [u64], record: &[u64]) -> Answer {
    unsafe { board_begin_write(area.as_mut_ptr(), area.len(), record.as_ptr(), record.len()) }
}

/// One step of a process.
pub fn step(area: &mut [u64], process: u64) -> Answer {
    unsafe { board_step(area.as_mut_ptr(), area.len(), process) }
}

/// Where the reader's record stands, if there is one to show.
pub fn show(area: &[u64], reader: u64) -> Place {
    unsafe { board_show(area.as_ptr(), area.len(), reader) }
}

/// How many words an area has, or 0 where making would answer 9.
pub fn words(form: u64, n: u64, c: u64) -> u64 {
    unsafe { board_words(form, n, c) }
}

#[cfg(test)]
mod tests {
    use super::*;
    use std::ptr::{null, null_mut};

    /// Where the length is 0 the pointer may be anything: nothing is read or stored through it.
    #[test]
    fn an_empty_slice_has_any_pointer() {
        let refused = |number| Answer { number, ended: 0, age: 0 };
        for (area, record) in [(null_mut(), null()), (3 as *mut u64, 5 as *const u64)] {
            unsafe {
                assert_eq!(board_make(area, 0, 1, 1, 1, record, 0), refused(10));
                assert_eq!(board_begin_read(area, 0, 0), refused(1));
                assert_eq!(board_begin_write(area, 0, record, 0), refused(1));
                assert_eq!(board_step(area, 0, 0), refused(1));
                assert_eq!(board_show(area, 0, 0), Place::default());
                let mut words = vec![5; board_words(1, 1, 1) as usize];
                let (area, count) = (words.as_mut_ptr(), words.len());
                assert_eq!(board_make(area, count, 1, 1, 1, record, 0), refused(0));
                assert_eq!(board_begin_write(area, count, record, 0), refused(0));
            }
        }
    }
}
