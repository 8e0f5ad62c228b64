//! A worker is paused in the middle of a read while the guard writes twice. It still gets one whole record:
//! the one that was current when it counted itself in, with its age. Exits with 1 if what is shown is not.
//! README.md has the lines that build it; examples/run builds and runs it.

#[repr(C)]
struct Answer {
    number: u64,
    ended: u64,
    age: u64,
}

#[repr(C)]
struct Place(u64, u64, u64); // yes, at, len

// include/board.h says what each call takes and returns. A slice's own pointer and length are always taken.
extern "C" {
    fn board_make(
        area: *mut u64, words: usize, form: u64, n: u64, c: u64, record: *const u64, len: usize,
    ) -> Answer;
    fn board_begin_read(area: *mut u64, words: usize, reader: u64) -> Answer;
    fn board_begin_write(area: *mut u64, words: usize, record: *const u64, len: usize) -> Answer;
    fn board_step(area: *mut u64, words: usize, process: u64) -> Answer;
    fn board_show(area: *const u64, words: usize, reader: u64) -> Place;
    fn board_words(form: u64, n: u64, c: u64) -> u64;
}

const READERS: u64 = 2; // and the writer is process READERS

/// One step, which must be accepted: the age, if it ended a read or a write.
fn step(area: &mut [u64], process: u64) -> Option<u64> {
    let answer = unsafe { board_step(area.as_mut_ptr(), area.len(), process) };
    assert_eq!(answer.number, 0);
    (answer.ended == 1).then_some(answer.age)
}

/// A whole write: who leads, under which term, for how long.
fn publish(area: &mut [u64], record: &[u64]) {
    let begun = unsafe { board_begin_write(area.as_mut_ptr(), area.len(), record.as_ptr(), record.len()) };
    assert_eq!(begun.number, 0);
    while step(area, READERS).is_none() {}
}

fn main() {
    let (first, old) = ([1, 1, 100], [2, 2, 200]);
    let mut area = vec![0; unsafe { board_words(1, READERS, 3) } as usize];
    let made =
        unsafe { board_make(area.as_mut_ptr(), area.len(), 1, READERS, 3, first.as_ptr(), first.len()) };
    publish(&mut area, &old);
    let begun = unsafe { board_begin_read(area.as_mut_ptr(), area.len(), 0) };
    assert_eq!((made.number, begun.number), (0, 0));
    (0..5).for_each(|_| assert_eq!(step(&mut area, 0), None)); // one of three words is copied
    publish(&mut area, &[3, 3, 300]);
    publish(&mut area, &[4, 4, 400]);
    let age = (0..2).find_map(|_| step(&mut area, 0)).expect("two words are left to copy");
    let Place(yes, at, len) = unsafe { board_show(area.as_ptr(), area.len(), 0) };
    let shown = &area[at as usize..][..len as usize];
    println!("worker.rs: read {shown:?}, age {age}");
    std::process::exit(if yes == 1 && shown == old && age == 2 { 0 } else { 1 });
}
