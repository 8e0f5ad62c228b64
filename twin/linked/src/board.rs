//! The proved board as a worker's runtime would hold it: an area that is owned or borrowed, and calls
//! that give an outcome or a named refusal.
//!
//! ```
//! use linked::board::{Board, Outcome};
//!
//! let mut board = Board::fresh(1, 2, &[7])?; // one reader, records of at most two words
//! board.begin_write(&[8, 9])?;
//! while board.step(1)? == Outcome::GoesOn {} // process 1 is the writer
//! board.begin_read(0)?;
//! while board.step(0)? == Outcome::GoesOn {}
//! assert_eq!(board.record_or(0, &[]), [8, 9]);
//! # Ok::<(), linked::board::Refusal>(())
//! ```
//!
//! `?` leaves the loop where a step is refused. A call that may change the area takes `&mut self`, so
//! there is one call at a time, as the board wants it. Threads that share a board keep it in a `Mutex`,
//! locked for the length of one call, never of a read or a write.

use crate::exports::{self, Answer};
use std::fmt;

/// The form of area that is made.
pub const FORM: u64 = 1;

/// Why a call was refused. A refused call has changed no word.
#[derive(Clone, Copy, Debug, PartialEq, Eq)]
pub enum Refusal {
    /// 1: the words are not an area.
    NotAnArea,
    /// 2: the area is damaged, or a step would lift a count above N.
    Damaged,
    /// 3: there is no such process, or no such reader.
    NoSuchProcess,
    /// 4: the record is longer than C.
    RecordTooLong,
    /// 5: a begin while the process is busy.
    Busy,
    /// 6: a step while the process is idle.
    Idle,
    /// 7: a begin of a write after 2^64−1 writes.
    NoMoreWrites,
    /// 8: the last slot isn't free.
    NoFreeSlot,
    /// 9: making an area of an unknown form, or N or C out of range.
    SizesOutOfRange,
    /// 10: making an area of the wrong number of words.
    WrongNumberOfWords,
    /// A number that no call gives: what is linked is not the board.
    Unknown(u64),
}

impl Refusal {
    fn of(number: u64) -> Refusal {
        match number {
            1 => Refusal::NotAnArea,
            2 => Refusal::Damaged,
            3 => Refusal::NoSuchProcess,
            4 => Refusal::RecordTooLong,
            5 => Refusal::Busy,
            6 => Refusal::Idle,
            7 => Refusal::NoMoreWrites,
            8 => Refusal::NoFreeSlot,
            9 => Refusal::SizesOutOfRange,
            10 => Refusal::WrongNumberOfWords,
            other => Refusal::Unknown(other),
        }
    }
}

impl fmt::Display for Refusal {
    fn fmt(&self, f: &mut fmt::Formatter) -> fmt::Result {
        let text = match self {
            Refusal::NotAnArea => "1: not an area",
            Refusal::Damaged => "2: the area is damaged",
            Refusal::NoSuchProcess => "3: no such process",
            Refusal::RecordTooLong => "4: the record is too long",
            Refusal::Busy => "5: the process is busy",
            Refusal::Idle => "6: the process is idle",
            Refusal::NoMoreWrites => "7: no more writes",
            Refusal::NoFreeSlot => "8: no free slot",
            Refusal::SizesOutOfRange => "9: sizes out of range",
            Refusal::WrongNumberOfWords => "10: wrong number of words",
            Refusal::Unknown(number) => return write!(f, "{number}: not a number of the board"),
        };
        f.write_str(text)
    }
}

impl std::error::Error for Refusal {}

/// What an accepted step did.
#[derive(Clone, Copy, Debug, PartialEq, Eq)]
pub enum Outcome {
    /// The operation goes on.
    GoesOn,
    /// A read ended, and so many later writes had been published by then.
    ReadEnded { age: u64 },
    /// A write ended.
    WriteEnded,
}

fn accepted(answer: Answer) -> Result<Answer, Refusal> {
    match answer.number {
        0 => Ok(answer),
        number => Err(Refusal::of(number)),
    }
}

/// A board in an area of words: `Board<Vec<u64>>` owns it, `Board<&mut [u64]>` borrows it.
pub struct Board<A> {
    area: A,
}

impl Board<Vec<u64>> {
    /// A fresh board for n readers and records of at most c words, in an area of its own.
    pub fn fresh(n: u64, c: u64, record: &[u64]) -> Result<Board<Vec<u64>>, Refusal> {
        Board::make(vec![0; exports::words(FORM, n, c) as usize], n, c, record)
    }
}

impl<A: AsRef<[u64]> + AsMut<[u64]>> Board<A> {
    /// Makes a fresh board of lent words, exactly as many as `exports::words` says.
    pub fn make(mut area: A, n: u64, c: u64, record: &[u64]) -> Result<Board<A>, Refusal> {
        accepted(exports::make(area.as_mut(), FORM, n, c, record))?;
        Ok(Board { area })
    }

    /// A board in words that hold one already. Nothing is tested here: every call tests the area.
    pub fn over(area: A) -> Board<A> {
        Board { area }
    }

    /// The words.
    pub fn words(&self) -> &[u64] {
        self.area.as_ref()
    }

    /// Hands the area back.
    pub fn into_area(self) -> A {
        self.area
    }

    /// A reader, 0 to N−1, begins a read.
    pub fn begin_read(&mut self, reader: u64) -> Result<(), Refusal> {
        accepted(exports::begin_read(self.area.as_mut(), reader)).map(|_| ())
    }

    /// The writer begins a write of a record.
    pub fn begin_write(&mut self, record: &[u64]) -> Result<(), Refusal> {
        accepted(exports::begin_write(self.area.as_mut(), record)).map(|_| ())
    }

    /// One step of a process: a reader, 0 to N−1, or the writer, N.
    pub fn step(&mut self, process: u64) -> Result<Outcome, Refusal> {
        let answer = accepted(exports::step(self.area.as_mut(), process))?;
        // Word 1 of an area is N, and an accepted step was on an area.
        let of_writer = self.words().get(1) == Some(&process);
        Ok(match (answer.ended, of_writer) {
            (0, _) => Outcome::GoesOn,
            (_, true) => Outcome::WriteEnded,
            (_, false) => Outcome::ReadEnded { age: answer.age },
        })
    }

    /// The record of a reader that is idle and has finished a read; nothing is copied.
    pub fn record(&self, reader: u64) -> Option<&[u64]> {
        let place = exports::show(self.words(), reader);
        let (at, len) = (place.at as usize, place.len as usize);
        (place.yes == 1).then(|| &self.words()[at..at + len])
    }

    /// The reader's record, or else the default.
    pub fn record_or<'r>(&'r self, reader: u64, default: &'r [u64]) -> &'r [u64] {
        self.record(reader).unwrap_or(default)
    }
}
