//! A run under construction. It carries a board along, so that it knows which writes are
//! accepted: only their words become values of the file.

use crate::area::{writer, Layout};
use crate::board::{begin_read, begin_write, step};
use crate::runfile::{bytes, fresh, Move, Run, BEGIN, STEP};

pub struct Script {
    pub run: Run,
    at: Layout,
    area: Vec<u64>,
}

impl Script {
    /// A run of no moves. `None` if N, C or the record's length is out of the board's range.
    pub fn new(n: u64, c: u64, record: &[u64]) -> Option<Script> {
        let at = Layout::new(n, c)?;
        if record.len() > at.c {
            return None;
        }
        let (start, values) = (record.len(), record.to_vec());
        let run = Run { n, c, start, moves: Vec::new(), values };
        Some(Script { run, at, area: fresh(n, c, record) })
    }

    /// A reader begins.
    pub fn begin(&mut self, reader: u8) {
        self.raw(reader, BEGIN, 0);
    }

    /// The writer begins a write. If the board refuses it, its words are left out of the file.
    pub fn write(&mut self, record: &[u64]) {
        let (process, length) = (self.run.n as u8, record.len() as u16);
        self.run.moves.push(Move { process, kind: BEGIN, length });
        if begin_write(&mut self.area, record).number == 0 {
            self.run.values.extend(record);
        }
    }

    /// A process steps so many times.
    pub fn steps(&mut self, process: u8, times: usize) {
        for _ in 0..times {
            self.raw(process, STEP, 0);
        }
    }

    /// Any move at all. A begin of the writer with a length brings no words: it stands in the
    /// file and is taken to be refused (see `takes`).
    pub fn raw(&mut self, process: u8, kind: u8, length: u16) {
        self.run.moves.push(Move { process, kind, length });
        let number = u64::from(process);
        if length != 0 {
            return;
        }
        match kind {
            STEP => step(&mut self.area, number),
            BEGIN if number == self.run.n => begin_write(&mut self.area, &[]),
            BEGIN => begin_read(&mut self.area, number),
            _ => return,
        };
    }

    /// Whether the writer would take a record of this length now, if there were words for it.
    pub fn takes(&self, length: u16) -> bool {
        usize::from(length) <= self.at.c && self.idle(self.run.n as u8)
    }

    /// The phase of a process that exists, the first word of its desk.
    pub fn phase(&self, process: u8) -> u64 {
        let number = usize::from(process);
        let desk = if number < self.at.n { self.at.reader(number) } else { self.at.writer };
        self.area[desk]
    }

    /// Whether a process that exists is idle.
    pub fn idle(&self, process: u8) -> bool {
        self.phase(process) == 0
    }

    /// The process steps until it is idle.
    pub fn finish(&mut self, process: u8) {
        while !self.idle(process) {
            self.steps(process, 1);
        }
    }

    /// A whole write.
    pub fn whole_write(&mut self, record: &[u64]) {
        self.write(record);
        self.finish(self.run.n as u8);
    }

    /// A whole read.
    pub fn whole_read(&mut self, reader: u8) {
        self.begin(reader);
        self.finish(reader);
    }

    /// Writes ended so far.
    pub fn writes_ended(&self) -> u64 {
        self.area[self.at.writer + writer::WRITES_ENDED]
    }

    /// Values after all those that the moves use.
    pub fn rest(&mut self, words: &[u64]) {
        self.run.values.extend(words);
    }

    /// The run file.
    pub fn file(&self) -> Vec<u8> {
        bytes(&self.run)
    }
}
