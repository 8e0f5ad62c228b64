//! A trace of sessions: every deed, and after every call what the twin answered and each word that it
//! changed. `follower/follower.c` does the same deeds on the library from C.
//!
//! A trace is little-endian 64-bit words. A deed is its kind, how many words follow, and those
//! (`Deed::words`); after a call come three words of the answer, how many words of the area changed, and
//! for each its place and what it became.

use crate::deed::Deed;
use crate::differ::Session;
use crate::exports::Answer;
use crate::lent::Lent;
use crate::pair::{Difference, Driven};
use crate::side::Side;
use std::io::{self, Write};

/// The twin alone, with what it does written down.
struct Recorder<'a> {
    twin: Lent,
    before: Vec<u64>,
    to: &'a mut dyn Write,
    outcome: io::Result<()>,
}

impl Recorder<'_> {
    fn write(&mut self, words: &[u64]) {
        for word in words {
            if self.outcome.is_ok() {
                self.outcome = self.to.write_all(&word.to_le_bytes());
            }
        }
    }
}

impl Driven for Recorder<'_> {
    fn act(&mut self, deed: &Deed) -> Result<Answer, Box<Difference>> {
        self.write(&deed.words());
        if !deed.is_call() {
            return Ok(self.twin.act(deed));
        }
        self.before.clear();
        self.before.extend(self.twin.area());
        let answer = self.twin.act(deed);
        let mut changes = vec![answer.number, answer.ended, answer.age, 0];
        for (place, (old, new)) in self.before.iter().zip(self.twin.area()).enumerate() {
            if old != new {
                changes[3] += 1;
                changes.extend([place as u64, *new]);
            }
        }
        self.write(&changes);
        Ok(answer)
    }

    fn area(&self) -> &[u64] {
        self.twin.area()
    }
}

/// Writes the trace of one session on a board.
pub fn write(session: &Session, side: Side, to: &mut dyn Write) -> io::Result<()> {
    let twin = Lent::new(side, session.room());
    let mut recorder = Recorder { twin, before: Vec::new(), to, outcome: Ok(()) };
    // A recorder compares nothing, so there is no difference to tell of.
    let _ = session.run(&mut recorder);
    recorder.outcome
}
