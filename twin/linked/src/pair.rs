//! Two boards side by side: every deed is done to both, and after every call the answers, every word
//! and the guard words are compared.

use crate::deed::Deed;
use crate::exports::Answer;
use crate::lent::Lent;
use crate::side::Side;
use std::collections::VecDeque;
use std::fmt;

/// The numbers that a call may answer: 0 to 10.
pub const NUMBERS: usize = 11;

/// Something that deeds are done to.
pub trait Driven {
    /// Does one deed, and gives the answer that the twin gave.
    fn act(&mut self, deed: &Deed) -> Result<Answer, Box<Difference>>;
    /// The twin's words.
    fn area(&self) -> &[u64];
}

/// The first call on which the two boards differ.
#[derive(Clone, Debug)]
pub struct Difference {
    /// Which call of the session, from 1.
    pub call: u64,
    pub deed: Deed,
    pub twin: Answer,
    pub proved: Answer,
    /// Places where the words differ, with the twin's word and the proved board's.
    pub words: Vec<(usize, u64, u64)>,
    /// Whether the guard words stand, the twin's and the proved board's.
    pub guarded: (bool, bool),
    /// The deeds before it, as far as they were kept.
    pub before: Vec<String>,
}

impl fmt::Display for Difference {
    fn fmt(&self, f: &mut fmt::Formatter) -> fmt::Result {
        for line in &self.before {
            writeln!(f, "  {line}")?;
        }
        writeln!(f, "  call {}: {}", self.call, self.deed)?;
        for (name, answer) in [("twin", self.twin), ("proved", self.proved)] {
            writeln!(f, "    {name} answers {} {} {}", answer.number, answer.ended, answer.age)?;
        }
        for (place, twin, proved) in self.words.iter().take(8) {
            writeln!(f, "    word {place}: twin {twin}, proved {proved}")?;
        }
        if self.guarded != (true, true) {
            writeln!(
                f,
                "    guard words stand: twin {}, proved {}",
                self.guarded.0, self.guarded.1
            )?;
        }
        write!(f, "    {} words differ", self.words.len())
    }
}

/// The twin, or a faulty copy of it, and the proved board.
pub struct Pair {
    twin: Lent,
    proved: Lent,
    /// Calls made in this session.
    pub calls: u64,
    /// How many of them answered each number, shows and sizes left out.
    pub numbers: [u64; NUMBERS],
    kept: VecDeque<String>,
    keeps: usize,
}

impl Pair {
    /// Two boards with room for areas of so many words. The last `keeps` deeds are kept for printing.
    pub fn new(twin: Side, proved: Side, room: usize, keeps: usize) -> Pair {
        let (twin, proved) = (Lent::new(twin, room), Lent::new(proved, room));
        Pair { twin, proved, calls: 0, numbers: [0; NUMBERS], kept: VecDeque::new(), keeps }
    }

    /// The deeds that were kept, the last one at the end.
    pub fn kept(&self) -> Vec<String> {
        self.kept.iter().cloned().collect()
    }

    fn keep(&mut self, deed: &Deed, answer: Answer) {
        if self.kept.len() == self.keeps {
            self.kept.pop_front();
        }
        let given = format!("{} {} {}", answer.number, answer.ended, answer.age);
        let number = self.calls;
        self.kept.push_back(match deed.is_call() {
            true => format!("call {number}: {deed}: {given}"),
            false => deed.to_string(),
        });
    }

    fn difference(&self, deed: &Deed, twin: Answer, proved: Answer) -> Difference {
        let pairs = self.twin.area().iter().zip(self.proved.area()).enumerate();
        let words = pairs.filter(|(_, (a, b))| a != b).map(|(place, (a, b))| (place, *a, *b));
        Difference {
            call: self.calls,
            deed: deed.clone(),
            twin,
            proved,
            words: words.collect(),
            guarded: (self.twin.guarded(), self.proved.guarded()),
            before: self.kept(),
        }
    }
}

impl Driven for Pair {
    fn act(&mut self, deed: &Deed) -> Result<Answer, Box<Difference>> {
        let twin = self.twin.act(deed);
        let proved = self.proved.act(deed);
        if deed.is_call() {
            self.calls += 1;
            let same = twin == proved && self.twin.area() == self.proved.area();
            if !same || !self.twin.guarded() || !self.proved.guarded() {
                return Err(Box::new(self.difference(deed, twin, proved)));
            }
            let numbered = !matches!(deed, Deed::Show(_) | Deed::Words { .. });
            if let (true, Some(count)) = (numbered, self.numbers.get_mut(twin.number as usize)) {
                *count += 1;
            }
        }
        if self.keeps > 0 {
            self.keep(deed, twin);
        }
        Ok(twin)
    }

    fn area(&self) -> &[u64] {
        self.twin.area()
    }
}
