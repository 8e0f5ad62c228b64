//! Sessions of calls, each told by its kind, its sizes, a seed and how many calls it makes at the least.
//! The same five always do the same deeds.

mod ages;
mod altered;
mod damaged;
pub mod lively;
mod making;
pub mod plan;

use crate::pair::{Difference, Driven};
use std::fmt;
use twin::area::Layout;

/// The words of the largest area, and words that a session lends past the end of an area.
const LARGEST: usize = 34_199;
const PAST: usize = 64;

#[derive(Clone, Copy, Debug, PartialEq, Eq)]
pub enum Kind {
    /// A run from a fresh area, by a caller who now and then strays.
    Lively,
    /// Areas whose words are any that an undamaged area may have, and some that it may not.
    Altered,
    /// Reads that end in every phase of the writer, with write numbers at the edges.
    Ages,
    /// Every word in turn becomes every boundary value, and every call is tried.
    Damaged,
    /// Every word in turn becomes a few values, and a few calls are tried: for large areas.
    Swept,
    /// Making, with parameters and lengths of every kind.
    Making,
    /// Lent words that are too few, too many, or those of another size.
    Lengths,
}

const KINDS: [(Kind, &str); 7] = [
    (Kind::Lively, "lively"),
    (Kind::Altered, "altered"),
    (Kind::Ages, "ages"),
    (Kind::Damaged, "damaged"),
    (Kind::Swept, "swept"),
    (Kind::Making, "making"),
    (Kind::Lengths, "lengths"),
];

impl fmt::Display for Kind {
    fn fmt(&self, f: &mut fmt::Formatter) -> fmt::Result {
        let name = KINDS.iter().find(|(kind, _)| kind == self).map_or("", |(_, name)| name);
        f.pad(name)
    }
}

/// A session. Its sizes are in the board's range.
#[derive(Clone, Copy, Debug)]
pub struct Session {
    pub kind: Kind,
    pub n: u64,
    pub c: u64,
    pub seed: u64,
    pub calls: u64,
}

impl fmt::Display for Session {
    fn fmt(&self, f: &mut fmt::Formatter) -> fmt::Result {
        write!(f, "{} {} {} {} {}", self.kind, self.n, self.c, self.seed, self.calls)
    }
}

impl Session {
    /// Reads what `Display` writes: KIND N C SEED CALLS.
    pub fn parse(fields: &[&str]) -> Option<Session> {
        let (kind, numbers) = fields.split_first()?;
        let (kind, _) = KINDS.into_iter().find(|(_, name)| name == kind)?;
        let numbers: Vec<u64> = numbers.iter().filter_map(|field| field.parse().ok()).collect();
        match numbers[..] {
            [n, c, seed, calls] => Layout::new(n, c).map(|_| Session { kind, n, c, seed, calls }),
            _ => None,
        }
    }

    /// Room for the most words that it lends.
    pub fn room(&self) -> usize {
        match (self.kind, Layout::new(self.n, self.c)) {
            (Kind::Making, _) | (_, None) => LARGEST + PAST,
            (_, Some(at)) => at.total + PAST,
        }
    }

    /// Does its deeds.
    pub fn run(&self, on: &mut dyn Driven) -> Result<(), Box<Difference>> {
        let at = match Layout::new(self.n, self.c) {
            Some(at) => at,
            None => return Ok(()),
        };
        match self.kind {
            Kind::Lively => lively::run(self, &at, on),
            Kind::Altered => altered::run(self, &at, on),
            Kind::Ages => ages::run(self, &at, on),
            Kind::Damaged => damaged::every_value(self, &at, on),
            Kind::Swept => damaged::few_values(self, &at, on),
            Kind::Making => making::run(self, on),
            Kind::Lengths => damaged::lengths(self, &at, on),
        }
    }
}
