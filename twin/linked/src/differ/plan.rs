//! Which sessions are run, in the short form and in the long one, and the running of them.

use super::{Kind, Session};
use crate::pair::{Difference, Pair, NUMBERS};
use crate::side::Side;

/// Capacities: all small ones, those around powers of two, the largest.
const CAPACITIES: [u64; 16] = [1, 2, 3, 4, 5, 8, 16, 31, 32, 33, 64, 100, 128, 200, 255, 256];

/// Sizes at which every word becomes every boundary value from several areas.
const SMALL: [(u64, u64); 5] = [(1, 1), (1, 2), (2, 1), (2, 2), (3, 2)];

/// Calls in a long run.
const LONG_RUN: u64 = 4000;

#[derive(Clone, Copy, PartialEq, Eq)]
pub enum Form {
    Short,
    Long,
}

/// The sessions of a form. A session's seed is its place in the list, but for those that alter every
/// word, whose seed says what they begin from.
pub fn sessions(form: Form) -> Vec<Session> {
    let long = form == Form::Long;
    let mut list = Vec::new();
    let mut add = |kind, n, c, seed, calls| list.push(Session { kind, n, c, seed, calls });
    for seed in 0..if long { 20 } else { 4 } {
        add(Kind::Making, 1, 1, 1000 + seed, 1000);
    }
    for (n, c) in SMALL {
        add(Kind::Ages, n, c, 2, 0);
        add(Kind::Lengths, n, c, 2, 0);
        for seed in 0..if long { 16 } else { 2 } {
            add(Kind::Damaged, n, c, seed, 0);
        }
    }
    for n in 1..=64 {
        for (i, c) in CAPACITIES.into_iter().enumerate() {
            // The short form takes three capacities for each N, other ones for the next.
            if long || (n as usize + i) % 6 == 0 {
                let seed = 10_000 + 100 * n + i as u64;
                add(Kind::Lively, n, c, seed, if long { LONG_RUN } else { 250 });
                add(Kind::Altered, n, c, seed, if long { 160 } else { 64 });
            }
        }
    }
    for (n, c) in [(64, 1), (1, 256), (8, 32)] {
        add(Kind::Ages, n, c, 3, 0);
        add(Kind::Swept, n, c, 3, 0);
        add(Kind::Lengths, n, c, 3, 0);
        if long {
            add(Kind::Damaged, n, c, 2, 0);
            add(Kind::Damaged, n, c, 3, 0);
        }
    }
    if long {
        add(Kind::Swept, 64, 256, 2, 0);
        add(Kind::Lengths, 64, 256, 2, 0);
    }
    list
}

/// The sessions of a form that a trace has: shorter runs, and not the one that alters each word of the
/// largest area, whose trace would be many gigabytes.
pub fn traced(form: Form) -> Vec<Session> {
    let mut list = sessions(form);
    list.retain(|session| (session.kind, session.n, session.c) != (Kind::Swept, 64, 256));
    for session in &mut list {
        session.calls = session.calls.min(LONG_RUN / 4);
    }
    list
}

/// What was run.
#[derive(Default)]
pub struct Tally {
    /// Sessions and calls of each kind.
    pub kinds: Vec<(Kind, u64, u64)>,
    /// How many calls answered each number.
    pub numbers: [u64; NUMBERS],
}

impl Tally {
    fn add(&mut self, kind: Kind, pair: &Pair) {
        match self.kinds.iter_mut().find(|one| one.0 == kind) {
            Some((_, sessions, calls)) => {
                *sessions += 1;
                *calls += pair.calls;
            }
            None => self.kinds.push((kind, 1, pair.calls)),
        }
        for (sum, more) in self.numbers.iter_mut().zip(pair.numbers) {
            *sum += more;
        }
    }
}

/// A difference, the session it was found in, and after how many calls in all.
pub struct Found {
    pub session: Session,
    pub total: u64,
    pub difference: Box<Difference>,
}

/// Runs every session of a form, and stops at the first difference. `told` is handed the number of
/// calls after each session.
pub fn run(
    form: Form,
    twin: Side,
    proved: Side,
    told: &mut dyn FnMut(u64),
) -> Result<Tally, Found> {
    let mut tally = Tally::default();
    let mut total = 0;
    for session in sessions(form) {
        let mut pair = Pair::new(twin, proved, session.room(), 0);
        let outcome = session.run(&mut pair);
        total += pair.calls;
        told(total);
        if let Err(difference) = outcome {
            return Err(Found { session, total, difference });
        }
        tally.add(session.kind, &pair);
    }
    Ok(tally)
}
