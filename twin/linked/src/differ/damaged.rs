//! Every single word of an area altered in turn, and lent words that are not an area's.

use super::altered::undamaged;
use super::lively::{record, start, turn};
use super::Session;
use crate::deed::Deed;
use crate::pair::{Difference, Driven};
use twin::area::{Layout, FORM};
use twin::random::Random;

/// Values at the edges of what a word may be.
pub fn boundary_values(n: u64, c: u64) -> Vec<u64> {
    let words = [0, 1, n, n + 1, n + 2, c, c + 1, (1 << 32) - 1, 1 << 32, 1 << 63, u64::MAX];
    let counted = [((n + 1) << 32) + n, ((n + 1) << 32) + n + 1, (n + 2) << 32];
    [&words[..], &counted].concat()
}

/// Every call, by every process that exists (where they are few) and by some that don't.
fn every_call(random: &mut Random, n: u64, c: u64) -> Vec<Deed> {
    let mut processes: Vec<u64> =
        if n <= 3 { (0..=n + 1).collect() } else { vec![0, n - 1, n, n + 1] };
    processes.push(u64::MAX);
    let mut calls = Vec::new();
    for process in processes {
        calls.extend([Deed::Read(process), Deed::Step(process), Deed::Show(process)]);
    }
    for length in [0, 1, c, c + 1] {
        calls.push(Deed::Write(record(random, length)));
    }
    calls.push(Deed::Make { form: FORM, n, c, record: record(random, c) });
    calls
}

/// Words to begin with: a fresh area after some turns, or any undamaged area, by the seed.
fn base(
    random: &mut Random,
    seed: u64,
    at: &Layout,
    on: &mut dyn Driven,
) -> Result<Vec<u64>, Box<Difference>> {
    start(random, at, on)?;
    if seed % 2 == 1 {
        return Ok(undamaged(random, at));
    }
    for _ in 0..seed * 4 {
        turn(random, at, on)?;
    }
    Ok(on.area().to_vec())
}

/// Each word becomes each value, and each call is tried on that.
fn sweep(
    base: &[u64],
    values: &[u64],
    calls: &[Deed],
    on: &mut dyn Driven,
) -> Result<(), Box<Difference>> {
    on.act(&Deed::Fill(base.to_vec()))?;
    for (place, &right) in base.iter().enumerate() {
        for &value in values {
            on.act(&Deed::Alter(place, value))?;
            for call in calls {
                let shows = matches!(call, Deed::Show(_));
                if on.act(call)?.number == 0 && !shows {
                    on.act(&Deed::Fill(base.to_vec()))?;
                    on.act(&Deed::Alter(place, value))?;
                }
            }
        }
        on.act(&Deed::Alter(place, right))?;
    }
    Ok(())
}

pub fn every_value(
    session: &Session,
    at: &Layout,
    on: &mut dyn Driven,
) -> Result<(), Box<Difference>> {
    let mut random = Random(session.seed);
    let base = base(&mut random, session.seed, at, on)?;
    let calls = every_call(&mut random, session.n, session.c);
    sweep(&base, &boundary_values(session.n, session.c), &calls, on)
}

pub fn few_values(
    session: &Session,
    at: &Layout,
    on: &mut dyn Driven,
) -> Result<(), Box<Difference>> {
    let mut random = Random(session.seed);
    let base = base(&mut random, session.seed, at, on)?;
    let reader = random.upto(session.n - 1);
    let calls = [Deed::Step(reader), Deed::Step(session.n), Deed::Show(reader)];
    sweep(&base, &[session.n + 2, session.c + 1, u64::MAX], &calls, on)
}

/// The words of an area lent as fewer or more words, and under the header of another size.
pub fn lengths(session: &Session, at: &Layout, on: &mut dyn Driven) -> Result<(), Box<Difference>> {
    let mut random = Random(session.seed);
    let mut base = base(&mut random, session.seed, at, on)?;
    let calls = every_call(&mut random, session.n, session.c);
    base.extend(record(&mut random, 32));
    let near = [at.total - 2, at.total - 1, at.total, at.total + 1, at.total + 32];
    for length in (0..=16).chain(near) {
        for other in
            [None, Layout::new(session.n + 1, session.c), Layout::new(session.n, session.c + 1)]
        {
            let mut words = base[..length].to_vec();
            if let (Some(other), true) = (other, length >= 8) {
                let sizes =
                    [other.n, other.c, other.total, other.slots, other.readers, other.writer];
                words[1..7].copy_from_slice(&sizes.map(|size| size as u64));
            }
            on.act(&Deed::Lend(length))?;
            on.act(&Deed::Fill(words))?;
            for call in &calls {
                on.act(call)?;
            }
        }
    }
    Ok(())
}
