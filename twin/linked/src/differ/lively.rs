//! Runs from a fresh area by a caller who mostly knows what to do: an idle process begins, a busy one
//! steps, in turns of random length. Now and then it strays: a begin of a busy process, a step of an
//! idle one, a process that does not exist, a record that is too long.

use super::Session;
use crate::deed::Deed;
use crate::exports::Answer;
use crate::pair::{Difference, Driven};
use twin::area::{writer, Layout, FORM};
use twin::random::Random;

/// Numbers of processes that no board has, beside those just above N.
pub const WILD: [u64; 5] = [255, 1 << 32, (1 << 32) + 1, 1 << 63, u64::MAX];

/// A record of random words. Half of them are small, so that they could be taken for something else.
pub fn record(random: &mut Random, length: u64) -> Vec<u64> {
    let word = |_| if random.upto(1) == 0 { random.upto(70) } else { random.word() };
    (0..length).map(word).collect()
}

/// A length of 0 to C: often short, often C.
pub fn length(random: &mut Random, c: u64) -> u64 {
    match random.upto(5) {
        0 => c,
        1 => random.upto(c),
        2 => 0,
        _ => random.upto(c.min(4)),
    }
}

/// The deed that a process which exists is due for, or with `astray` the other one.
pub fn due(random: &mut Random, area: &[u64], at: &Layout, process: u64, astray: bool) -> Deed {
    let of_writer = process == at.n as u64;
    let desk = if of_writer { at.writer } else { at.reader(process as usize) };
    if (area[desk] != 0) != astray {
        Deed::Step(process)
    } else if of_writer {
        let length = length(random, at.c as u64);
        Deed::Write(record(random, length))
    } else {
        Deed::Read(process)
    }
}

/// A call that is refused whatever the state, or one that shows.
fn wild(random: &mut Random, at: &Layout) -> Deed {
    let (n, c) = (at.n as u64, at.c as u64);
    let above = [n, n + 1, n + 2, WILD[random.upto(4) as usize]][random.upto(3) as usize];
    match random.upto(4) {
        0 => Deed::Read(above),
        1 => Deed::Step(above.max(n + 1)),
        2 => Deed::Show(above),
        3 => Deed::Show(random.upto(n)),
        _ => {
            let more = [c + 1, c + 1, c + 2, 300][random.upto(3) as usize];
            Deed::Write(record(random, more.max(c + 1)))
        }
    }
}

/// Makes an area; in one run of four so many writes have ended that few more may.
pub fn start(random: &mut Random, at: &Layout, on: &mut dyn Driven) -> Result<(), Box<Difference>> {
    on.act(&Deed::Lend(at.total))?;
    let length = length(random, at.c as u64);
    let (n, c) = (at.n as u64, at.c as u64);
    on.act(&Deed::Make { form: FORM, n, c, record: record(random, length) })?;
    if random.upto(3) == 0 {
        let ended = u64::MAX - random.upto(5);
        on.act(&Deed::Alter(at.writer + writer::WRITES_ENDED, ended))?;
    }
    Ok(())
}

/// One turn of one process. Gives how many calls it made.
pub fn turn(random: &mut Random, at: &Layout, on: &mut dyn Driven) -> Result<u64, Box<Difference>> {
    let n = at.n as u64;
    // The writer is chosen as often as all readers together.
    let process = if random.upto(1) == 0 { n } else { random.upto(n - 1) };
    let longest = [1, 5, 12, at.c as u64 + 8][random.upto(3) as usize];
    let mut calls = 0;
    for _ in 0..=random.upto(longest) {
        let deed = match random.upto(60) {
            0 => wild(random, at),
            1 => due(random, on.area(), at, process, true),
            _ => due(random, on.area(), at, process, false),
        };
        let Answer { number, ended, .. } = on.act(&deed)?;
        calls += 1;
        if matches!(deed, Deed::Step(reader) if reader < n) && (number, ended) == (0, 1) {
            on.act(&Deed::Show(process))?;
            calls += 1;
        }
    }
    Ok(calls)
}

pub fn run(session: &Session, at: &Layout, on: &mut dyn Driven) -> Result<(), Box<Difference>> {
    let mut random = Random(session.seed);
    start(&mut random, at, on)?;
    let mut calls = 1;
    while calls < session.calls {
        calls += turn(&mut random, at, on)?;
    }
    Ok(())
}
