//! Making, and how many words an area has, with parameters of every kind, on words that hold anything.

use super::lively::record;
use super::Session;
use crate::deed::Deed;
use crate::pair::{Difference, Driven};
use twin::area::{Layout, FORM};
use twin::random::Random;

const FORMS: [u64; 5] = [0, 2, 3, (1 << 32) + 1, u64::MAX];
const READERS: [u64; 14] =
    [0, 1, 2, 3, 8, 63, 64, 65, 257, 1 << 32, (1 << 32) + 1, 1 << 63, u64::MAX - 1, u64::MAX];
const CAPACITIES: [u64; 14] =
    [0, 1, 2, 3, 32, 64, 65, 255, 256, 257, 1 << 32, (1 << 32) + 1, 1 << 63, u64::MAX];

fn one_of(random: &mut Random, choices: &[u64]) -> u64 {
    choices[random.upto(choices.len() as u64 - 1) as usize]
}

/// How many words are lent: as many as asked for, or nearly, or anything.
fn words_lent(random: &mut Random, n: u64, c: u64) -> u64 {
    let right = Layout::new(n, c).map_or(38, |at| at.total as u64);
    let other = random.upto(100);
    one_of(random, &[right, right, right, right, right - 1, right + 1, 0, 7, 8, 38, other])
}

pub fn run(session: &Session, on: &mut dyn Driven) -> Result<(), Box<Difference>> {
    let mut random = Random(session.seed);
    for _ in 0..(session.calls + 1) / 2 {
        let form = if random.upto(9) == 0 { one_of(&mut random, &FORMS) } else { FORM };
        let n = one_of(&mut random, &READERS);
        // Large areas take long to fill: most cases are small.
        let choices = if random.upto(3) == 0 { &CAPACITIES[..] } else { &CAPACITIES[..4] };
        let c = one_of(&mut random, choices);
        let lent = words_lent(&mut random, n, c);
        let length = one_of(&mut random, &[0, 1, c.min(256), c.min(256) + 1, 300]);
        on.act(&Deed::Lend(lent as usize))?;
        let junk = record(&mut random, lent);
        on.act(&Deed::Fill(junk))?;
        on.act(&Deed::Make { form, n, c, record: record(&mut random, length) })?;
        on.act(&Deed::Words { form, n, c })?;
    }
    Ok(())
}
