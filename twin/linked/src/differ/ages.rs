//! Reads about to end beside a writer in every phase, with writes ended and the read's write number at
//! the edges and next to each other. 2^64−1 writes ended, damage while the writer is busy, is among them.

use super::altered::undamaged;
use super::Session;
use crate::deed::Deed;
use crate::pair::{Difference, Driven};
use twin::area::{reader, slot, writer, Layout};
use twin::random::Random;

/// Writes ended: few, many, and as many as can end.
const ENDED: [u64; 7] = [0, 1, 2, 1 << 32, u64::MAX - 2, u64::MAX - 1, u64::MAX];

/// Write numbers: the least and the greatest, and those from one below writes ended to two above.
fn write_numbers(ended: u64) -> [u64; 8] {
    let above = |by| ended.wrapping_add(by);
    [0, 1, u64::MAX - 1, u64::MAX, above(u64::MAX), ended, above(1), above(2)]
}

/// The writer's desk in a phase, with a position and a length that every phase allows.
fn place_writer(desk: &mut [u64], phase: u64, ended: u64) {
    desk[writer::PHASE] = phase;
    desk[writer::POS] = 0;
    desk[writer::LEN] = 1;
    desk[writer::WRITES_ENDED] = ended;
}

/// A reader whose next step ends its read: step 4 of a record of no words, or step 5 of the last word.
fn place_reader(area: &mut [u64], at: &Layout, number: usize, len: u64, write_number: u64) {
    let desk = at.reader(number);
    if len == 0 {
        let last = at.slot(area[desk + reader::LAST] as usize);
        area[last + slot::SIZE] = 0;
        area[last + slot::WRITE_NUMBER] = write_number;
        area[desk + reader::PHASE] = 4;
    } else {
        area[desk + reader::PHASE] = 5;
        area[desk + reader::LEN] = len;
        area[desk + reader::POS] = len - 1;
        area[desk + reader::WRITE_NUMBER] = write_number;
    }
}

pub fn run(session: &Session, at: &Layout, on: &mut dyn Driven) -> Result<(), Box<Difference>> {
    let mut random = Random(session.seed);
    on.act(&Deed::Lend(at.total))?;
    for phase in 0..=7 {
        for ended in ENDED {
            for write_number in write_numbers(ended) {
                for len in [0, 1 + random.upto(session.c - 1)] {
                    let number = random.upto(session.n - 1);
                    let mut area = undamaged(&mut random, at);
                    place_writer(&mut area[at.writer..], phase, ended);
                    place_reader(&mut area, at, number as usize, len, write_number);
                    on.act(&Deed::Fill(area))?;
                    on.act(&Deed::Step(number))?;
                    on.act(&Deed::Show(number))?;
                }
            }
        }
    }
    Ok(())
}
