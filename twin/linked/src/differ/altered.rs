//! Areas that no run leaves: each word is any that an undamaged area may have there. In half of them
//! one word is a boundary value, allowed there or not. A few calls on each.

use super::damaged::boundary_values;
use super::lively::{due, length, record};
use super::Session;
use crate::deed::Deed;
use crate::pair::{Difference, Driven};
use twin::area::{reader, slot, writer, Layout, CURRENT, FORM};
use twin::random::Random;

/// A current word or an old word in its ranges.
fn counted_word(random: &mut Random, n: u64) -> u64 {
    (random.upto(n + 1) << 32) + random.upto(n)
}

/// A word for a write number: near one of the ends, or small.
fn write_number(random: &mut Random) -> u64 {
    [random.upto(9), u64::MAX - random.upto(3), random.word()][random.upto(2) as usize]
}

fn header(at: &Layout) -> [u64; 7] {
    [
        FORM,
        at.n as u64,
        at.c as u64,
        at.total as u64,
        at.slots as u64,
        at.readers as u64,
        at.writer as u64,
    ]
}

/// A position and a length for a phase in which `below` asks for a position below the length.
fn pos_and_len(random: &mut Random, c: u64, below: bool) -> (u64, u64) {
    if below {
        let len = 1 + random.upto(c - 1);
        return (random.upto(len - 1), len);
    }
    let len = random.upto(c);
    (random.upto(len), len)
}

fn fill_reader(random: &mut Random, at: &Layout, desk: &mut [u64]) {
    let phase = random.upto(5);
    let (pos, len) = pos_and_len(random, at.c as u64, phase == 5);
    desk[reader::PHASE] = phase;
    desk[reader::LAST] = random.upto(at.n as u64 + 1);
    desk[reader::POS] = pos;
    desk[reader::LEN] = len;
    desk[reader::WRITE_NUMBER] = write_number(random);
    desk[reader::FINISHED] = random.upto(1);
}

fn fill_writer(random: &mut Random, at: &Layout, desk: &mut [u64]) {
    let (n, phase) = (at.n as u64, random.upto(7));
    let (pos, len) = pos_and_len(random, at.c as u64, phase == 2);
    desk[writer::PHASE] = phase;
    desk[writer::LAST_SLOT] = random.upto(n + 1);
    desk[writer::IN_HAND] = random.upto(n + 1);
    desk[writer::POS] = if phase == 1 { 0 } else { pos };
    desk[writer::LEN] = len;
    desk[writer::OLD_WORD] = counted_word(random, n);
    let ended = write_number(random);
    desk[writer::WRITES_ENDED] = if phase == 0 { ended } else { ended.min(u64::MAX - 1) };
}

/// The words of an undamaged area, otherwise random.
pub fn undamaged(random: &mut Random, at: &Layout) -> Vec<u64> {
    let n = at.n as u64;
    let mut area = record(random, at.total as u64);
    area[..7].copy_from_slice(&header(at));
    area[CURRENT] = counted_word(random, n);
    for index in 0..at.n + 2 {
        let place = at.slot(index);
        area[place + slot::R_START] = random.upto(n);
        let alike = random.upto(1) == 0;
        area[place + slot::R_END] =
            if alike { area[place + slot::R_START] } else { random.upto(n) };
        area[place + slot::SIZE] = length(random, at.c as u64);
        area[place + slot::WRITE_NUMBER] = write_number(random);
    }
    for number in 0..at.n {
        fill_reader(random, at, &mut area[at.reader(number)..]);
    }
    fill_writer(random, at, &mut area[at.writer..]);
    area
}

pub fn run(session: &Session, at: &Layout, on: &mut dyn Driven) -> Result<(), Box<Difference>> {
    let mut random = Random(session.seed);
    let values = boundary_values(session.n, session.c);
    let mut calls = 0;
    on.act(&Deed::Lend(at.total))?;
    while calls < session.calls {
        on.act(&Deed::Fill(undamaged(&mut random, at)))?;
        if random.upto(1) == 0 {
            let place = random.upto(at.total as u64 - 1) as usize;
            let value = values[random.upto(values.len() as u64 - 1) as usize];
            on.act(&Deed::Alter(place, value))?;
        }
        for _ in 0..8 {
            let process = if random.upto(1) == 0 { session.n } else { random.upto(session.n - 1) };
            let astray = random.upto(9) == 0;
            let deed = due(&mut random, on.area(), at, process, astray);
            on.act(&deed)?;
            on.act(&Deed::Show(random.upto(session.n)))?;
            calls += 2;
        }
    }
    Ok(())
}
