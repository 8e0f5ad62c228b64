//! The board of document 01: one writer and N readers in a lent slice of 64-bit words.
//! A call on an existing area first tests the whole area, then refuses in 01's order,
//! and only then changes words. The age of a read is that of request 1 of document 02.

use crate::area::{counter, examine, index, reader, slot, writer, Layout, CURRENT, FORM};

/// What a call answers: its number, whether an operation ended, the age of a read that ended.
#[derive(Clone, Copy, Debug, PartialEq, Eq)]
pub struct Answer {
    pub number: u64,
    pub ended: bool,
    pub age: u64,
}

/// The answer of a refusal.
pub const fn refused(number: u64) -> Answer {
    Answer { number, ended: false, age: 0 }
}

const GOES_ON: Answer = Answer { number: 0, ended: false, age: 0 };

/// Makes a fresh area (I1).
pub fn make(form: u64, n: u64, c: u64, record: &[u64], area: &mut [u64]) -> Answer {
    if form != FORM {
        return refused(9);
    }
    let at = match Layout::new(n, c) {
        Some(at) => at,
        None => return refused(9),
    };
    if area.len() != at.total {
        return refused(10);
    }
    if record.len() > at.c {
        return refused(4);
    }
    area.fill(0);
    area[0] = FORM;
    area[1] = n;
    area[2] = c;
    area[3] = at.total as u64;
    area[4] = at.slots as u64;
    area[5] = at.readers as u64;
    area[6] = at.writer as u64;
    area[CURRENT] = n;
    let first = at.slot(0);
    area[first + slot::SIZE] = record.len() as u64;
    area[first + slot::CONTENTS..][..record.len()].copy_from_slice(record);
    GOES_ON
}

/// Begins a read.
pub fn begin_read(area: &mut [u64], reader: u64) -> Answer {
    let at = match examine(area) {
        Ok(at) => at,
        Err(number) => return refused(number),
    };
    if reader >= at.n as u64 {
        return refused(3);
    }
    let desk = at.reader(reader as usize);
    if area[desk + reader::PHASE] != 0 {
        return refused(5);
    }
    area[desk + reader::PHASE] = 1;
    GOES_ON
}

/// Begins a write of a record.
pub fn begin_write(area: &mut [u64], record: &[u64]) -> Answer {
    let at = match examine(area) {
        Ok(at) => at,
        Err(number) => return refused(number),
    };
    if record.len() > at.c {
        return refused(4);
    }
    let desk = at.writer;
    if area[desk + writer::PHASE] != 0 {
        return refused(5);
    }
    if area[desk + writer::WRITES_ENDED] == u64::MAX {
        return refused(7);
    }
    area[desk + writer::RECORD..][..record.len()].copy_from_slice(record);
    area[desk + writer::LEN] = record.len() as u64;
    area[desk + writer::IN_HAND] = 0;
    area[desk + writer::POS] = 0;
    area[desk + writer::PHASE] = 1;
    GOES_ON
}

/// Makes one step of a process: 0 to N−1 the readers, N the writer.
pub fn step(area: &mut [u64], process: u64) -> Answer {
    let at = match examine(area) {
        Ok(at) => at,
        Err(number) => return refused(number),
    };
    let n = at.n as u64;
    if process > n {
        return refused(3);
    }
    if process == n {
        step_writer(area, &at)
    } else {
        step_reader(area, &at, process as usize)
    }
}

fn step_reader(area: &mut [u64], at: &Layout, number: usize) -> Answer {
    let desk = at.reader(number);
    let last = at.slot(area[desk + reader::LAST] as usize);
    match area[desk + reader::PHASE] {
        0 => refused(6),
        1 => look_at_current(area, desk),
        2 => leave_slot(area, at, desk, last),
        3 => bind_to_current(area, at, desk),
        4 => take_size(area, at, desk, last),
        _ => copy_to_reader(area, at, desk, last),
    }
}

/// Reader phase 1, R1: look at current's index.
fn look_at_current(area: &mut [u64], desk: usize) -> Answer {
    let same = index(area[CURRENT]) == area[desk + reader::LAST];
    area[desk + reader::PHASE] = if same { 4 } else { 2 };
    GOES_ON
}

/// Reader phase 2, R3: leave the slot it was bound to.
fn leave_slot(area: &mut [u64], at: &Layout, desk: usize, last: usize) -> Answer {
    if area[last + slot::R_END] >= at.n as u64 {
        return refused(2);
    }
    area[last + slot::R_END] += 1;
    area[desk + reader::PHASE] = 3;
    GOES_ON
}

/// Reader phase 3, R4 and R5: count itself in current and bind to its slot.
fn bind_to_current(area: &mut [u64], at: &Layout, desk: usize) -> Answer {
    if counter(area[CURRENT]) >= at.n as u64 {
        return refused(2);
    }
    area[CURRENT] += 1;
    area[desk + reader::LAST] = index(area[CURRENT]);
    area[desk + reader::PHASE] = 4;
    GOES_ON
}

/// Reader phase 4: take the size and the write number.
fn take_size(area: &mut [u64], at: &Layout, desk: usize, last: usize) -> Answer {
    area[desk + reader::LEN] = area[last + slot::SIZE];
    area[desk + reader::WRITE_NUMBER] = area[last + slot::WRITE_NUMBER];
    area[desk + reader::POS] = 0;
    if area[desk + reader::LEN] == 0 {
        return end_read(area, at, desk);
    }
    area[desk + reader::PHASE] = 5;
    GOES_ON
}

/// Reader phase 5: copy one word.
fn copy_to_reader(area: &mut [u64], at: &Layout, desk: usize, last: usize) -> Answer {
    let pos = area[desk + reader::POS] as usize;
    area[desk + reader::RECORD + pos] = area[last + slot::CONTENTS + pos];
    area[desk + reader::POS] += 1;
    if area[desk + reader::POS] == area[desk + reader::LEN] {
        return end_read(area, at, desk);
    }
    GOES_ON
}

/// The read ends. Its age is the number of later writes published by now, not below 0.
fn end_read(area: &mut [u64], at: &Layout, desk: usize) -> Answer {
    area[desk + reader::FINISHED] = 1;
    area[desk + reader::PHASE] = 0;
    let age = published_writes(area, at).saturating_sub(area[desk + reader::WRITE_NUMBER]);
    Answer { number: 0, ended: true, age }
}

/// Writes published: writes ended, plus 1 if the writer is in phase 7, where it has published and
/// its last step is still to come.
fn published_writes(area: &[u64], at: &Layout) -> u64 {
    let writes_ended = area[at.writer + writer::WRITES_ENDED];
    if area[at.writer + writer::PHASE] == 7 {
        // On an undamaged area writes ended is below 2^64−1 unless the writer's phase is 0.
        writes_ended + 1
    } else {
        writes_ended
    }
}

fn step_writer(area: &mut [u64], at: &Layout) -> Answer {
    let desk = at.writer;
    let in_hand = area[desk + writer::IN_HAND];
    let place = at.slot(in_hand as usize);
    match area[desk + writer::PHASE] {
        0 => return refused(6),
        1 => return look_at_slot(area, at, place),
        2 => copy_to_slot(area, desk, place),
        3 => {
            area[place + slot::SIZE] = area[desk + writer::LEN];
            area[place + slot::WRITE_NUMBER] = area[desk + writer::WRITES_ENDED] + 1;
            area[desk + writer::PHASE] = 4;
        }
        4 => {
            area[place + slot::R_START] = 0;
            area[desk + writer::PHASE] = 5;
        }
        5 => {
            area[place + slot::R_END] = 0;
            area[desk + writer::PHASE] = 6;
        }
        // W2: publish.
        6 => {
            area[desk + writer::OLD_WORD] = area[CURRENT];
            area[CURRENT] = in_hand << 32;
            area[desk + writer::PHASE] = 7;
        }
        _ => return end_write(area, at),
    }
    GOES_ON
}

/// Writer phase 1, W1: look at the slot in hand.
fn look_at_slot(area: &mut [u64], at: &Layout, place: usize) -> Answer {
    let desk = at.writer;
    let in_hand = area[desk + writer::IN_HAND];
    let free = in_hand != area[desk + writer::LAST_SLOT]
        && area[place + slot::R_START] == area[place + slot::R_END];
    if free {
        let empty = area[desk + writer::LEN] == 0;
        area[desk + writer::PHASE] = if empty { 3 } else { 2 };
    } else if in_hand == at.n as u64 + 1 {
        return refused(8);
    } else {
        area[desk + writer::IN_HAND] += 1;
    }
    GOES_ON
}

/// Writer phase 2: copy one word.
fn copy_to_slot(area: &mut [u64], desk: usize, place: usize) {
    let pos = area[desk + writer::POS] as usize;
    area[place + slot::CONTENTS + pos] = area[desk + writer::RECORD + pos];
    area[desk + writer::POS] += 1;
    if area[desk + writer::POS] == area[desk + writer::LEN] {
        area[desk + writer::PHASE] = 3;
    }
}

/// Writer phase 7, W3: freeze the old slot's count and end the write.
fn end_write(area: &mut [u64], at: &Layout) -> Answer {
    let desk = at.writer;
    let old = area[desk + writer::OLD_WORD];
    area[at.slot(index(old) as usize) + slot::R_START] = counter(old);
    area[desk + writer::LAST_SLOT] = area[desk + writer::IN_HAND];
    area[desk + writer::WRITES_ENDED] += 1;
    area[desk + writer::PHASE] = 0;
    Answer { number: 0, ended: true, age: 0 }
}

/// The reader's record if the area is undamaged and the reader exists, is idle and has finished;
/// otherwise the caller's whole default.
pub fn show<'r, 'a: 'r, 'd: 'r>(area: &'a [u64], reader: u64, default: &'d [u64]) -> &'r [u64] {
    own_record(area, reader).unwrap_or(default)
}

/// Whether `show` hands back the reader's record.
pub fn is_own(area: &[u64], reader: u64) -> bool {
    own_record(area, reader).is_some()
}

fn own_record(area: &[u64], reader: u64) -> Option<&[u64]> {
    let at = examine(area).ok()?;
    if reader >= at.n as u64 {
        return None;
    }
    let desk = at.reader(reader as usize);
    if area[desk + reader::PHASE] != 0 || area[desk + reader::FINISHED] != 1 {
        return None;
    }
    let len = area[desk + reader::LEN] as usize;
    Some(&area[desk + reader::RECORD..][..len])
}
