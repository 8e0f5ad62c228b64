//! The area of document 01: where each word lies, and the test of an area.

/// The only form known here.
pub const FORM: u64 = 1;
/// The place of the current word.
pub const CURRENT: usize = 7;

const HEADER: usize = 8;

/// Places of the words of a slot.
pub mod slot {
    pub const R_START: usize = 0;
    pub const R_END: usize = 1;
    pub const SIZE: usize = 2;
    pub const WRITE_NUMBER: usize = 3;
    pub const CONTENTS: usize = 4;
}

/// Places of the words of a reader's desk.
pub mod reader {
    pub const PHASE: usize = 0;
    pub const LAST: usize = 1;
    pub const POS: usize = 2;
    pub const LEN: usize = 3;
    pub const WRITE_NUMBER: usize = 4;
    pub const FINISHED: usize = 5;
    pub const RECORD: usize = 6;
}

/// Places of the words of the writer's desk.
pub mod writer {
    pub const PHASE: usize = 0;
    pub const LAST_SLOT: usize = 1;
    pub const IN_HAND: usize = 2;
    pub const POS: usize = 3;
    pub const LEN: usize = 4;
    pub const OLD_WORD: usize = 5;
    pub const WRITES_ENDED: usize = 6;
    pub const RECORD: usize = 7;
}

/// Where everything lies, worked out from N and C.
#[derive(Clone, Copy, Debug, PartialEq, Eq)]
pub struct Layout {
    pub n: usize,
    pub c: usize,
    pub slots: usize,
    pub readers: usize,
    pub writer: usize,
    pub total: usize,
}

impl Layout {
    /// The layout for N and C, if both are in their range.
    pub fn new(n: u64, c: u64) -> Option<Layout> {
        if !(1..=64).contains(&n) || !(1..=256).contains(&c) {
            return None;
        }
        let (n, c) = (n as usize, c as usize);
        let slots = HEADER;
        let readers = slots + (n + 2) * (slot::CONTENTS + c);
        let writer = readers + n * (reader::RECORD + c);
        let total = writer + writer::RECORD + c;
        Some(Layout { n, c, slots, readers, writer, total })
    }

    /// The first word of a slot.
    pub fn slot(&self, index: usize) -> usize {
        self.slots + index * (slot::CONTENTS + self.c)
    }

    /// The first word of a reader's desk.
    pub fn reader(&self, number: usize) -> usize {
        self.readers + number * (reader::RECORD + self.c)
    }
}

/// The slot index in the current word or the old word.
pub fn index(word: u64) -> u64 {
    word >> 32
}

/// The readers' counter in the current word or the old word.
pub fn counter(word: u64) -> u64 {
    word & 0xffff_ffff
}

/// Tests the area: its layout if it is undamaged, else number 1 or 2.
pub fn examine(area: &[u64]) -> Result<Layout, u64> {
    if area.len() < HEADER || area[0] != FORM {
        return Err(1);
    }
    let at = Layout::new(area[1], area[2]).ok_or(1u64)?;
    if area[3] != at.total as u64
        || area[4] != at.slots as u64
        || area[5] != at.readers as u64
        || area[6] != at.writer as u64
        || area.len() != at.total
    {
        return Err(1);
    }
    let sound = slots_sound(area, &at)
        && (0..at.n).all(|r| reader_sound(area, &at, at.reader(r)))
        && writer_sound(area, &at);
    if sound {
        Ok(at)
    } else {
        Err(2)
    }
}

/// Whether a word of index and counter is in its ranges.
fn word_sound(word: u64, n: u64) -> bool {
    index(word) < n + 2 && counter(word) <= n
}

fn slots_sound(area: &[u64], at: &Layout) -> bool {
    let n = at.n as u64;
    for s in 0..at.n + 2 {
        let place = at.slot(s);
        if area[place + slot::R_START] > n || area[place + slot::R_END] > n {
            return false;
        }
        if area[place + slot::SIZE] > at.c as u64 {
            return false;
        }
    }
    word_sound(area[CURRENT], n)
}

fn reader_sound(area: &[u64], at: &Layout, desk: usize) -> bool {
    let (pos, len) = (area[desk + reader::POS], area[desk + reader::LEN]);
    let phase = area[desk + reader::PHASE];
    phase <= 5
        && area[desk + reader::LAST] < at.n as u64 + 2
        && len <= at.c as u64
        && pos <= len
        && area[desk + reader::FINISHED] <= 1
        && (phase != 5 || pos < len)
}

fn writer_sound(area: &[u64], at: &Layout) -> bool {
    let (desk, n) = (at.writer, at.n as u64);
    let (pos, len) = (area[desk + writer::POS], area[desk + writer::LEN]);
    let phase = area[desk + writer::PHASE];
    phase <= 7
        && area[desk + writer::LAST_SLOT] < n + 2
        && area[desk + writer::IN_HAND] < n + 2
        && len <= at.c as u64
        && pos <= len
        && word_sound(area[desk + writer::OLD_WORD], n)
        && (phase != 1 || pos == 0)
        && (phase != 2 || pos < len)
        && (phase == 0 || area[desk + writer::WRITES_ENDED] < u64::MAX)
}
