//! Run files: reading and writing the bytes, playing the moves, printing what document 01 says.

use crate::area::{Layout, CURRENT, FORM};
use crate::board::{begin_read, begin_write, make, refused, show, step, Answer};
use std::fmt::Write;

pub const MOST_READERS: u64 = 8;
pub const MOST_WORDS: u64 = 32;
pub const MOST_MOVES: u64 = 4_000;
pub const MOST_VALUES: u64 = 1_000;
pub const BEGIN: u8 = 0;
pub const STEP: u8 = 1;

const HEADER_BYTES: u64 = 28;

/// One move, as it stands in the file.
#[derive(Clone, Copy, Debug, PartialEq, Eq)]
pub struct Move {
    pub process: u8,
    pub kind: u8,
    pub length: u16,
}

/// A run file taken apart. The first `start` values are the starting record.
#[derive(Clone, Debug, PartialEq, Eq)]
pub struct Run {
    pub n: u64,
    pub c: u64,
    pub start: usize,
    pub moves: Vec<Move>,
    pub values: Vec<u64>,
}

/// Takes a run file apart. `None` is refusal 11.
pub fn parse(file: &[u8]) -> Option<Run> {
    if (file.len() as u64) < HEADER_BYTES {
        return None;
    }
    let mut header = [0u64; 7];
    for (field, bytes) in header.iter_mut().zip(file.chunks_exact(4)) {
        *field = u64::from(u32::from_le_bytes([bytes[0], bytes[1], bytes[2], bytes[3]]));
    }
    let [n, c, start, m, moves_at, v, values_at] = header;
    let good = (1..=MOST_READERS).contains(&n)
        && (1..=MOST_WORDS).contains(&c)
        && start <= c
        && start <= v
        && m <= MOST_MOVES
        && moves_at == HEADER_BYTES
        && v <= MOST_VALUES
        && values_at == HEADER_BYTES + 4 * m
        && file.len() as u64 == HEADER_BYTES + 4 * m + 8 * v;
    if !good {
        return None;
    }
    let mut moves = Vec::new();
    for b in file[moves_at as usize..values_at as usize].chunks_exact(4) {
        moves.push(Move { process: b[0], kind: b[1], length: u16::from_le_bytes([b[2], b[3]]) });
    }
    let mut values = Vec::new();
    for b in file[values_at as usize..].chunks_exact(8) {
        values.push(u64::from_le_bytes([b[0], b[1], b[2], b[3], b[4], b[5], b[6], b[7]]));
    }
    Some(Run { n, c, start: start as usize, moves, values })
}

/// The bytes of a run file. Nothing is tested here: a run out of its limits gives a file that
/// `parse` refuses.
pub fn bytes(run: &Run) -> Vec<u8> {
    let m = run.moves.len() as u32;
    let v = run.values.len() as u32;
    let header = [run.n as u32, run.c as u32, run.start as u32, m, 28, v, 28 + 4 * m];
    let mut file = Vec::new();
    for field in header {
        file.extend(field.to_le_bytes());
    }
    for one in &run.moves {
        file.extend([one.process, one.kind]);
        file.extend(one.length.to_le_bytes());
    }
    for value in &run.values {
        file.extend(value.to_le_bytes());
    }
    file
}

/// A run being played: its area and how many values are used up.
pub struct Player<'a> {
    run: &'a Run,
    pub area: Vec<u64>,
    pub used: usize,
}

/// A fresh area for a run, holding the given starting record.
pub fn fresh(n: u64, c: u64, record: &[u64]) -> Vec<u64> {
    let total = Layout::new(n, c).map_or(0, |at| at.total);
    let mut area = vec![0; total];
    make(FORM, n, c, record, &mut area);
    area
}

impl<'a> Player<'a> {
    /// A fresh area with the starting record. The run must come from `parse`.
    pub fn new(run: &'a Run) -> Player<'a> {
        let area = fresh(run.n, run.c, &run.values[..run.start]);
        Player { run, area, used: run.start }
    }

    /// Makes one move: 12, then 13, then the call's own refusals.
    pub fn act(&mut self, one: Move) -> Answer {
        let process = u64::from(one.process);
        let length = usize::from(one.length);
        let of_writer = process == self.run.n;
        if one.kind != BEGIN && one.kind != STEP {
            return refused(12);
        }
        if length != 0 && !(one.kind == BEGIN && of_writer) {
            return refused(12);
        }
        if one.kind == STEP {
            return step(&mut self.area, process);
        }
        if !of_writer {
            return begin_read(&mut self.area, process);
        }
        if length > self.run.values.len() - self.used {
            return refused(13);
        }
        let record = &self.run.values[self.used..self.used + length];
        let answer = begin_write(&mut self.area, record);
        if answer.number == 0 {
            self.used += length;
        }
        answer
    }
}

/// Plays a run file and gives the printed text.
pub fn play(file: &[u8]) -> String {
    match parse(file) {
        Some(run) => play_run(&run),
        None => "refused 11\n".to_string(),
    }
}

fn play_run(run: &Run) -> String {
    let mut out = format!("run {} {} {}\n", run.n, run.c, run.moves.len());
    let mut player = Player::new(run);
    let (mut accepted, mut refusals, mut greatest_age) = (0, 0, 0);
    for (number, &one) in run.moves.iter().enumerate() {
        let answer = player.act(one);
        if answer.number == 0 {
            accepted += 1;
        } else {
            refusals += 1;
        }
        greatest_age = answer.age.max(greatest_age);
        out.push_str(&line(number, one, answer));
        let process = u64::from(one.process);
        if answer.ended && process < run.n {
            let _ = write!(out, " {}", answer.age);
            for word in show(&player.area, process, &[]) {
                let _ = write!(out, " {word}");
            }
        }
        out.push('\n');
    }
    let current = player.area[CURRENT];
    let _ = writeln!(out, "end {current} {accepted} {refusals} {greatest_age}");
    out
}

fn line(number: usize, one: Move, answer: Answer) -> String {
    let kind = match one.kind {
        BEGIN => 'B',
        STEP => 'S',
        _ => '?',
    };
    let ended = u8::from(answer.ended);
    format!("{number} {} {kind} {} {ended}", one.process, answer.number)
}
