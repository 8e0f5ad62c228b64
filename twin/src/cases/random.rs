//! Random orders from fixed seeds.

use super::orders::{record, script};
use super::Case;
use crate::random::Random;
use crate::runfile::{bytes, Move, Run, BEGIN, STEP};
use crate::script::Script;

const SIZES: [u64; 3] = [1, 2, 5];
const LONG: usize = 280;
/// The most moves and the most values that a run file may have.
const MOST_MOVES: usize = 4_000;
const MOST_VALUES: u64 = 1_000;

pub fn cases() -> Vec<Case> {
    let mut cases = Vec::new();
    for n in 1..=8u8 {
        for (i, c) in SIZES.into_iter().enumerate() {
            let mut random = Random(100 * u64::from(n) + i as u64);
            let mut script = script(n, c, random.upto(c));
            // Longer turns with longer records, so that whole operations pass while others wait.
            lively(&mut script, &mut random, LONG, 3 + 4 * i as u64);
            cases.push(Case::new(format!("random-n{n}-c{c}"), script.file()));
        }
        for seed in 0..2 {
            let name = format!("wild-n{n}-{seed}");
            cases.push(Case::new(name, wild(n, &mut Random(5000 + 10 * u64::from(n) + seed))));
        }
    }
    cases.push(Case::new("limit-m4000-v1000", longest(3, 2, 12)));
    let largest = longest(8, 32, 40);
    cases.push(Case::new("overlong-largest", [&largest[..], &[0]].concat()));
    cases.push(Case::new("limit-n8-c32-m4000-v1000", largest));
    cases.push(Case::new("longest-text", longest_text()));
    cases
}

/// Moves that a careful caller makes: an idle process begins, a busy one steps, in turns of
/// random length. Now and then a begin of a busy process or a step of an idle one. No write begins
/// once the values might not be enough for it.
fn lively(script: &mut Script, random: &mut Random, moves: usize, turn: u64) {
    let (n, c) = (script.run.n, script.run.c);
    while script.run.moves.len() < moves {
        // The writer is chosen as often as all readers together.
        let process = if random.upto(1) == 0 { n } else { random.upto(n - 1) } as u8;
        for _ in 0..=random.upto(turn) {
            if script.run.moves.len() == moves {
                return;
            }
            let astray = random.upto(40) == 0;
            if script.idle(process) == astray {
                script.steps(process, 1);
            } else if u64::from(process) == n {
                if script.run.values.len() as u64 + c > MOST_VALUES {
                    break;
                }
                let length = random.upto(c);
                script.write(&record(script.writes_ended() + 1, length));
            } else {
                script.begin(process);
            }
        }
    }
}

/// Any moves at all: some malformed, lengths up to C+1, a few processes above N, few values.
fn wild(n: u8, random: &mut Random) -> Vec<u8> {
    let c = 1 + random.upto(3);
    let mut moves = Vec::new();
    for _ in 0..120 {
        let process = random.upto(u64::from(n) + 1) as u8;
        let (kind, length) = match random.upto(19) {
            0 => (random.word() as u8, 0),
            1 => (STEP, random.upto(2)),
            2..=5 if process == n => (BEGIN, random.upto(c + 1)),
            2..=5 => (BEGIN, random.upto(9) / 9),
            _ => (STEP, 0),
        };
        moves.push(Move { process, kind, length: length as u16 });
    }
    let start = random.upto(c);
    let values = (0..start + random.upto(9)).map(|value| 1000 + value).collect();
    bytes(&Run { n: u64::from(n), c, start: start as usize, moves, values })
}

/// As many moves and as many values as a file may have.
fn longest(n: u8, c: u64, turn: u64) -> Vec<u8> {
    let mut random = Random(77);
    let mut script = script(n, c, c);
    lively(&mut script, &mut random, MOST_MOVES, turn);
    let spare = MOST_VALUES - script.run.values.len() as u64;
    script.rest(&record(999, spare));
    script.file()
}

/// One read after another of the most words, each with the most digits.
fn longest_text() -> Vec<u8> {
    let mut script = Script::new(8, 32, &[u64::MAX; 32]).expect("sizes in range");
    while script.run.moves.len() < MOST_MOVES {
        script.begin(7);
        let left = MOST_MOVES - script.run.moves.len();
        script.steps(7, left.min(34));
    }
    script.file()
}
