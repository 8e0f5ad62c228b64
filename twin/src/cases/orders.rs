//! Orders built in loops: paused readers, a paused writer, lengths, refusals by the board.

use super::Case;
use crate::script::Script;

/// A record that tells which write it is and which word.
pub fn record(write: u64, length: u64) -> Vec<u64> {
    (0..length).map(|word| 100 * write + word).collect()
}

/// A run that starts with a record of `start` words. The sizes given here are in range.
pub fn script(n: u8, c: u64, start: u64) -> Script {
    match Script::new(u64::from(n), c, &record(0, start)) {
        Some(script) => script,
        None => panic!("sizes out of range"),
    }
}

pub fn cases() -> Vec<Case> {
    let mut cases = Vec::new();
    for n in 1..=8 {
        cases.push(Case::new(format!("readers-paused-n{n}"), readers_paused(n)));
        cases.push(Case::new(format!("held-slots-n{n}"), held_slots(n)));
        cases.push(Case::new(format!("last-step-paused-n{n}"), last_step_paused(n)));
        cases.push(Case::new(format!("busy-idle-above-n{n}"), busy_idle_above(n)));
    }
    for steps in 0..=6 {
        cases.push(Case::new(format!("reader-paused-at-{steps}"), reader_paused_at(steps)));
    }
    for steps in 0..=9 {
        cases.push(Case::new(format!("writer-paused-at-{steps}"), writer_paused_at(steps)));
    }
    for c in [1, 2, 3, 32] {
        cases.push(Case::new(format!("lengths-c{c}"), lengths(c)));
    }
    for c in [1, 31] {
        cases.push(Case::new(format!("shrinking-c{c}"), shrinking(c)));
    }
    cases
}

/// Each reader pauses at another place of its read while three writes end, twice over.
fn readers_paused(n: u8) -> Vec<u8> {
    let mut script = script(n, 3, 2);
    for round in 0..2 {
        for reader in 0..n {
            script.begin(reader);
            script.steps(reader, usize::from(reader + round) % 5);
        }
        for _ in 0..3 {
            let write = script.writes_ended() + 1;
            script.whole_write(&record(write, 1 + write % 3));
        }
        for reader in (0..n).rev() {
            script.finish(reader);
        }
    }
    script.file()
}

/// Every reader sits in the middle of a copy from a slot of its own: the writer has one slot left
/// and looks at all N+2.
fn held_slots(n: u8) -> Vec<u8> {
    let mut script = script(n, 2, 2);
    for reader in 0..n {
        script.begin(reader);
        script.steps(reader, if reader == 0 { 3 } else { 5 });
        script.whole_write(&record(script.writes_ended() + 1, 2));
    }
    for _ in 0..3 {
        script.whole_write(&record(script.writes_ended() + 1, 2));
    }
    for reader in 0..n {
        script.finish(reader);
    }
    for reader in 0..n {
        script.whole_read(reader);
        script.whole_write(&record(script.writes_ended() + 1, 1));
    }
    script.file()
}

/// The writer waits before its last step while every reader reads twice.
fn last_step_paused(n: u8) -> Vec<u8> {
    let mut script = script(n, 2, 2);
    for write in 1..=3 {
        script.write(&record(write, 2));
        while script.phase(n) != 7 {
            script.steps(n, 1);
        }
        for _ in 0..2 {
            for reader in 0..n {
                script.whole_read(reader);
            }
        }
        script.finish(n);
        script.whole_read(0);
    }
    script.file()
}

/// A read begins after a write, makes some steps, sleeps for three writes, ends, and reads again.
fn reader_paused_at(steps: usize) -> Vec<u8> {
    let mut script = script(1, 2, 2);
    script.whole_write(&record(1, 2));
    script.begin(0);
    script.steps(0, steps);
    for write in 2..=4 {
        script.whole_write(&record(write, 2));
    }
    script.finish(0);
    script.whole_read(0);
    script.file()
}

/// The second write stops after some steps; two readers read, one of them twice; it goes on.
fn writer_paused_at(steps: usize) -> Vec<u8> {
    let mut script = script(2, 2, 1);
    script.whole_write(&record(1, 2));
    script.whole_read(1);
    script.write(&record(2, 2));
    script.steps(2, steps);
    script.whole_read(0);
    script.whole_read(1);
    script.whole_read(0);
    script.finish(2);
    script.whole_read(1);
    script.whole_write(&record(3, 2));
    script.whole_read(0);
    script.file()
}

/// Records of 0, C and C+1 words, to an idle writer and to a busy one.
fn lengths(c: u64) -> Vec<u8> {
    let mut script = script(1, c, c);
    script.write(&record(8, c + 1));
    script.write(&record(1, c));
    script.write(&record(8, c + 1));
    script.write(&record(8, c));
    script.write(&[]);
    script.finish(1);
    script.whole_read(0);
    script.whole_write(&[]);
    script.whole_read(0);
    script.whole_write(&record(3, c));
    script.write(&record(8, c + 1));
    script.whole_read(0);
    script.rest(&record(9, c + 1));
    script.file()
}

/// Shorter records over longer ones: old words past the length must not show.
fn shrinking(c: u64) -> Vec<u8> {
    let mut script = script(2, c, c);
    for write in 1..=6 {
        script.whole_write(&record(write, c / write));
        script.whole_read((write % 2) as u8);
    }
    script.file()
}

/// Begins while busy, steps while idle, processes above N, around a read and a write.
fn busy_idle_above(n: u8) -> Vec<u8> {
    let mut script = script(n, 2, 1);
    let refusals = |script: &mut Script| {
        for process in [n - 1, n + 1, 255] {
            script.begin(process);
        }
        script.write(&record(9, 1));
        for process in [n + 1, 200] {
            script.steps(process, 1);
        }
    };
    script.steps(0, 1);
    script.steps(n, 1);
    script.begin(n - 1);
    script.write(&record(1, 2));
    for _ in 0..4 {
        refusals(&mut script);
        script.steps(n, 2);
        script.steps(n - 1, 1);
    }
    script.finish(n);
    script.finish(n - 1);
    script.steps(n - 1, 1);
    script.steps(n, 1);
    script.rest(&record(7, 2));
    script.file()
}
