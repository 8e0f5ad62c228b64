//! What the reads of every played case may return, worked out from the moves and the printed text alone:
//! a whole record, one that was current at some moment of the read, with the right age.

use twin::cases::all;
use twin::runfile::{bytes, parse, play, Move, Run, BEGIN, STEP};

/// A write under way: its record and how many steps are left to it.
struct Write {
    record: Vec<u64>,
    steps_left: usize,
}

/// How many reads ended; how many of them between a write's publication and its last step; and how
/// many of these gave an older record than the one published.
#[derive(Default)]
struct Reads {
    all: usize,
    before_last_step: usize,
    older: usize,
}

/// Follows one run. `published` has the records in the order of their publications, the starting
/// record first. The step that publishes is the last but one of a write, so a write's length in
/// steps is looked up in the printed text first.
fn check(run: &Run, printed: &str, reads: &mut Reads) {
    let lines = fields(printed, run.moves.len());
    let mut published = vec![run.values[..run.start].to_vec()];
    let mut write = Write { record: Vec::new(), steps_left: 0 };
    let mut used = run.start;
    let mut began_at = vec![0; run.n as usize];
    for (i, one) in run.moves.iter().enumerate() {
        let line = &lines[i];
        let process = usize::from(one.process);
        if line[3] != 0 {
            continue;
        }
        if one.kind == BEGIN && process < began_at.len() {
            began_at[process] = published.len() - 1;
        } else if one.kind == BEGIN {
            let record = run.values[used..used + usize::from(one.length)].to_vec();
            used += record.len();
            let steps_left = steps_of_write(run, &lines, i).expect("every write ends");
            let looks = steps_left.wrapping_sub(record.len() + 5);
            assert!((1..=run.n as usize + 2).contains(&looks));
            write = Write { record, steps_left };
        } else if process == began_at.len() {
            write.steps_left -= 1;
            if write.steps_left == 1 {
                published.push(write.record.clone());
            }
            assert_eq!(line[4] == 1, write.steps_left == 0);
        } else if line[4] == 1 {
            let since = began_at[process];
            assert!(is_of_its_time(line, since, &published), "move {i}: {line:?}");
            reads.all += 1;
            if write.steps_left == 1 {
                reads.before_last_step += 1;
                reads.older += usize::from(line[5] > 0);
            }
        }
    }
}

/// The fields of the moves' lines as numbers, a letter as 0.
fn fields(printed: &str, moves: usize) -> Vec<Vec<u64>> {
    let numbers = |line: &str| line.split(' ').map(|field| field.parse().unwrap_or(0)).collect();
    printed.lines().skip(1).take(moves).map(numbers).collect()
}

/// Whether a read that ends now gives the record of a write that was current since it began, and as
/// its age how many writes later than that one have been published by now.
fn is_of_its_time(line: &[u64], since: usize, published: &[Vec<u64>]) -> bool {
    let later = |k: usize| published[k + 1..].len() as u64;
    (since..published.len()).any(|k| published[k] == line[6..] && later(k) == line[5])
}

/// How many steps the write begun at move `from` takes, if it ends.
fn steps_of_write(run: &Run, lines: &[Vec<u64>], from: usize) -> Option<usize> {
    let mut steps = 0;
    for (one, line) in run.moves.iter().zip(lines).skip(from + 1) {
        if u64::from(one.process) == run.n && one.kind == STEP && line[3] == 0 {
            steps += 1;
            if line[4] == 1 {
                return Some(steps);
            }
        }
    }
    None
}

#[test]
fn every_read_returns_a_record_of_its_time() {
    let mut reads = Reads::default();
    for case in all() {
        let mut run = match parse(&case.file) {
            Some(run) => run,
            None => continue,
        };
        // Let the writer end what the file leaves unended.
        let step = Move { process: run.n as u8, kind: STEP, length: 0 };
        run.moves.truncate(3_900);
        run.moves.extend([step; 60]);
        check(&run, &play(&bytes(&run)), &mut reads);
    }
    let Reads { all, before_last_step, older } = reads;
    assert!(all > 500, "{all} reads");
    assert!(before_last_step > 200 && older > 20, "{before_last_step} {older}");
}
