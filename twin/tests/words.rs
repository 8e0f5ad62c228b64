//! Input A and a little more, with every word that each call changes, worked out by hand.
//! N 1, C 1: slots at 8, 13 and 18, the reader's desk at 23, the writer's at 30.

use twin::board::{begin_read, begin_write, make, step, Answer};

enum Call {
    Read,
    Write(&'static [u64]),
    Step(u64),
}

use Call::{Read, Step, Write};

const WORD: u64 = 1 << 32;

/// Places and their new words.
type Changes = &'static [(usize, u64)];

/// Each call, whether an operation ended, and the words that it changes.
const CALLS: &[(Call, bool, Changes)] = &[
    (Write(&[8]), false, &[(30, 1), (34, 1), (37, 8)]),
    (Step(1), false, &[(32, 1)]),
    (Step(1), false, &[(30, 2)]),
    (Step(1), false, &[(17, 8), (30, 3), (33, 1)]),
    (Step(1), false, &[(15, 1), (16, 1), (30, 4)]),
    (Step(1), false, &[(30, 5)]),
    (Step(1), false, &[(30, 6)]),
    (Step(1), false, &[(7, WORD), (30, 7), (35, 1)]),
    (Read, false, &[(23, 1)]),
    (Step(0), false, &[(23, 2)]),
    (Step(0), false, &[(9, 1), (23, 3)]),
    (Step(0), false, &[(7, WORD + 1), (23, 4), (24, 1)]),
    (Step(0), false, &[(23, 5), (26, 1), (27, 1)]),
    (Step(0), true, &[(23, 0), (25, 1), (28, 1), (29, 8)]),
    (Step(1), true, &[(8, 1), (30, 0), (31, 1), (36, 1)]),
    // Here Input A ends but for a refused step. A write of no words: the desk's old word stays.
    (Write(&[]), false, &[(30, 1), (32, 0), (33, 0), (34, 0)]),
    (Step(1), false, &[(30, 3)]),
    (Step(1), false, &[(10, 0), (11, 2), (30, 4)]),
    (Step(1), false, &[(8, 0), (30, 5)]),
    (Step(1), false, &[(9, 0), (30, 6)]),
    (Step(1), false, &[(7, 0), (30, 7), (35, WORD + 1)]),
    (Step(1), true, &[(13, 1), (30, 0), (31, 0), (36, 2)]),
    // A read of it: finished stays 1 throughout, the desk's old word stays.
    (Read, false, &[(23, 1)]),
    (Step(0), false, &[(23, 2)]),
    (Step(0), false, &[(14, 1), (23, 3)]),
    (Step(0), false, &[(7, 1), (23, 4), (24, 0)]),
    (Step(0), true, &[(23, 0), (25, 0), (26, 0), (27, 2)]),
];

#[test]
fn every_word_after_every_call() {
    let mut area = vec![0; 38];
    make(1, 1, 1, &[7], &mut area);
    for (number, (call, ended, changes)) in CALLS.iter().enumerate() {
        let before = area.clone();
        let answer = match call {
            Read => begin_read(&mut area, 0),
            Write(record) => begin_write(&mut area, record),
            Step(process) => step(&mut area, *process),
        };
        assert_eq!(answer, Answer { number: 0, ended: *ended, age: 0 }, "call {number}");
        let mut changed = Vec::new();
        for (place, &word) in area.iter().enumerate() {
            if word != before[place] {
                changed.push((place, word));
            }
        }
        assert_eq!(changed, *changes, "call {number}");
    }
}
