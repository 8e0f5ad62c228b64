//! Files that are refused, and files at the edge of being refused.

use super::orders::{record, script};
use super::Case;
use crate::runfile::{bytes, Move, Run, STEP};

/// A good file to spoil: N 3, C 4, I 2, M 5, V 6; 96 bytes.
fn good() -> Vec<u8> {
    let mut script = script(3, 4, 2);
    script.begin(0);
    script.write(&record(1, 3));
    script.steps(0, 2);
    script.steps(3, 1);
    script.rest(&[9]);
    script.file()
}

/// The good file with header field `field` set to another value.
fn with(field: usize, value: u32) -> Vec<u8> {
    let mut file = good();
    file[4 * field..4 * field + 4].copy_from_slice(&value.to_le_bytes());
    file
}

/// Fields by name; for each the wrong values, each alone in its file.
const WRONG: [(&str, &[u32]); 7] = [
    ("n", &[0, 9, 64, 256, u32::MAX]),
    ("c", &[0, 1, 33, 256, u32::MAX]),
    ("i", &[5, 6, 7, u32::MAX]),
    ("m", &[0, 4, 6, 7, 4_001, 0x4000_0005, u32::MAX]),
    ("moves-at", &[0, 27, 29, 32, u32::MAX]),
    ("v", &[0, 1, 5, 7, 1_001, 0x2000_0006, u32::MAX]),
    ("values-at", &[0, 47, 49, 44, 52, u32::MAX]),
];

/// Other values that the same bytes allow: N and C at both ends, I at both ends.
const RIGHT: [(&str, usize, &[u32]); 3] =
    [("n", 0, &[1, 8]), ("c", 1, &[2, 32]), ("i", 2, &[0, 1, 3, 4])];

pub fn cases() -> Vec<Case> {
    let mut cases = vec![Case::new("good", good())];
    for (field, (name, values)) in WRONG.into_iter().enumerate() {
        for &value in values {
            cases.push(Case::new(format!("bad-{name}-{value}"), with(field, value)));
        }
    }
    for (name, field, values) in RIGHT {
        for &value in values {
            cases.push(Case::new(format!("good-{name}-{value}"), with(field, value)));
        }
    }
    cut_and_overlong(&mut cases);
    same_length(&mut cases);
    sizes(&mut cases);
    limits(&mut cases);
    cases
}

fn cut_and_overlong(cases: &mut Vec<Case>) {
    let file = good();
    for length in [0, 1, 4, 27, 28, 47, 48, file.len() - 8, file.len() - 4, file.len() - 1] {
        cases.push(Case::new(format!("cut-to-{length}"), file[..length].to_vec()));
    }
    for more in [1, 4, 8] {
        let mut long = file.clone();
        long.resize(file.len() + more, 0);
        cases.push(Case::new(format!("overlong-by-{more}"), long));
    }
    let shortest = script(1, 1, 0).file();
    cases.push(Case::new("shortest-cut", shortest[..27].to_vec()));
    cases.push(Case::new("shortest-overlong", [&shortest[..], &[0]].concat()));
    cases.push(Case::new("shortest", shortest));
}

/// Two moves more and one value less, or the other way: the file's length is the same. With the
/// right offset of values it is a good file, with the old one it is not.
fn same_length(cases: &mut Vec<Case>) {
    for (name, m, v) in [("more-moves", 7u32, 5u32), ("fewer-moves", 3, 7)] {
        let mut file = with(3, m);
        file[20..24].copy_from_slice(&v.to_le_bytes());
        cases.push(Case::new(format!("bad-{name}"), file.clone()));
        file[24..28].copy_from_slice(&(28 + 4 * m).to_le_bytes());
        cases.push(Case::new(format!("good-{name}"), file));
    }
}

/// C 0 and nothing else wrong; I at V and above it, at C and above it.
fn sizes(cases: &mut Vec<Case>) {
    let nothing = Run { n: 1, c: 0, start: 0, moves: Vec::new(), values: Vec::new() };
    cases.push(Case::new("bad-c-0-alone", bytes(&nothing)));
    let mut run = Run { n: 1, c: 32, start: 3, moves: Vec::new(), values: vec![1, 2, 3] };
    cases.push(Case::new("good-i-is-v", bytes(&run)));
    run.start = 4;
    cases.push(Case::new("bad-i-above-v", bytes(&run)));
    run.values = record(1, 33);
    run.start = 32;
    cases.push(Case::new("good-i-is-c", bytes(&run)));
    run.start = 33;
    cases.push(Case::new("bad-i-above-c", bytes(&run)));
}

/// One move or one value too many. (As many as allowed is among the random orders.)
fn limits(cases: &mut Vec<Case>) {
    let step = Move { process: 1, kind: STEP, length: 0 };
    let mut run = Run { n: 1, c: 32, start: 0, moves: vec![step; 4_001], values: Vec::new() };
    cases.push(Case::new("limit-m4001", bytes(&run)));
    run.moves = vec![step];
    run.values = record(1, 1_001);
    cases.push(Case::new("limit-v1001", bytes(&run)));
}
