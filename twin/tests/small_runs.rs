//! The small runs of document 01, on the board itself.

use twin::area::{Layout, CURRENT};
use twin::board::{begin_read, begin_write, is_own, make, refused, show, step, Answer};

const GOES_ON: Answer = Answer { number: 0, ended: false, age: 0 };

fn ended(age: u64) -> Answer {
    Answer { number: 0, ended: true, age }
}

fn fresh(n: u64, c: u64, record: &[u64]) -> Vec<u64> {
    let mut area = vec![77; Layout::new(n, c).unwrap().total];
    assert_eq!(make(1, n, c, record, &mut area), GOES_ON);
    area
}

/// Steps a process to the end of its operation: how many steps, and the last answer.
fn finish(area: &mut [u64], process: u64) -> (usize, Answer) {
    let mut steps = 0;
    loop {
        let answer = step(area, process);
        assert_eq!(answer.number, 0);
        steps += 1;
        if answer.ended {
            return (steps, answer);
        }
    }
}

#[test]
fn p1_to_p3_sizes() {
    let area = fresh(1, 1, &[7]);
    assert_eq!(area[..8], [1, 1, 1, 38, 8, 23, 30, 1]);
    assert_eq!(area[8..13], [0, 0, 1, 0, 7]);
    assert!(area[13..].iter().all(|&word| word == 0));
    assert_eq!(area.len(), 38);
    assert_eq!(fresh(2, 2, &[]).len(), 57);
    assert_eq!(fresh(64, 256, &[]).len(), 34_199);
    assert_eq!(Layout::new(64, 256).unwrap().total, 34_199);
}

#[test]
fn p4_and_p5_current_in_input_a() {
    let mut area = fresh(1, 1, &[7]);
    assert_eq!(begin_write(&mut area, &[8]), GOES_ON);
    for _ in 0..7 {
        assert_eq!(step(&mut area, 1), GOES_ON);
    }
    assert_eq!(area[CURRENT], 4_294_967_296);
    assert_eq!(begin_read(&mut area, 0), GOES_ON);
    for _ in 0..3 {
        assert_eq!(step(&mut area, 0), GOES_ON);
    }
    assert_eq!(area[CURRENT], 4_294_967_297);
}

#[test]
fn p6_a_read_of_the_start() {
    let mut area = fresh(1, 1, &[7]);
    assert!(!is_own(&area, 0));
    assert_eq!(show(&area, 0, &[5, 6]), [5, 6]);
    begin_read(&mut area, 0);
    assert_eq!(finish(&mut area, 0), (3, ended(0)));
    assert_eq!(show(&area, 0, &[5, 6]), [7]);
    assert!(is_own(&area, 0) && !is_own(&area, 1));
    assert_eq!(area[CURRENT], 1);
    begin_read(&mut area, 0);
    assert!(!is_own(&area, 0));
}

#[test]
fn p7_looks() {
    let mut area = fresh(1, 1, &[7]);
    begin_write(&mut area, &[8]);
    assert_eq!(finish(&mut area, 1), (2 + 1 + 5, ended(0)));
    assert_eq!(area[CURRENT], 1 << 32);
    begin_write(&mut area, &[9]);
    assert_eq!(finish(&mut area, 1), (3 + 1 + 5, ended(0)));
    assert_eq!(area[CURRENT], 2 << 32);
}

#[test]
fn p8_a_paused_reader() {
    let mut area = fresh(1, 2, &[1, 2]);
    begin_read(&mut area, 0);
    for _ in 0..3 {
        assert_eq!(step(&mut area, 0), GOES_ON);
    }
    for record in [[3, 4], [5, 6]] {
        begin_write(&mut area, &record);
        finish(&mut area, 1);
    }
    assert_eq!(step(&mut area, 0), ended(2));
    assert_eq!(show(&area, 0, &[]), [1, 2]);
    // The next read goes over to the newest record in L+4 steps.
    begin_read(&mut area, 0);
    assert_eq!(finish(&mut area, 0), (6, ended(0)));
    assert_eq!(show(&area, 0, &[]), [5, 6]);
}

#[test]
fn p9_and_p10() {
    for (n, c) in [(1, 1), (3, 4), (64, 256)] {
        let mut area = fresh(n, c, &[]);
        let most = vec![5; c as usize];
        let more = vec![5; c as usize + 1];
        assert_eq!(begin_write(&mut area, &more), refused(4));
        assert_eq!(step(&mut area, n), refused(6));
        assert_eq!(step(&mut area, 0), refused(6));
        assert_eq!(begin_write(&mut area, &most), GOES_ON);
        assert_eq!(begin_write(&mut area, &more), refused(4));
        assert_eq!(begin_write(&mut area, &most), refused(5));
        assert_eq!(step(&mut area, n), GOES_ON);
    }
}

#[test]
fn an_empty_start_is_read_in_two_steps() {
    let mut area = fresh(1, 1, &[]);
    begin_read(&mut area, 0);
    assert_eq!(finish(&mut area, 0), (2, ended(0)));
    assert!(is_own(&area, 0));
    assert!(show(&area, 0, &[4]).is_empty());
}

#[test]
fn refusals_of_making() {
    let mut area = vec![3; 38];
    for (form, n, c) in [(1, 0, 1), (1, 65, 1), (1, 1, 0), (1, 1, 257), (0, 1, 1), (2, 1, 1)] {
        assert_eq!(make(form, n, c, &[1, 2], &mut area), refused(9));
        assert_eq!(make(form, n, c, &[], &mut []), refused(9));
    }
    assert_eq!(make(1, 1, 1, &[1, 2], &mut area[..37]), refused(10));
    assert_eq!(make(1, 1, 1, &[], &mut [3; 39]), refused(10));
    assert_eq!(make(1, 1, 1, &[1, 2], &mut area), refused(4));
    assert_eq!(area, vec![3; 38]);
    assert_eq!(make(1, 1, 1, &[1], &mut area), GOES_ON);
}

#[test]
fn process_numbers() {
    let mut area = fresh(2, 1, &[]);
    assert_eq!(begin_read(&mut area, 2), refused(3));
    assert_eq!(begin_read(&mut area, u64::MAX), refused(3));
    assert_eq!(step(&mut area, 2), refused(6));
    assert_eq!(step(&mut area, 3), refused(3));
    assert_eq!(step(&mut area, u64::MAX), refused(3));
    assert_eq!(begin_read(&mut area, 1), GOES_ON);
    assert_eq!(begin_read(&mut area, 1), refused(5));
}
