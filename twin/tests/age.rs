//! The age of request 1 of document 02: how many later writes are published when the read ends,
//! whether or not the last of them has made its last step.

use twin::area::{writer, Layout};
use twin::board::{begin_read, begin_write, make, show, step, Answer};

const GOES_ON: Answer = Answer { number: 0, ended: false, age: 0 };

fn ended(age: u64) -> Answer {
    Answer { number: 0, ended: true, age }
}

/// An area of two readers and records of at most two words; the writer is process 2.
fn fresh(record: &[u64]) -> Vec<u64> {
    let mut area = vec![0; Layout::new(2, 2).unwrap().total];
    assert_eq!(make(1, 2, 2, record, &mut area), GOES_ON);
    area
}

/// The writer's phase.
fn phase(area: &[u64]) -> u64 {
    area[Layout::new(2, 2).unwrap().writer + writer::PHASE]
}

fn steps(area: &mut [u64], process: u64, times: usize) {
    for _ in 0..times {
        assert_eq!(step(area, process), GOES_ON);
    }
}

/// Steps a process to the end of its operation.
fn finish(area: &mut [u64], process: u64) -> Answer {
    loop {
        let answer = step(area, process);
        if answer != GOES_ON {
            return answer;
        }
    }
}

/// A write that stops where the writer comes to this phase; where it comes to 0, the write has ended.
fn write_up_to(area: &mut [u64], record: &[u64], stop: u64) {
    assert_eq!(begin_write(area, record), GOES_ON);
    while phase(area) != stop {
        assert_eq!(step(area, 2).number, 0);
    }
}

/// A whole read: its last answer and its record.
fn read(area: &mut [u64], reader: u64) -> (Answer, Vec<u64>) {
    assert_eq!(begin_read(area, reader), GOES_ON);
    let answer = finish(area, reader);
    (answer, show(area, reader, &[99]).to_vec())
}

/// Reader 0 is one step before the end of a read. The writer writes, and before and after each of
/// its steps the read is ended on a copy of the area: the writer's phase there, and the age.
fn ages_by_phase(mut area: Vec<u64>, record: &[u64]) -> Vec<(u64, u64)> {
    let mut ages = Vec::new();
    let mut note = |area: &[u64]| {
        let mut copy = area.to_vec();
        let answer = step(&mut copy, 0);
        assert_eq!(answer, ended(answer.age));
        ages.push((phase(area), answer.age));
    };
    note(&area);
    assert_eq!(begin_write(&mut area, record), GOES_ON);
    while phase(&area) != 0 {
        note(&area);
        assert_eq!(step(&mut area, 2).number, 0);
    }
    note(&area);
    ages
}

/// The same read, ended in every phase of a write of two words. By writes ended alone it would have
/// age 0 in phase 7.
#[test]
fn a_read_that_ends_in_each_phase_of_a_write() {
    let mut area = fresh(&[1, 2]);
    begin_read(&mut area, 0);
    steps(&mut area, 0, 3);
    let ages = ages_by_phase(area, &[3, 4]);
    let before = [(0, 0), (1, 0), (1, 0), (2, 0), (2, 0), (3, 0), (4, 0), (5, 0), (6, 0)];
    assert_eq!(ages[..9], before);
    assert_eq!(ages[9..], [(7, 1), (0, 1)]);
}

/// A read of no words ends in its step 4, which also takes the write number.
#[test]
fn a_read_of_no_words_that_ends_in_each_phase_of_a_write() {
    let mut area = fresh(&[]);
    begin_read(&mut area, 0);
    steps(&mut area, 0, 1);
    for record in [&[][..], &[5]] {
        let ages = ages_by_phase(area.clone(), record);
        let (before, after) = ages.split_at(ages.len() - 2);
        assert!(before.iter().all(|(_, age)| *age == 0), "{before:?}");
        assert_eq!(before.last(), Some(&(6, 0)));
        assert_eq!(after, [(7, 1), (0, 1)]);
    }
}

/// While the writer sleeps in phase 7 its record has age 0 like any other that is the newest, and
/// so it has once the write has ended.
#[test]
fn a_read_of_the_record_whose_writer_sleeps() {
    for record in [&[][..], &[3], &[3, 4]] {
        let mut area = fresh(&[1, 2]);
        write_up_to(&mut area, record, 7);
        for reader in [0, 1, 0] {
            assert_eq!(read(&mut area, reader), (ended(0), record.to_vec()));
        }
        assert_eq!(finish(&mut area, 2), ended(0));
        assert_eq!(read(&mut area, 1), (ended(0), record.to_vec()));
    }
}

/// A reader sleeps on the starting record, and its neighbour on the first write's. The second write
/// is published: for the first there are two later writes, for the neighbour one.
#[test]
fn two_readers_on_older_records() {
    let mut area = fresh(&[1, 2]);
    begin_read(&mut area, 0);
    steps(&mut area, 0, 3);
    write_up_to(&mut area, &[3, 4], 0);
    begin_read(&mut area, 1);
    steps(&mut area, 1, 5);
    for (stop, of_0, of_1) in [(6, 1, 0), (7, 2, 1), (0, 2, 1)] {
        let mut area = area.clone();
        write_up_to(&mut area, &[5, 6], stop);
        assert_eq!(step(&mut area, 0), ended(of_0));
        assert_eq!(step(&mut area, 1), ended(of_1));
        assert_eq!(show(&area, 0, &[]), [1, 2]);
        assert_eq!(show(&area, 1, &[]), [3, 4]);
    }
}

/// A read that begins before the publication and looks after it gets the new record, age 0.
#[test]
fn a_read_that_begins_before_the_publication() {
    let mut area = fresh(&[1, 2]);
    begin_read(&mut area, 0);
    write_up_to(&mut area, &[3, 4], 7);
    assert_eq!(finish(&mut area, 0), ended(0));
    assert_eq!(show(&area, 0, &[]), [3, 4]);
}
