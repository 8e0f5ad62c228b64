//! Areas that someone altered: numbers 1, 2, 7 and 8, that a refusal changes nothing, and ages.

use twin::area::{reader, slot, writer, Layout, CURRENT};
use twin::board::{begin_read, begin_write, is_own, make, refused, show, step, Answer};

const N: u64 = 2;
const C: u64 = 2;

fn layout() -> Layout {
    Layout::new(N, C).unwrap()
}

fn fresh() -> Vec<u64> {
    let mut area = vec![0; layout().total];
    assert_eq!(make(1, N, C, &[7, 8], &mut area).number, 0);
    area
}

/// Every call answers this number and leaves the area as it was.
fn all_refuse(area: &[u64], number: u64) {
    let mut lent = area.to_vec();
    for process in [0, 1, 2, 3, u64::MAX] {
        assert_eq!(begin_read(&mut lent, process), refused(number));
        assert_eq!(step(&mut lent, process), refused(number));
        assert_eq!(show(&lent, process, &[1]), [1]);
        assert!(!is_own(&lent, process));
    }
    assert_eq!(begin_write(&mut lent, &[1, 2, 3]), refused(number));
    assert_eq!(begin_write(&mut lent, &[]), refused(number));
    assert_eq!(lent, area);
}

fn with(changes: &[(usize, u64)]) -> Vec<u64> {
    let mut area = fresh();
    for &(place, value) in changes {
        area[place] = value;
    }
    area
}

#[test]
fn not_an_area() {
    let good = fresh();
    for length in [0, 1, 7, 8, good.len() - 1] {
        all_refuse(&good[..length], 1);
    }
    all_refuse(&[&good[..], &[0]].concat(), 1);
    for (place, &right) in good[..7].iter().enumerate() {
        for value in [0, right - 1, right + 1, u64::MAX] {
            all_refuse(&with(&[(place, value)]), 1);
        }
    }
    // Not an area comes before damaged.
    all_refuse(&with(&[(0, 2), (CURRENT, u64::MAX)]), 1);
}

#[test]
fn damaged() {
    let at = layout();
    let (slot, desk, own) = (at.slot(3), at.reader(1), at.writer);
    let bad: &[&[(usize, u64)]] = &[
        &[(CURRENT, (N + 2) << 32)],
        &[(CURRENT, N + 1)],
        &[(CURRENT, u64::MAX)],
        &[(slot + slot::R_START, N + 1)],
        &[(slot + slot::R_END, N + 1)],
        &[(slot + slot::SIZE, C + 1)],
        &[(desk + reader::PHASE, 6)],
        &[(desk + reader::LAST, N + 2)],
        &[(desk + reader::POS, 1)],
        &[(desk + reader::LEN, C + 1)],
        &[(desk + reader::FINISHED, 2)],
        &[(desk + reader::PHASE, 5)],
        &[(desk + reader::PHASE, 5), (desk + reader::LEN, 1), (desk + reader::POS, 1)],
        &[(own + writer::PHASE, 8)],
        &[(own + writer::LAST_SLOT, N + 2)],
        &[(own + writer::IN_HAND, N + 2)],
        &[(own + writer::POS, 1)],
        &[(own + writer::LEN, C + 1)],
        &[(own + writer::OLD_WORD, (N + 2) << 32)],
        &[(own + writer::OLD_WORD, N + 1)],
        &[(own + writer::PHASE, 2)],
        &[(own + writer::PHASE, 1), (own + writer::LEN, 1), (own + writer::POS, 1)],
        &[(own + writer::PHASE, 3), (own + writer::WRITES_ENDED, u64::MAX)],
    ];
    for changes in bad {
        all_refuse(&with(changes), 2);
    }
}

#[test]
fn words_that_are_free() {
    let at = layout();
    let (slot, desk, own) = (at.slot(3), at.reader(1), at.writer);
    for place in [
        slot + slot::WRITE_NUMBER,
        slot + slot::CONTENTS,
        desk + reader::WRITE_NUMBER,
        desk + reader::RECORD + 1,
        own + writer::WRITES_ENDED,
        own + writer::RECORD,
    ] {
        assert_eq!(begin_read(&mut with(&[(place, u64::MAX)]), 0).number, 0);
    }
}

/// An altered but undamaged area, one step, and the number; a refused step changes nothing.
fn refused_step(changes: &[(usize, u64)], process: u64, number: u64) {
    let mut area = with(changes);
    let before = area.clone();
    assert_eq!(step(&mut area, process), refused(number));
    assert_eq!(area, before);
}

#[test]
fn seven_eight_and_the_counter_form_of_two() {
    let at = layout();
    let (slot, desk, own) = (at.slot(0), at.reader(1), at.writer);
    refused_step(&[(desk + reader::PHASE, 2), (slot + slot::R_END, N)], 1, 2);
    refused_step(&[(desk + reader::PHASE, 3)], 1, 2);
    let held = at.slot(3) + slot::R_START;
    refused_step(&[(own + writer::PHASE, 1), (own + writer::IN_HAND, 3), (held, 1)], N, 8);
    let last = own + writer::LAST_SLOT;
    refused_step(&[(own + writer::PHASE, 1), (own + writer::IN_HAND, 3), (last, 3)], N, 8);
    let mut area = with(&[(own + writer::WRITES_ENDED, u64::MAX)]);
    let before = area.clone();
    assert_eq!(begin_write(&mut area, &[1]), refused(7));
    assert_eq!(begin_write(&mut area, &[1, 2, 3]), refused(4));
    assert_eq!(area, before);
}

/// 2^64−1: as many writes as can end.
const MAX: u64 = u64::MAX;

/// A reader one step before the end of its read, in its step 4 on a slot of no words and in its step
/// 5 on the last of two; the writer in some phase with so many writes ended; the read's write number.
fn about_to_end(phase: u64, ended: u64, number: u64) -> [Vec<u64>; 2] {
    let at = layout();
    let (slot, desk, own) = (at.slot(0), at.reader(0), at.writer);
    let in_writer =
        [(own + writer::PHASE, phase), (own + writer::LEN, 1), (own + writer::WRITES_ENDED, ended)];
    let of_no_words =
        [(slot + slot::SIZE, 0), (slot + slot::WRITE_NUMBER, number), (desk + reader::PHASE, 4)];
    // The number was taken in step 4; the slot's own is looked at no more.
    let of_two_words = [
        (slot + slot::WRITE_NUMBER, 1 << 63),
        (desk + reader::PHASE, 5),
        (desk + reader::LEN, 2),
        (desk + reader::POS, 1),
        (desk + reader::WRITE_NUMBER, number),
    ];
    [
        with(&[&in_writer[..], &of_no_words].concat()),
        with(&[&in_writer[..], &of_two_words].concat()),
    ]
}

/// The read ends with this age.
fn ends_with_age(phase: u64, ended: u64, number: u64, age: u64) {
    for mut area in about_to_end(phase, ended, number) {
        let answer = Answer { number: 0, ended: true, age };
        assert_eq!(step(&mut area, 0), answer, "phase {phase}, {ended} ended, number {number}");
    }
}

#[test]
fn age_is_never_negative_and_never_wraps() {
    for phase in 0..=7 {
        // Published and not yet ended in phase 7 alone.
        let more = u64::from(phase == 7);
        ends_with_age(phase, 5, 3, 2 + more);
        ends_with_age(phase, 5, 5, more);
        for (ended, number) in [(5, 6), (5, 7), (0, 1), (0, 2), (0, MAX), (MAX - 2, MAX - 1)] {
            ends_with_age(phase, ended, number, 0);
        }
    }
}

#[test]
fn age_at_the_most_writes() {
    ends_with_age(7, MAX - 1, 0, MAX);
    ends_with_age(7, MAX - 1, 1, MAX - 1);
    ends_with_age(7, MAX - 1, MAX - 1, 1);
    ends_with_age(7, MAX - 1, MAX, 0);
    for phase in 0..=6 {
        ends_with_age(phase, MAX - 1, 0, MAX - 1);
        ends_with_age(phase, MAX - 1, MAX - 1, 0);
        ends_with_age(phase, MAX - 1, MAX, 0);
    }
    ends_with_age(0, MAX, 0, MAX);
    ends_with_age(0, MAX, 1, MAX - 1);
    ends_with_age(0, MAX, MAX, 0);
    // In any other phase this many is damage, and the read does not end.
    for phase in 1..=7 {
        for number in [0, 1, MAX] {
            about_to_end(phase, MAX, number).iter().for_each(|area| all_refuse(area, 2));
        }
    }
}

/// Words of any kind in any place: no call panics, and a refusal changes nothing.
#[test]
fn any_words_at_all() {
    let mut seed = 1u64;
    let mut next = || {
        seed = seed.wrapping_mul(6_364_136_223_846_793_005).wrapping_add(1_442_695_040_888_963_407);
        seed >> 33
    };
    for _ in 0..20_000 {
        let mut area = fresh();
        for _ in 0..=next() % 12 {
            let place = CURRENT + next() as usize % (area.len() - CURRENT);
            area[place] =
                if place == CURRENT { ((next() % 5) << 32) + next() % 4 } else { next() % 5 };
        }
        for _ in 0..12 {
            let before = area.clone();
            let answer = match next() % 6 {
                0 => begin_read(&mut area, next() % 3),
                1 => begin_write(&mut area, &[9; 3][..next() as usize % 4]),
                _ => step(&mut area, next() % 4),
            };
            if answer.number != 0 {
                assert_eq!(answer, refused(answer.number));
                assert_eq!(area, before);
            } else {
                // An accepted call leaves the area undamaged: a step above N is then 3.
                assert_eq!(step(&mut area, N + 1), refused(3));
            }
        }
    }
}
