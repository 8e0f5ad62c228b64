//! The safe wrapper: an owned and a borrowed board, what each step gives, and every refusal by its name.

use linked::board::{Board, Outcome, Refusal};
use linked::exports;
use twin::area::{slot, writer, Layout};

/// Steps a process to the end of its operation.
fn finish<A: AsRef<[u64]> + AsMut<[u64]>>(board: &mut Board<A>, process: u64) -> Outcome {
    loop {
        match board.step(process) {
            Ok(Outcome::GoesOn) => (),
            Ok(ended) => return ended,
            Err(refusal) => panic!("{refusal}"),
        }
    }
}

#[test]
fn a_paused_worker_wakes() {
    let mut board = Board::fresh(2, 3, &[1, 2, 3]).unwrap();
    assert_eq!(board.record(0), None);
    assert_eq!(board.record_or(0, &[9]), [9]);
    board.begin_read(0).unwrap();
    for _ in 0..3 {
        assert_eq!(board.step(0), Ok(Outcome::GoesOn));
    }
    for record in [[4, 5, 6], [7, 8, 9]] {
        board.begin_write(&record).unwrap();
        assert_eq!(finish(&mut board, 2), Outcome::WriteEnded);
    }
    board.begin_read(1).unwrap();
    assert_eq!(finish(&mut board, 1), Outcome::ReadEnded { age: 0 });
    assert_eq!(finish(&mut board, 0), Outcome::ReadEnded { age: 2 });
    assert_eq!(board.record(1), Some(&[7, 8, 9][..]));
    assert_eq!(board.record_or(0, &[]), [1, 2, 3]);
}

/// The write is published and its last step is still to come: for the worker it is a later one.
#[test]
fn a_paused_writer_has_published() {
    let mut board = Board::fresh(2, 3, &[1, 2, 3]).unwrap();
    board.begin_read(0).unwrap();
    for _ in 0..4 {
        assert_eq!(board.step(0), Ok(Outcome::GoesOn));
    }
    board.begin_write(&[4, 5, 6]).unwrap();
    // Two looks, three words, four steps.
    for _ in 0..9 {
        assert_eq!(board.step(2), Ok(Outcome::GoesOn));
    }
    board.begin_read(1).unwrap();
    assert_eq!(finish(&mut board, 1), Outcome::ReadEnded { age: 0 });
    assert_eq!(board.record(1), Some(&[4, 5, 6][..]));
    assert_eq!(board.step(0), Ok(Outcome::ReadEnded { age: 1 }));
    assert_eq!(board.record(0), Some(&[1, 2, 3][..]));
    assert_eq!(board.step(2), Ok(Outcome::WriteEnded));
}

#[test]
fn a_borrowed_area_outlives_its_board() {
    let mut area = vec![5; exports::words(1, 1, 1) as usize];
    assert_eq!(area.len(), 38);
    let mut board = Board::make(&mut area[..], 1, 1, &[7]).unwrap();
    board.begin_read(0).unwrap();
    assert_eq!(finish(&mut board, 0), Outcome::ReadEnded { age: 0 });
    let again = Board::over(&mut area[..]);
    assert_eq!(again.record(0), Some(&[7][..]));
    assert_eq!(again.into_area().len(), 38);
}

/// The refusal of a call.
fn refusal<T>(outcome: Result<T, Refusal>) -> Option<Refusal> {
    outcome.err()
}

#[test]
fn every_refusal_by_its_name() {
    assert_eq!(refusal(Board::fresh(0, 1, &[])), Some(Refusal::SizesOutOfRange));
    assert_eq!(refusal(Board::fresh(1, 257, &[])), Some(Refusal::SizesOutOfRange));
    assert_eq!(refusal(Board::make(vec![0; 37], 1, 1, &[])), Some(Refusal::WrongNumberOfWords));
    assert_eq!(refusal(Board::fresh(1, 1, &[1, 2])), Some(Refusal::RecordTooLong));
    assert_eq!(refusal(Board::over(vec![0; 3]).step(0)), Some(Refusal::NotAnArea));
    assert_eq!(refusal(Board::over(Vec::new()).begin_write(&[])), Some(Refusal::NotAnArea));
    let mut board = Board::fresh(1, 1, &[7]).unwrap();
    assert_eq!(refusal(board.step(0)), Some(Refusal::Idle));
    assert_eq!(refusal(board.step(2)), Some(Refusal::NoSuchProcess));
    assert_eq!(refusal(board.begin_read(1)), Some(Refusal::NoSuchProcess));
    assert_eq!(refusal(board.begin_write(&[1, 2])), Some(Refusal::RecordTooLong));
    board.begin_read(0).unwrap();
    assert_eq!(refusal(board.begin_read(0)), Some(Refusal::Busy));
    board.begin_write(&[8]).unwrap();
    assert_eq!(refusal(board.begin_write(&[8])), Some(Refusal::Busy));
}

#[test]
fn refusals_of_altered_areas() {
    let at = Layout::new(1, 1).unwrap();
    let fresh = Board::fresh(1, 1, &[7]).unwrap().into_area();
    let with = |changes: &[(usize, u64)]| {
        let mut area = fresh.clone();
        changes.iter().for_each(|&(place, word)| area[place] = word);
        Board::over(area)
    };
    assert_eq!(refusal(with(&[(at.slot(1) + slot::SIZE, 2)]).step(0)), Some(Refusal::Damaged));
    let ended = at.writer + writer::WRITES_ENDED;
    assert_eq!(refusal(with(&[(ended, u64::MAX)]).begin_write(&[])), Some(Refusal::NoMoreWrites));
    let looks = [(at.writer, 1), (at.writer + writer::IN_HAND, 2), (at.slot(2) + slot::R_END, 1)];
    let mut board = with(&looks);
    let before = board.words().to_vec();
    assert_eq!(refusal(board.step(1)), Some(Refusal::NoFreeSlot));
    assert_eq!(board.words(), before);
}

#[test]
fn a_refusal_prints_its_number() {
    assert_eq!(Refusal::Damaged.to_string(), "2: the area is damaged");
    assert_eq!(Refusal::WrongNumberOfWords.to_string(), "10: wrong number of words");
    assert_eq!(Refusal::Unknown(11).to_string(), "11: not a number of the board");
}
