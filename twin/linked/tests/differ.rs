//! The differential test itself: sessions come back from what they print, the same seed does the same
//! deeds, and a difference is noticed in an answer and in a word (in a guard word: src/lent.rs).

use linked::deed::Deed;
use linked::differ::plan::{sessions, Form};
use linked::differ::Session;
use linked::exports::{self, Answer};
use linked::lent::Lent;
use linked::pair::{Difference, Driven, Pair};
use linked::side::{self, Side};
use linked::trace;
use twin::area::{reader, writer, Layout};

#[test]
fn a_session_comes_back_from_what_it_prints() {
    for session in sessions(Form::Long) {
        let text = session.to_string();
        let fields: Vec<&str> = text.split(' ').collect();
        assert_eq!(Session::parse(&fields).unwrap().to_string(), text);
    }
    for bad in ["", "lively", "lively 0 1 1 1", "lively 1 257 1 1", "lively 1 1 1", "else 1 1 1 1"]
    {
        assert!(Session::parse(&bad.split(' ').collect::<Vec<_>>()).is_none(), "{bad}");
    }
}

#[test]
fn the_long_form_has_every_n_and_many_c() {
    let list = sessions(Form::Long);
    for n in 1..=64 {
        let at_n = list.iter().filter(|one| one.n == n && one.kind.to_string() == "lively");
        assert_eq!(at_n.count(), 16);
    }
}

#[test]
fn the_same_session_does_the_same_deeds() {
    let session = Session::parse(&["lively", "3", "4", "12", "300"]).unwrap();
    let [mut first, mut second] = [Vec::new(), Vec::new()];
    trace::write(&session, side::twin(), &mut first).unwrap();
    trace::write(&session, side::proved(), &mut second).unwrap();
    assert!(first.len() > 10_000);
    assert!(first == second);
}

/// The twin alone, and what it met: reads that ended in each phase of the writer, those of them that
/// ended in phase 7 with a record older than the one published, and steps that were refused.
struct Met {
    twin: Lent,
    by_phase: [u64; 8],
    older: u64,
    refused: u64,
}

impl Driven for Met {
    fn act(&mut self, deed: &Deed) -> Result<Answer, Box<Difference>> {
        let answer = self.twin.act(deed);
        if let (Deed::Step(number), Some(at)) = (deed, Layout::new(2, 2)) {
            let (area, desk) = (self.twin.area(), at.reader(*number as usize));
            let phase = area[at.writer + writer::PHASE];
            let ended = area[at.writer + writer::WRITES_ENDED];
            let older = phase == 7 && area[desk + reader::WRITE_NUMBER] <= ended;
            self.by_phase[phase as usize] += answer.ended;
            self.older += answer.ended * u64::from(older);
            self.refused += u64::from(answer.number == 2);
        }
        Ok(answer)
    }

    fn area(&self) -> &[u64] {
        self.twin.area()
    }
}

/// Sixteen reads for every phase and every number of writes ended; 2^64−1 ended in phase 0 alone.
#[test]
fn ages_are_of_reads_that_end_in_every_phase() {
    let session = Session::parse(&["ages", "2", "2", "2", "0"]).unwrap();
    let twin = Lent::new(side::twin(), session.room());
    let mut met = Met { twin, by_phase: [0; 8], older: 0, refused: 0 };
    assert!(session.run(&mut met).is_ok());
    assert_eq!(met.by_phase, [7 * 16, 96, 96, 96, 96, 96, 96, 96]);
    assert_eq!((met.older, met.refused), (48, 7 * 16));
}

/// The call on which a pair of the twin and this side differs, if any of a lively session does.
fn first_difference(other: Side) -> Option<u64> {
    let session = Session::parse(&["lively", "2", "2", "5", "400"]).unwrap();
    let mut pair = Pair::new(side::twin(), other, session.room(), 4);
    session.run(&mut pair).err().map(|difference| difference.call)
}

#[test]
fn differences_are_noticed() {
    let right = side::proved();
    assert_eq!(first_difference(right), None);
    let age_off = |area: &mut [u64], process| {
        let answer = exports::step(area, process);
        Answer { age: answer.age + answer.ended, ..answer }
    };
    assert!(first_difference(Side { step: age_off, ..right }).is_some());
    let stray_word = |area: &mut [u64], reader| {
        let answer = exports::begin_read(area, reader);
        area[area.len() - 1] ^= 1;
        answer
    };
    assert!(first_difference(Side { begin_read: stray_word, ..right }).is_some());
}
