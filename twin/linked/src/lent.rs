//! Words that are lent to a board, with guard words on both sides that must stay.

use crate::deed::Deed;
use crate::exports::Answer;
use crate::side::Side;

/// Guard words on each side, at the least.
const GUARDS: usize = 8;
const GUARD: u64 = 0x6775_6172_6420_776f;

/// A board and the words that are lent to it.
pub struct Lent {
    side: Side,
    words: Vec<u64>,
    length: usize,
    guarded_record: Vec<u64>,
}

impl Lent {
    /// Room for an area of so many words; none is lent yet.
    pub fn new(side: Side, room: usize) -> Lent {
        let words = vec![GUARD; room + 2 * GUARDS];
        Lent { side, words, length: 0, guarded_record: Vec::new() }
    }

    /// The words that are lent now.
    pub fn area(&self) -> &[u64] {
        &self.words[GUARDS..GUARDS + self.length]
    }

    fn area_mut(&mut self) -> &mut [u64] {
        &mut self.words[GUARDS..GUARDS + self.length]
    }

    /// Whether every guard word stands, around the area and around the last record.
    pub fn guarded(&self) -> bool {
        let (before, rest) = self.words.split_at(GUARDS);
        let around = before.iter().chain(&rest[self.length..]);
        let record = &self.guarded_record;
        let ends = record.len().min(GUARDS);
        around
            .chain(&record[..ends])
            .chain(&record[record.len() - ends..])
            .all(|word| *word == GUARD)
    }

    /// Does a deed. What is no call answers nothing.
    pub fn act(&mut self, deed: &Deed) -> Answer {
        match deed {
            Deed::Make { form, n, c, record } => self
                .with_record(record, |side, area, record| (side.make)(area, *form, *n, *c, record)),
            Deed::Write(record) => {
                self.with_record(record, |side, area, record| (side.begin_write)(area, record))
            }
            Deed::Read(reader) => (self.side.begin_read)(self.area_mut(), *reader),
            Deed::Step(process) => (self.side.step)(self.area_mut(), *process),
            Deed::Show(reader) => {
                let place = (self.side.show)(self.area(), *reader);
                Answer { number: place.yes, ended: place.at, age: place.len }
            }
            Deed::Words { form, n, c } => {
                Answer { number: (self.side.words)(*form, *n, *c), ended: 0, age: 0 }
            }
            Deed::Lend(length) => {
                self.length = *length;
                self.words[GUARDS + length..].fill(GUARD);
                Answer::default()
            }
            Deed::Alter(place, word) => {
                self.area_mut()[*place] = *word;
                Answer::default()
            }
            Deed::Fill(words) => {
                self.area_mut().copy_from_slice(words);
                Answer::default()
            }
        }
    }

    /// A call that takes a record, which is lent between guard words too.
    fn with_record(
        &mut self,
        record: &[u64],
        call: impl Fn(&Side, &mut [u64], &[u64]) -> Answer,
    ) -> Answer {
        let mut guarded = std::mem::take(&mut self.guarded_record);
        guarded.clear();
        guarded.resize(GUARDS, GUARD);
        guarded.extend(record);
        guarded.resize(record.len() + 2 * GUARDS, GUARD);
        let side = self.side;
        let answer = call(&side, self.area_mut(), &guarded[GUARDS..GUARDS + record.len()]);
        self.guarded_record = guarded;
        answer
    }
}

#[cfg(test)]
mod tests {
    use super::{Lent, GUARDS};
    use crate::deed::Deed;
    use crate::side::proved;

    /// A fresh board in 38 words of room for 50, and after it a call that takes a record.
    fn lent() -> Lent {
        let mut lent = Lent::new(proved(), 50);
        lent.act(&Deed::Lend(38));
        assert_eq!(lent.act(&Deed::Make { form: 1, n: 1, c: 1, record: vec![7] }).number, 0);
        assert_eq!(lent.act(&Deed::Write(vec![8])).number, 0);
        lent
    }

    #[test]
    fn every_guard_word_is_looked_at() {
        let whole = lent();
        assert!(whole.guarded());
        for place in (0..GUARDS).chain(GUARDS + 38..whole.words.len()) {
            let mut lent = lent();
            lent.words[place] ^= 1;
            assert!(!lent.guarded(), "{place}");
        }
        for place in (0..GUARDS).chain(GUARDS + 1..2 * GUARDS + 1) {
            let mut lent = lent();
            lent.guarded_record[place] ^= 1;
            assert!(!lent.guarded(), "{place} of the record");
        }
    }
}
