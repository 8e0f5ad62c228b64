//! The calls of a board as a table, so that one program drives the proved board, the twin, a copy of
//! the twin with a fault in it, or no board at all.

use crate::exports::{self, Answer, Place};

/// A default record, known by where it stands.
pub static DEFAULT: [u64; 1] = [0];

/// The calls of one board. Every answer is three words.
#[derive(Clone, Copy)]
pub struct Side {
    pub make: fn(&mut [u64], u64, u64, u64, &[u64]) -> Answer,
    pub begin_read: fn(&mut [u64], u64) -> Answer,
    pub begin_write: fn(&mut [u64], &[u64]) -> Answer,
    pub step: fn(&mut [u64], u64) -> Answer,
    pub show: fn(&[u64], u64) -> Place,
    pub words: fn(u64, u64, u64) -> u64,
}

/// The table of a module that has the twin's `area` and `board`.
macro_rules! side_of {
    ($twin:ident) => {{
        fn answer(given: $twin::board::Answer) -> $crate::exports::Answer {
            let (number, ended, age) = (given.number, u64::from(given.ended), given.age);
            $crate::exports::Answer { number, ended, age }
        }
        fn show(area: &[u64], reader: u64) -> $crate::exports::Place {
            let shown = $twin::board::show(area, reader, &$crate::side::DEFAULT);
            if std::ptr::eq(shown, &$crate::side::DEFAULT) {
                return $crate::exports::Place::default();
            }
            let at = (shown.as_ptr() as u64 - area.as_ptr() as u64) / 8;
            $crate::exports::Place { yes: 1, at, len: shown.len() as u64 }
        }
        fn words(form: u64, n: u64, c: u64) -> u64 {
            match $twin::area::Layout::new(n, c) {
                Some(at) if form == $twin::area::FORM => at.total as u64,
                _ => 0,
            }
        }
        $crate::side::Side {
            make: |area, form, n, c, record| answer($twin::board::make(form, n, c, record, area)),
            begin_read: |area, reader| answer($twin::board::begin_read(area, reader)),
            begin_write: |area, record| answer($twin::board::begin_write(area, record)),
            step: |area, process| answer($twin::board::step(area, process)),
            show,
            words,
        }
    }};
}
pub(crate) use side_of;

/// The proved board.
pub fn proved() -> Side {
    Side {
        make: exports::make,
        begin_read: exports::begin_read,
        begin_write: exports::begin_write,
        step: exports::step,
        show: exports::show,
        words: exports::words,
    }
}

/// The twin.
pub fn twin() -> Side {
    side_of!(twin)
}

/// No board: calls that do nothing, to know what calling costs.
pub fn none() -> Side {
    Side {
        make: |_, _, _, _, _| Answer::default(),
        begin_read: |_, _| Answer::default(),
        begin_write: |_, _| Answer::default(),
        step: |_, _| Answer::default(),
        show: |_, _| Place::default(),
        words: |_, _, _| 0,
    }
}
