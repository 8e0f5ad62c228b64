//! What the test does, one thing at a time: a call of the board, or something done to the lent words
//! between two calls.

use std::fmt;

/// One deed. The first six are calls.
#[derive(Clone, Debug, PartialEq, Eq)]
pub enum Deed {
    Make {
        form: u64,
        n: u64,
        c: u64,
        record: Vec<u64>,
    },
    Read(u64),
    Write(Vec<u64>),
    Step(u64),
    Show(u64),
    Words {
        form: u64,
        n: u64,
        c: u64,
    },
    /// From here on so many words are lent; those that are new hold guard words.
    Lend(usize),
    /// One word becomes another.
    Alter(usize, u64),
    /// All lent words are written anew.
    Fill(Vec<u64>),
}

impl Deed {
    /// Whether it is a call of the board.
    pub fn is_call(&self) -> bool {
        !matches!(self, Deed::Lend(_) | Deed::Alter(..) | Deed::Fill(_))
    }

    /// The deed as words: its kind, how many more follow, and those.
    pub fn words(&self) -> Vec<u64> {
        let (kind, rest) = match self {
            Deed::Make { form, n, c, record } => (0, [&[*form, *n, *c], &record[..]].concat()),
            Deed::Read(reader) => (1, vec![*reader]),
            Deed::Write(record) => (2, record.clone()),
            Deed::Step(process) => (3, vec![*process]),
            Deed::Show(reader) => (4, vec![*reader]),
            Deed::Words { form, n, c } => (5, vec![*form, *n, *c]),
            Deed::Lend(length) => (6, vec![*length as u64]),
            Deed::Alter(place, word) => (7, vec![*place as u64, *word]),
            Deed::Fill(words) => (8, words.clone()),
        };
        [&[kind, rest.len() as u64], &rest[..]].concat()
    }
}

impl fmt::Display for Deed {
    fn fmt(&self, f: &mut fmt::Formatter) -> fmt::Result {
        match self {
            Deed::Make { form, n, c, record } => {
                write!(f, "make form {form} N {n} C {c} record {}", Words(record))
            }
            Deed::Read(reader) => write!(f, "begin_read {reader}"),
            Deed::Write(record) => write!(f, "begin_write {}", Words(record)),
            Deed::Step(process) => write!(f, "step {process}"),
            Deed::Show(reader) => write!(f, "show {reader}"),
            Deed::Words { form, n, c } => write!(f, "words form {form} N {n} C {c}"),
            Deed::Lend(length) => write!(f, "(lend {length} words)"),
            Deed::Alter(place, word) => write!(f, "(word {place} becomes {word})"),
            Deed::Fill(words) => write!(f, "(all words become {})", Words(words)),
        }
    }
}

/// Words for printing: the first few, and how many there are.
struct Words<'a>(&'a [u64]);

impl fmt::Display for Words<'_> {
    fn fmt(&self, f: &mut fmt::Formatter) -> fmt::Result {
        const SHOWN: usize = 64;
        let first: Vec<String> = self.0.iter().take(SHOWN).map(u64::to_string).collect();
        let more = if self.0.len() > SHOWN { " .." } else { "" };
        write!(f, "[{}{more}] of {} words", first.join(" "), self.0.len())
    }
}
