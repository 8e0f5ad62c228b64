//! A written order of moves as text, one move a line, to a run and back.
//!
//! ```text
//! readers N                     header: these three lines, in this order
//! words C
//! start w w ..
//! B r                           reader r begins
//! W w w ..                      the writer begins a write of these words
//! S p      S p x8               process p steps, once or eight times
//! raw process kind length       any move, malformed ones too
//! rest w w ..                   values that no move uses, after the last move
//! ```
//! `#` begins a comment and blank lines are skipped. The words of a write that the board refuses
//! are left out of the file. A raw begin of the writer with a length brings no words, so it must be
//! one that playing the file refuses.

use crate::runfile::{Move, Player, Run, BEGIN, STEP};
use crate::runfile::{MOST_MOVES, MOST_READERS, MOST_VALUES, MOST_WORDS};
use crate::script::Script;
use std::fmt;

/// A line that is refused, counted from 1, and why.
#[derive(Clone, Debug, PartialEq, Eq)]
pub struct BadLine {
    pub line: usize,
    pub message: String,
}

impl fmt::Display for BadLine {
    fn fmt(&self, f: &mut fmt::Formatter) -> fmt::Result {
        write!(f, "line {}: {}", self.line, self.message)
    }
}

/// A line's fields, once comments and blanks are gone.
struct Line<'a> {
    number: usize,
    fields: Vec<&'a str>,
}

impl Line<'_> {
    fn bad<T>(&self, message: impl Into<String>) -> Result<T, BadLine> {
        Err(BadLine { line: self.number, message: message.into() })
    }

    /// A decimal number from `least` to `most`, digits only.
    fn number(&self, field: &str, what: &str, least: u64, most: u64) -> Result<u64, BadLine> {
        let digits = field.bytes().all(|b| b.is_ascii_digit());
        match field.parse::<u64>() {
            Ok(number) if digits && (least..=most).contains(&number) => Ok(number),
            _ => self.bad(format!("{what} must be a number from {least} to {most}, not `{field}`")),
        }
    }

    fn byte(&self, field: &str, what: &str) -> Result<u8, BadLine> {
        Ok(self.number(field, what, 0, u64::from(u8::MAX))? as u8)
    }

    /// All fields after the first, as words.
    fn words(&self) -> Result<Vec<u64>, BadLine> {
        self.fields[1..].iter().map(|field| self.number(field, "a word", 0, u64::MAX)).collect()
    }
}

/// The lines of a text that hold something.
fn lines(text: &str) -> Vec<Line<'_>> {
    let mut kept = Vec::new();
    for (i, line) in text.lines().enumerate() {
        let before_comment = line.split('#').next().unwrap_or("");
        let fields: Vec<&str> = before_comment.split_whitespace().collect();
        if !fields.is_empty() {
            kept.push(Line { number: i + 1, fields });
        }
    }
    kept
}

/// Turns a text into a run.
pub fn to_run(text: &str) -> Result<Run, BadLine> {
    let lines = lines(text);
    let end = Line { number: text.lines().count() + 1, fields: Vec::new() };
    let mut script = header(&lines, &end)?;
    // Raw begins of an idle writer, each with the values used before it.
    let mut unfed = Vec::new();
    let mut resting = false;
    for line in lines.iter().skip(3) {
        if line.fields[0] == "rest" {
            resting = true;
            script.rest(&line.words()?);
        } else if resting {
            return line.bad("no move may follow a `rest` line");
        } else {
            add_move(&mut script, line, &mut unfed)?;
        }
        if script.run.moves.len() as u64 > MOST_MOVES {
            return line.bad(format!("more than {MOST_MOVES} moves"));
        }
        if script.run.values.len() as u64 > MOST_VALUES {
            return line.bad(format!("more than {MOST_VALUES} values"));
        }
    }
    for (line, length, used) in unfed {
        if script.run.values.len() - used >= usize::from(length) {
            return line
                .bad("this begin would take the words of a later line: write it as `W w w ..`");
        }
    }
    Ok(script.run)
}

/// Reads the three header lines; `end` stands for the place where a missing one is noticed.
fn header(lines: &[Line], end: &Line) -> Result<Script, BadLine> {
    let mut sizes = [0; 2];
    let wanted = [("readers", MOST_READERS), ("words", MOST_WORDS)];
    for (i, (name, most)) in wanted.into_iter().enumerate() {
        let line = lines.get(i).unwrap_or(end);
        if line.fields.len() != 2 || line.fields[0] != name {
            return line.bad(format!("expected `{name}` and a number from 1 to {most}"));
        }
        sizes[i] = line.number(line.fields[1], name, 1, most)?;
    }
    let line = lines.get(2).unwrap_or(end);
    if line.fields.first() != Some(&"start") {
        return line.bad("expected `start` and the words of the starting record");
    }
    match Script::new(sizes[0], sizes[1], &line.words()?) {
        Some(script) => Ok(script),
        None => line.bad(format!("the starting record has more than {} words", sizes[1])),
    }
}

/// A raw begin of the writer that must find too few values: its line, its length, values used.
type Unfed<'a> = (&'a Line<'a>, u16, usize);

fn add_move<'a>(
    script: &mut Script,
    line: &'a Line<'a>,
    unfed: &mut Vec<Unfed<'a>>,
) -> Result<(), BadLine> {
    let n = script.run.n;
    match line.fields[..] {
        ["B", reader] => {
            let reader = line.byte(reader, "a reader")?;
            if u64::from(reader) == n {
                return line.bad(format!("process {n} is the writer: begin it with `W w w ..`"));
            }
            script.begin(reader);
        }
        ["W", ..] => {
            let record = line.words()?;
            if record.len() > usize::from(u16::MAX) {
                return line.bad("a write of more than 65535 words");
            }
            script.write(&record);
        }
        ["S", process] => script.steps(line.byte(process, "a process")?, 1),
        ["S", process, repeat] => add_steps(script, line, process, repeat)?,
        ["raw", process, kind, length] => {
            let process = line.byte(process, "a process")?;
            let kind = line.byte(kind, "a kind")?;
            let length = line.number(length, "a length", 0, u64::from(u16::MAX))? as u16;
            let of_writer = kind == BEGIN && u64::from(process) == n;
            if of_writer && length != 0 && script.takes(length) {
                unfed.push((line, length, script.run.values.len()));
            }
            script.raw(process, kind, length);
        }
        ["B", ..] => return line.bad("expected `B reader`"),
        ["S", ..] => return line.bad("expected `S process` or `S process x8`"),
        ["raw", ..] => return line.bad("expected `raw process kind length`"),
        _ => return line.bad(format!("unknown move `{}`", line.fields[0])),
    }
    Ok(())
}

/// So many steps of a process; the repeat is written `x8`.
fn add_steps(script: &mut Script, line: &Line, process: &str, repeat: &str) -> Result<(), BadLine> {
    let process = line.byte(process, "a process")?;
    let times = match repeat.strip_prefix('x') {
        Some(times) => times,
        None => return line.bad(format!("a repeat is written `x8`, not `{repeat}`")),
    };
    let times = line.number(times, "a repeat", 1, MOST_MOVES)?;
    script.steps(process, times as usize);
    Ok(())
}

/// Turns a run that `parse` gave into a text. `to_run` makes the same run of it.
pub fn from_run(run: &Run) -> String {
    let mut out = format!("readers {}\nwords {}\n", run.n, run.c);
    out.push_str(&with_words("start", &run.values[..run.start]));
    let mut player = Player::new(run);
    let mut i = 0;
    while i < run.moves.len() {
        let one = run.moves[i];
        let used = player.used;
        let accepted = player.act(one).number == 0;
        let mut times = 1;
        if one.kind == STEP && one.length == 0 {
            while run.moves.get(i + times) == Some(&one) {
                player.act(one);
                times += 1;
            }
        }
        let taken = accepted.then(|| &run.values[used..player.used]);
        out.push_str(&move_line(run.n, one, times, taken));
        i += times;
    }
    for eight in run.values[player.used..].chunks(8) {
        out.push_str(&with_words("rest", eight));
    }
    out
}

/// One line of text; `taken` holds the values that an accepted move used up.
fn move_line(n: u64, one: Move, times: usize, taken: Option<&[u64]>) -> String {
    let Move { process, kind, length } = one;
    let of_writer = u64::from(process) == n;
    match (kind, length, taken) {
        (BEGIN, _, Some(record)) if of_writer => with_words("W", record),
        (BEGIN, 0, _) if !of_writer => format!("B {process}\n"),
        (STEP, 0, _) if times == 1 => format!("S {process}\n"),
        (STEP, 0, _) => format!("S {process} x{times}\n"),
        _ => format!("raw {process} {kind} {length}\n"),
    }
}

fn with_words(name: &str, words: &[u64]) -> String {
    let mut line = name.to_string();
    for word in words {
        line.push_str(&format!(" {word}"));
    }
    line.push('\n');
    line
}
