//! Texts of moves: to a run file and back, and lines that are refused.

use twin::cases::{all, written};
use twin::runfile::{bytes, parse, play};
use twin::text::{from_run, to_run};

const HEAD: &str = "readers 1\nwords 2\nstart 7\n";

#[test]
fn every_case_survives_the_way_to_text_and_back() {
    let mut count = 0;
    for case in all() {
        if let Some(run) = parse(&case.file) {
            let text = from_run(&run);
            let again = to_run(&text).unwrap_or_else(|bad| panic!("{}: {bad}\n{text}", case.name));
            assert_eq!(bytes(&again), case.file, "{}", case.name);
            count += 1;
        }
    }
    assert!(count > 100);
}

#[test]
fn a_tidy_text_comes_back_as_it_was() {
    for text in [written::INPUT_A, written::P8, written::SHORTCUT_2] {
        assert_eq!(from_run(&to_run(text).unwrap()), text.trim_start());
    }
}

#[test]
fn comments_blanks_and_repeats() {
    let plain = to_run(&format!("{HEAD}B 0\nS 0\nS 0\nS 0\nW\n")).unwrap();
    let dressed =
        "# a run\n\nreaders 1   # one\n words\t2\nstart 7#seven\n B 0\nS 0 x3\r\n\nW # none\n";
    assert_eq!(to_run(dressed).unwrap(), plain);
}

/// The words of a refused write don't shift those of later writes.
#[test]
fn words_of_a_refused_write_are_left_out() {
    let run = to_run(&format!("{HEAD}W 1 2 3\nW 4\nW 5 6\nS 1 x8\nW 8 9\n")).unwrap();
    assert_eq!(run.values, [7, 4, 8, 9]);
    let printed = play(&bytes(&run));
    let begins: Vec<&str> = printed.lines().filter(|line| line.contains(" B ")).collect();
    assert_eq!(begins, ["0 1 B 4 0", "1 1 B 0 0", "2 1 B 5 0", "11 1 B 0 0"]);
}

#[test]
fn bad_header_lines() {
    for (text, line, part) in [
        ("", 1, "expected `readers`"),
        ("readers 1\n\n", 3, "expected `words`"),
        ("words 1\n", 1, "expected `readers`"),
        ("readers 0\n", 1, "from 1 to 8"),
        ("readers 9\n", 1, "from 1 to 8"),
        ("readers 1 2\n", 1, "expected `readers`"),
        ("readers 1\nwords 33\n", 2, "from 1 to 32"),
        ("readers 1\nwords 1\nB 0\n", 3, "expected `start`"),
        ("readers 1\nwords 1\nstart 1 2\n", 3, "more than 1 words"),
        ("readers 1\nwords 1\nstart x\n", 3, "a word must be a number"),
    ] {
        let bad = to_run(text).unwrap_err();
        assert_eq!(bad.line, line, "{text}");
        assert!(bad.message.contains(part), "{bad}");
    }
}

#[test]
fn bad_move_lines() {
    for (moves, part) in [
        ("B", "expected `B reader`"),
        ("B 1", "process 1 is the writer"),
        ("B 256", "from 0 to 255"),
        ("B -1", "must be a number"),
        ("B +1", "must be a number"),
        ("W 18446744073709551616", "a word must be a number"),
        ("S", "expected `S process`"),
        ("S 0 8", "a repeat is written `x8`"),
        ("S 0 x", "a repeat must be a number"),
        ("S 0 x0", "from 1 to 4000"),
        ("S 0 x4001", "from 1 to 4000"),
        ("S 0 x3 x3", "expected `S process`"),
        ("raw 0 0", "expected `raw"),
        ("raw 0 256 0", "a kind must be a number"),
        ("raw 0 0 65536", "a length must be a number"),
        ("raw 1 0 1", "words of a later line"),
        ("b 0", "unknown move `b`"),
        ("readers 1", "unknown move `readers`"),
        ("rest 1\nS 0", "no move may follow"),
        ("S 0 x4000\nS 0", "more than 4000 moves"),
    ] {
        let end = if moves.starts_with("raw 1") { "\nW 5" } else { "" };
        let bad = to_run(&format!("{HEAD}# moves\n{moves}{end}\n")).unwrap_err();
        assert_eq!(bad.line, 4 + moves.lines().count(), "{moves}");
        assert!(bad.to_string().starts_with(&format!("line {}: ", bad.line)));
        assert!(bad.message.contains(part), "{bad}");
    }
    let many = "1 ".repeat(1_000);
    assert_eq!(
        to_run(&format!("{HEAD}rest {many}\n")).unwrap_err().message,
        "more than 1000 values"
    );
}

/// The examples in the README replay as it says.
#[test]
fn the_examples_of_the_readme() {
    let readme = include_str!("../README.md");
    let ends = ["end 8589934594 45 0 2", "end 8589934594 47 0 1"];
    for (from, end) in readme.split("```text\n").skip(1).zip(ends) {
        let (text, after) = from.split_once("```").unwrap();
        let printed = play(&bytes(&to_run(text).unwrap()));
        let mut reads = Vec::new();
        for line in printed.lines().filter(|line| !line.starts_with("end")) {
            if line.split(' ').count() > 5 {
                reads.push(line);
                assert!(after.contains(&format!("`{line}`")), "{line}");
            }
        }
        assert_eq!(reads.len(), 3);
        assert!(printed.ends_with(&format!("{end}\n")), "{printed}");
    }
    assert!(readme.contains(&format!("`{}`", ends[1])));
}
