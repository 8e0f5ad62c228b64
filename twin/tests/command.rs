//! The command line as it is run: the stored examples, a bad line told by its number, refused files.

use std::path::{Path, PathBuf};
use std::process::{Command, Output};
use std::{env, fs};
use twin::runfile::{bytes, play};
use twin::text::to_run;

const EXAMPLE: &str = include_str!("../examples/paused-worker.txt");
const EXAMPLE_RUN: &[u8] = include_bytes!("../examples/paused-worker.run");
const SECOND: &str = include_str!("../examples/paused-writer.txt");
const SECOND_RUN: &[u8] = include_bytes!("../examples/paused-writer.run");

/// The examples as texts and as run files, in the order of the README.
const EXAMPLES: [(&str, &[u8]); 2] = [(EXAMPLE, EXAMPLE_RUN), (SECOND, SECOND_RUN)];

fn twin(arguments: &[&str]) -> Output {
    Command::new(env!("CARGO_BIN_EXE_twin")).args(arguments).output().unwrap()
}

/// A file of this test's own, in the folder for temporary files.
fn place(name: &str) -> PathBuf {
    env::temp_dir().join(format!("twin-command-{}-{name}", std::process::id()))
}

fn text(path: &Path) -> &str {
    path.to_str().unwrap()
}

/// The stored run files are the stored texts, and every read's line stands in a comment of its text.
#[test]
fn the_stored_examples() {
    for (text, run) in EXAMPLES {
        assert_eq!(bytes(&to_run(text).unwrap()), run);
        let printed = play(run);
        let is_read = |line: &&str| line.contains(" S 0 1 ") && line.split(' ').count() > 5;
        let reads: Vec<&str> = printed.lines().filter(is_read).collect();
        assert_eq!(reads.len(), 3);
        for read in reads {
            assert!(text.contains(&format!("# {read}:")), "{read}");
        }
    }
}

/// The moves in the README are those of the stored examples.
#[test]
fn the_examples_of_the_readme_are_the_stored_ones() {
    let readme = include_str!("../README.md");
    let shown: Vec<&str> = readme.split("```text\n").skip(1).collect();
    assert_eq!(shown.len(), EXAMPLES.len());
    for (from, (text, _)) in shown.iter().zip(EXAMPLES) {
        let (moves, _) = from.split_once("```").unwrap();
        assert_eq!(to_run(moves).unwrap(), to_run(text).unwrap());
    }
}

#[test]
fn to_a_run_file_and_back_and_played() {
    let (from, run, back) = (place("a.txt"), place("a.run"), place("a.back"));
    fs::write(&from, EXAMPLE).unwrap();
    assert!(twin(&["text-to-run", text(&from), text(&run)]).status.success());
    assert_eq!(fs::read(&run).unwrap(), EXAMPLE_RUN);
    assert!(twin(&["run-to-text", text(&run), text(&back)]).status.success());
    let again = fs::read_to_string(&back).unwrap();
    assert_eq!(bytes(&to_run(&again).unwrap()), EXAMPLE_RUN);
    let played = twin(&["play", text(&run)]);
    assert_eq!(String::from_utf8(played.stdout).unwrap(), play(EXAMPLE_RUN));
    for path in [from, run, back] {
        fs::remove_file(path).unwrap();
    }
}

#[test]
fn a_bad_line_is_told_by_its_number_and_nothing_is_written() {
    let (from, to) = (place("bad.txt"), place("bad.run"));
    fs::write(&from, "readers 1\nwords 1\nstart 7\n# a comment\nS 1 x8\nS 1 8\n").unwrap();
    let output = twin(&["text-to-run", text(&from), text(&to)]);
    assert_eq!(output.status.code(), Some(1));
    let said = String::from_utf8(output.stderr).unwrap();
    assert_eq!(said, format!("{}: line 6: a repeat is written `x8`, not `8`\n", text(&from)));
    assert!(!to.exists());
    fs::remove_file(from).unwrap();
}

#[test]
fn refused_files_and_bad_usage() {
    let file = place("refused.run");
    fs::write(&file, &EXAMPLE_RUN[1..]).unwrap();
    let played = twin(&["play", text(&file)]);
    assert_eq!((played.status.code(), played.stdout), (Some(0), b"refused 11\n".to_vec()));
    let turned = twin(&["run-to-text", text(&file), text(&place("never"))]);
    assert_eq!(turned.status.code(), Some(1));
    fs::remove_file(file).unwrap();
    assert!(String::from_utf8(twin(&[]).stderr).unwrap().starts_with("usage:"));
    assert_eq!(twin(&["play", "no such file"]).status.code(), Some(1));
}
