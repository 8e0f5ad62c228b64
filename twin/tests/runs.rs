//! Run files: Input A byte for byte, the shortcuts, refused files, and what reads may return.

use twin::cases::written::{file, INPUT_A, P7, P8, SHORTCUT_1, SHORTCUT_2, SHORTCUT_3, SHORTCUT_4};
use twin::cases::{all, written};
use twin::runfile::{bytes, parse, play};

const INPUT_A_PRINTED: &str = "run 1 1 16
0 1 B 0 0
1 1 S 0 0
2 1 S 0 0
3 1 S 0 0
4 1 S 0 0
5 1 S 0 0
6 1 S 0 0
7 1 S 0 0
8 0 B 0 0
9 0 S 0 0
10 0 S 0 0
11 0 S 0 0
12 0 S 0 0
13 0 S 0 1 0 8
14 1 S 0 1
15 0 S 6 0
end 4294967297 15 1 0
";

/// Input A put together by hand.
fn input_a() -> Vec<u8> {
    let mut file = Vec::new();
    for field in [1u32, 1, 1, 16, 28, 2, 92] {
        file.extend(field.to_le_bytes());
    }
    file.extend([1, 0, 1, 0]);
    for _ in 1..=7 {
        file.extend([1, 1, 0, 0]);
    }
    file.extend([0, 0, 0, 0]);
    for _ in 9..=13 {
        file.extend([0, 1, 0, 0]);
    }
    file.extend([1, 1, 0, 0]);
    file.extend([0, 1, 0, 0]);
    file.extend(7u64.to_le_bytes());
    file.extend(8u64.to_le_bytes());
    file
}

#[test]
fn input_a_byte_for_byte() {
    let made = input_a();
    assert_eq!(made.len(), 108);
    assert_eq!(file(INPUT_A), made);
    assert_eq!(play(&made), INPUT_A_PRINTED);
    assert_eq!(bytes(&parse(&made).unwrap()), made);
}

/// The lines of a text's printout that end a read, from the answer number on.
fn reads(text: &str) -> Vec<String> {
    let printed = play(&file(text));
    let mut found = Vec::new();
    for line in printed.lines() {
        let fields: Vec<&str> = line.split(' ').collect();
        if fields.len() > 5 && fields[2] == "S" {
            found.push(fields[3..].join(" "));
        }
    }
    found
}

fn last_line(text: &str) -> String {
    play(&file(text)).lines().last().unwrap().to_string()
}

#[test]
fn the_runs_that_break_the_shortcuts() {
    assert_eq!(
        play(&file(SHORTCUT_1)),
        "run 1 1 3\n0 0 B 0 0\n1 0 S 0 0\n2 0 S 0 1 0\nend 1 3 0 0\n"
    );
    assert_eq!(reads(SHORTCUT_2), ["0 1 0 7", "0 1 1 7"]);
    assert_eq!(reads(SHORTCUT_3), ["0 1 1 7"]);
    assert_eq!(reads(SHORTCUT_4), ["0 1 0 7"]);
    assert_eq!(last_line(SHORTCUT_2), "end 4294967296 20 0 1");
    assert_eq!(last_line(SHORTCUT_3), "end 4294967296 16 0 1");
    assert_eq!(last_line(SHORTCUT_4), "end 1 7 0 0");
}

#[test]
fn p7_and_p8_as_run_files() {
    assert_eq!(last_line(P7), "end 8589934592 19 0 0");
    assert_eq!(reads(P8), ["0 1 2 1 2"]);
    assert_eq!(last_line(P8), "end 8589934592 26 0 2");
}

/// The numbers that the comments in the written case name.
#[test]
fn values_run_out_in_the_order_written() {
    let (_, text) = written::TEXTS.iter().find(|(name, _)| *name == "values-run-out").unwrap();
    let printed = play(&file(text));
    let mut numbers = Vec::new();
    for line in printed.lines() {
        let fields: Vec<&str> = line.split(' ').collect();
        if fields[1] == "1" && fields[2] == "B" {
            numbers.push(fields[3].to_string());
        } else if fields[0] != "end" && fields[0] != "run" {
            assert_eq!(fields[3], "0", "{line}");
        }
    }
    assert_eq!(numbers, ["13", "4", "0", "13", "13", "5", "5", "13", "0", "0", "13", "0"]);
    assert_eq!(reads(text), ["0 1 0 1 2", "0 1 0"]);
}

#[test]
fn a_file_is_refused_exactly_when_its_name_says_so() {
    let names = ["bad-", "cut-", "overlong-", "shortest-", "limit-m4001", "limit-v1001"];
    for case in all() {
        let refused = names.iter().any(|name| case.name.starts_with(name));
        assert_eq!(play(&case.file) == "refused 11\n", refused, "{}", case.name);
        assert_eq!(parse(&case.file).is_none(), refused, "{}", case.name);
    }
}

#[test]
fn names_differ_and_the_whole_is_small() {
    let cases = all();
    let mut names: Vec<&str> = cases.iter().map(|case| case.name.as_str()).collect();
    names.sort_unstable();
    names.dedup();
    assert_eq!(names.len(), cases.len());
    let total: usize = cases.iter().map(|case| case.file.len() + play(&case.file).len()).sum();
    assert!(total < 700_000, "{total} bytes");
}
