//! Cases written by hand in the text format: the small runs of document 01, the runs that break
//! its four shortcuts, and refusals.

use super::Case;
use crate::runfile::bytes;
use crate::text::to_run;

pub const INPUT_A: &str = "
readers 1
words 1
start 7
W 8
S 1 x7
B 0
S 0 x5
S 1
S 0
";

/// A reader that makes no move, two writes: slot 1 in two looks, slot 2 in three.
pub const P7: &str = "
readers 1
words 1
start 7
W 8
S 1 x8
W 9
S 1 x9
";

/// A read of the starting record is paused while two writes end.
pub const P8: &str = "
readers 1
words 2
start 1 2
B 0
S 0 x3
W 3 4
S 1 x9
W 5 6
S 1 x10
S 0
";

/// R4 without R1 would count the reader again.
pub const SHORTCUT_1: &str = "
readers 1
words 1
start
B 0
S 0 x2
";

/// Freeing the slot when the copy ends would give 9.
pub const SHORTCUT_2: &str = "
readers 1
words 1
start 7
B 0
W 8
S 0 x3
B 0
S 0 x2
S 1 x8
W 9
S 1 x2
S 0
";

/// Freezing r_start from the new counter would give 9.
pub const SHORTCUT_3: &str = "
readers 1
words 1
start 7
B 0
W 8
S 0 x2
S 1 x8
W 9
S 1 x2
S 0
";

/// Taking the writer's own last slot would give 8.
pub const SHORTCUT_4: &str = "
readers 1
words 1
start 7
B 0
W 8
S 0 x2
S 1 x2
S 0
";

/// 13 comes before 4 and 5; a refused begin uses no values.
const OUT_OF_VALUES: &str = "
readers 1
words 2
start 7
raw 1 0 4     # 13: three values are left
raw 1 0 3     # 4: three values are enough, C is 2
W 1 2         # accepted
raw 1 0 3     # 13 though the writer is busy: one value is left
raw 1 0 2     # 13
raw 1 0 1     # 5
raw 1 0 0     # 5
S 1 x9
raw 1 0 2     # 13 with an idle writer
B 0
S 0 x6
W             # a write of no words asks for none
S 1 x6
W 3           # the last value
S 1 x9
raw 1 0 1     # 13
W
S 1 x6
B 0
S 0 x4
";

const NO_VALUES: &str = "
readers 2
words 2
start
raw 2 0 1
raw 2 0 65535
W
S 2 x7
B 1
S 1 x4
raw 2 0 1
";

/// Kinds and lengths that are refused with 12, in every state of the process.
const MALFORMED: &str = "
readers 2
words 2
start 5 6
raw 0 2 0
raw 0 255 0
raw 2 2 1
raw 2 3 0
raw 9 2 0
raw 255 255 65535
raw 0 0 1     # a begin of a read with a length
raw 1 0 256
raw 0 1 1     # a step with a length
raw 2 1 1
raw 2 1 256
raw 3 0 1     # a process above N
raw 3 1 1
raw 255 0 65535
W 8 9
raw 2 1 2
raw 2 0 2     # well formed: 5
B 0
raw 0 0 1
raw 0 1 512
S 0 x4
S 2 x9
rest 1 2 3
";

const WIDE_VALUES: &str = "
readers 1
words 3
start 18446744073709551615 0 9223372036854775808
B 0
S 0 x5
W 4294967296 18446744073709551614 1
S 1 x10
B 0
S 0 x7
";

/// The texts, by name.
pub const TEXTS: [(&str, &str); 14] = [
    ("input-a", INPUT_A),
    ("p6-read", "readers 1\nwords 1\nstart 7\nB 0\nS 0 x3\n"),
    ("p7-looks", P7),
    ("p8-paused-reader", P8),
    ("p10-idle-step", "readers 1\nwords 1\nstart 7\nS 0\nS 1\nS 2\nB 2\nB 255\nS 255\n"),
    ("empty-start", "readers 1\nwords 1\nstart\nB 0\nS 0 x2\nS 0\n"),
    ("shortcut-1", SHORTCUT_1),
    ("shortcut-2", SHORTCUT_2),
    ("shortcut-3", SHORTCUT_3),
    ("shortcut-4", SHORTCUT_4),
    ("values-run-out", OUT_OF_VALUES),
    ("values-none", NO_VALUES),
    ("malformed", MALFORMED),
    ("values-wide", WIDE_VALUES),
];

/// A text that is known to be right, as a run file.
pub fn file(text: &str) -> Vec<u8> {
    match to_run(text) {
        Ok(run) => bytes(&run),
        Err(bad) => panic!("{bad}"),
    }
}

pub fn cases() -> Vec<Case> {
    TEXTS.iter().map(|(name, text)| Case::new(*name, file(text))).collect()
}
