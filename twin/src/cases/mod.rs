//! Run files to hold another board against. The same ones each time.

mod files;
mod orders;
mod random;
pub mod written;

use crate::runfile::play;
use std::{fs, io, path::Path};

/// A run file and its name.
pub struct Case {
    pub name: String,
    pub file: Vec<u8>,
}

impl Case {
    fn new(name: impl Into<String>, file: Vec<u8>) -> Case {
        Case { name: name.into(), file }
    }
}

/// Every case.
pub fn all() -> Vec<Case> {
    let mut cases = written::cases();
    cases.extend(orders::cases());
    cases.extend(random::cases());
    cases.extend(files::cases());
    cases
}

/// Writes every case into a directory: NAME.run and the text it must print, NAME.txt.
/// Gives how many cases there are and how many bytes in all.
pub fn write_all(directory: &Path) -> io::Result<(usize, usize)> {
    fs::create_dir_all(directory)?;
    let cases = all();
    let mut total = 0;
    for case in &cases {
        let text = play(&case.file);
        fs::write(directory.join(format!("{}.run", case.name)), &case.file)?;
        fs::write(directory.join(format!("{}.txt", case.name)), &text)?;
        total += case.file.len() + text.len();
    }
    Ok((cases.len(), total))
}
