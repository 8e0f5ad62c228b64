//! The command line: texts to run files and back, playing, and writing the cases.

use std::path::Path;
use std::process::ExitCode;
use std::{env, fs};
use twin::{cases, runfile, text};

const USAGE: &str = "usage:
  twin text-to-run IN OUT   turn a text of moves into a run file
  twin run-to-text IN OUT   turn a run file into a text of moves
  twin play FILE            play a run file and print what happens
  twin cases DIR            write run files and the text each must print";

fn main() -> ExitCode {
    let arguments: Vec<String> = env::args().skip(1).collect();
    let fields: Vec<&str> = arguments.iter().map(String::as_str).collect();
    let done = match fields[..] {
        ["text-to-run", from, to] => text_to_run(from, to),
        ["run-to-text", from, to] => run_to_text(from, to),
        ["play", file] => read(file).map(|bytes| print!("{}", runfile::play(&bytes))),
        ["cases", directory] => write_cases(directory),
        _ => Err(USAGE.to_string()),
    };
    match done {
        Ok(()) => ExitCode::SUCCESS,
        Err(message) => {
            eprintln!("{message}");
            ExitCode::FAILURE
        }
    }
}

fn read(file: &str) -> Result<Vec<u8>, String> {
    fs::read(file).map_err(|error| format!("{file}: {error}"))
}

fn write(file: &str, bytes: &[u8]) -> Result<(), String> {
    fs::write(file, bytes).map_err(|error| format!("{file}: {error}"))
}

fn text_to_run(from: &str, to: &str) -> Result<(), String> {
    let words = String::from_utf8(read(from)?).map_err(|_| format!("{from}: not a text"))?;
    let run = text::to_run(&words).map_err(|bad| format!("{from}: {bad}"))?;
    write(to, &runfile::bytes(&run))
}

fn run_to_text(from: &str, to: &str) -> Result<(), String> {
    let run = runfile::parse(&read(from)?).ok_or(format!("{from}: refused 11"))?;
    write(to, text::from_run(&run).as_bytes())
}

fn write_cases(directory: &str) -> Result<(), String> {
    let (count, bytes) =
        cases::write_all(Path::new(directory)).map_err(|error| format!("{directory}: {error}"))?;
    println!("{count} cases, {bytes} bytes");
    Ok(())
}
