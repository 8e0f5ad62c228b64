//! The command line: the differential test, its replays, the faults, traces and the benchmark.

mod counting;

use linked::differ::plan::{self, Form, Found};
use linked::differ::Session;
use linked::pair::Pair;
use linked::side::{self, Side};
use linked::{faults, trace};
use std::io::{self, BufWriter, Write};
use std::process::ExitCode;
use std::{env, time};

const USAGE: &str = "usage: linked differ short|long              the proved board against the twin
       linked replay KIND N C SEED CALLS [FAULT]   one session again, to its first difference
       linked faults                         find every fault of faults/
       linked trace short|long [FAULT]       the sessions' trace, to standard output
       linked bench short|long               what a call costs, both boards";

/// Deeds that a replay prints before the difference.
const SHOWN: usize = 12;

fn main() -> ExitCode {
    let arguments: Vec<String> = env::args().skip(1).collect();
    let fields: Vec<&str> = arguments.iter().map(String::as_str).collect();
    let done = match fields[..] {
        ["differ", form] => form_of(form).and_then(differ),
        ["replay", ref session @ ..] => replay(session),
        ["faults"] => find_faults(),
        ["trace", form] => form_of(form).and_then(|form| write_trace(form, side::twin())),
        ["trace", form, fault] => form_of(form).and_then(|form| write_trace(form, faulty(fault)?)),
        ["bench", form] => form_of(form).and_then(counting::bench),
        ["count", side, plan] => counting::count(side, plan),
        _ => Err(USAGE.to_string()),
    };
    match done {
        Ok(()) => ExitCode::SUCCESS,
        Err(message) => {
            eprintln!("{message}");
            ExitCode::FAILURE
        }
    }
}

fn form_of(name: &str) -> Result<Form, String> {
    match name {
        "short" => Ok(Form::Short),
        "long" => Ok(Form::Long),
        _ => Err(USAGE.to_string()),
    }
}

fn differ(form: Form) -> Result<(), String> {
    let began = time::Instant::now();
    let outcome = plan::run(form, side::twin(), side::proved(), &mut |_| ());
    let tally = outcome.map_err(|found| told(&found, ""))?;
    let mut total = 0;
    for (kind, sessions, calls) in tally.kinds {
        println!("{kind:>8}: {sessions:>5} sessions, {calls:>8} calls");
        total += calls;
    }
    let numbers: Vec<String> = tally
        .numbers
        .iter()
        .enumerate()
        .map(|(number, count)| format!("{number}: {count}"))
        .collect();
    println!("answers by number: {}", numbers.join(", "));
    if tally.numbers.contains(&0) {
        return Err("a number that a call may answer was never answered".to_string());
    }
    let seconds = began.elapsed().as_secs_f64();
    println!("{total} calls: the proved board and the twin gave the same answers and words ({seconds:.0} s)");
    Ok(())
}

/// A difference, and how to see it again.
fn told(found: &Found, fault: &str) -> String {
    let Found { session, total, difference } = found;
    format!("a difference after {total} calls:\n{difference}\nreplay it: twin/run replay {session}{fault}")
}

fn faulty(name: &str) -> Result<Side, String> {
    faults::named(name).ok_or(format!("no fault is called {name}"))
}

fn replay(fields: &[&str]) -> Result<(), String> {
    let (session, fault) = fields.split_at(fields.len().min(5));
    let session = Session::parse(session).ok_or(USAGE)?;
    let twin = match fault {
        [] => side::twin(),
        [name] => faulty(name)?,
        _ => return Err(USAGE.to_string()),
    };
    let mut pair = Pair::new(twin, side::proved(), session.room(), SHOWN);
    match session.run(&mut pair) {
        Ok(()) => {
            println!("{session}: no difference in {} calls; the last of them:", pair.calls);
            for line in pair.kept() {
                println!("  {line}");
            }
        }
        Err(difference) => {
            println!("{session}: a difference, and what came before it:\n{difference}");
            return Err("the boards differ".to_string());
        }
    }
    Ok(())
}

fn find_faults() -> Result<(), String> {
    let mut missed = 0;
    for (name, about, side) in faults::all() {
        match faults::search(Form::Short, side) {
            faults::How::Differs(found) => {
                let (total, session) = (found.total, found.session);
                println!(
                    "{name}: found after {total} calls (twin/run replay {session} {name}): {about}"
                );
            }
            faults::How::Panics(calls) => {
                println!("{name}: found after {calls} calls and some, by a panic: {about}");
            }
            faults::How::NotFound => {
                missed += 1;
                println!("{name}: NOT FOUND: {about}");
            }
        }
    }
    match missed {
        0 => Ok(()),
        _ => Err(format!("{missed} faults were not found")),
    }
}

fn write_trace(form: Form, side: Side) -> Result<(), String> {
    let mut to = BufWriter::new(io::stdout().lock());
    for session in plan::traced(form) {
        trace::write(&session, side, &mut to).map_err(|error| error.to_string())?;
    }
    to.flush().map_err(|error| error.to_string())
}
