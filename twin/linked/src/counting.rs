//! The benchmark's table: time in this process, instructions by running `linked count` under callgrind.

use linked::bench::{calls, long_run, play, run_files, times};
use linked::deed::Deed;
use linked::differ::plan::Form;
use linked::side;
use std::process::Command;
use std::{env, fs};

/// Sizes of the long runs.
const SIZES: [u64; 3] = [1, 8, 64];
const CAPACITIES: [u64; 3] = [1, 32, 256];
/// Calls in a long run.
const CALLS: u64 = 4_000;

/// A plan by its name: `files`, or N and C with a comma between.
fn plan(name: &str) -> Result<Vec<Deed>, String> {
    let made = match name.split_once(',') {
        Some((n, c)) => match (n.parse(), c.parse()) {
            (Ok(n), Ok(c)) => long_run(n, c, CALLS),
            _ => None,
        },
        None => (name == "files").then(run_files).flatten(),
    };
    made.ok_or(format!("no plan is called {name}"))
}

/// Plays a plan once on one side. Under callgrind, the instructions of a side less those of `none` are
/// what the calls themselves take.
pub fn count(side: &str, name: &str) -> Result<(), String> {
    let side = match side {
        "proved" => side::proved(),
        "twin" => side::twin(),
        "none" => side::none(),
        _ => return Err(format!("no side is called {side}")),
    };
    let plan = plan(name)?;
    let mut words = vec![0; 34_199];
    println!("{}", play(&side, &mut words, &plan));
    Ok(())
}

/// Instructions that callgrind counts when a plan is played on a side.
fn instructions(side: &str, name: &str) -> Result<f64, String> {
    let program = env::current_exe().map_err(|error| error.to_string())?;
    let file = env::temp_dir().join(format!("linked-callgrind-{}", std::process::id()));
    let output = Command::new("valgrind")
        .args(["--tool=callgrind", &format!("--callgrind-out-file={}", file.display())])
        .arg(program)
        .args(["count", side, name])
        .output()
        .map_err(|error| format!("valgrind: {error}"))?;
    let text = fs::read_to_string(&file).unwrap_or_default();
    let _ = fs::remove_file(&file);
    let total = text.lines().find_map(|line| line.strip_prefix("summary: "));
    let counted = total.and_then(|number| number.trim().parse().ok());
    counted.ok_or_else(|| format!("valgrind: {}", String::from_utf8_lossy(&output.stderr)))
}

/// Instructions a call, the proved board's and the twin's.
fn instructions_each(name: &str, calls: f64) -> Result<(f64, f64), String> {
    let none = instructions("none", name)?;
    let proved = instructions("proved", name)? - none;
    let twin = instructions("twin", name)? - none;
    Ok((proved / calls, twin / calls))
}

fn row(name: &str, title: &str, rounds: u64, counting: bool) -> Result<(), String> {
    let plan = plan(name)?;
    let count = calls(&plan);
    let (proved, twin) = times(&plan, rounds);
    let counted = match counting {
        true => {
            let (proved, twin) = instructions_each(name, count as f64)?;
            format!("{proved:.0} | {twin:.0} | {:.2}", proved / twin)
        }
        false => "- | - | -".to_string(),
    };
    println!("| {title} | {count} | {proved:.0} | {twin:.0} | {:.2} | {counted} |", proved / twin);
    Ok(())
}

/// Prints the table. The short form has three sizes and few rounds.
pub fn bench(form: Form) -> Result<(), String> {
    let long = form == Form::Long;
    let counting = Command::new("valgrind").arg("--version").output().is_ok();
    if !counting {
        println!("valgrind is missing: instructions are not counted\n");
    }
    println!("| Run | Calls | ns proved | ns twin | Ratio | Instructions proved | twin | Ratio |");
    println!("|---|---|---|---|---|---|---|---|");
    let rounds = if long { 60 } else { 10 };
    row("files", "all run files", rounds, counting && long)?;
    for n in SIZES {
        for c in CAPACITIES {
            let diagonal = [(1, 1), (8, 32), (64, 256)].contains(&(n, c));
            if long || diagonal {
                row(&format!("{n},{c}"), &format!("N {n}, C {c}"), rounds, counting)?;
            }
        }
    }
    Ok(())
}
