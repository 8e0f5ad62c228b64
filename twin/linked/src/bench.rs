//! What a call costs, the proved board's and the twin's: the same plans of calls through both.

use crate::deed::Deed;
use crate::differ::lively::{record, turn};
use crate::exports::{Answer, Place};
use crate::lent::Lent;
use crate::pair::{Difference, Driven};
use crate::side::{self, Side};
use std::time::Instant;
use twin::area::{Layout, FORM};
use twin::cases;
use twin::random::Random;
use twin::runfile::{parse, Run, BEGIN, STEP};

/// The twin alone, with what was done kept as a plan.
struct Planner {
    twin: Lent,
    plan: Vec<Deed>,
}

impl Planner {
    fn new(room: usize) -> Planner {
        Planner { twin: Lent::new(side::twin(), room), plan: Vec::new() }
    }
}

impl Driven for Planner {
    fn act(&mut self, deed: &Deed) -> Result<Answer, Box<Difference>> {
        self.plan.push(deed.clone());
        Ok(self.twin.act(deed))
    }

    fn area(&self) -> &[u64] {
        self.twin.area()
    }
}

/// A long run at one size: a fresh area, then turns until there are so many calls.
pub fn long_run(n: u64, c: u64, calls: u64) -> Option<Vec<Deed>> {
    let at = Layout::new(n, c)?;
    let mut random = Random(n * 1000 + c);
    let mut planner = Planner::new(at.total);
    let start = record(&mut random, c);
    planner.act(&Deed::Lend(at.total)).ok()?;
    planner.act(&Deed::Make { form: FORM, n, c, record: start }).ok()?;
    let mut made = 1;
    while made < calls {
        made += turn(&mut random, &at, &mut planner).ok()?;
    }
    Some(planner.plan)
}

/// The calls that playing a run file makes.
fn played(run: &Run, planner: &mut Planner) -> Result<(), Box<Difference>> {
    let (n, c) = (run.n, run.c);
    let total = Layout::new(n, c).map_or(0, |at| at.total);
    planner.act(&Deed::Lend(total))?;
    planner.act(&Deed::Make { form: FORM, n, c, record: run.values[..run.start].to_vec() })?;
    let mut used = run.start;
    for one in &run.moves {
        let (process, length) = (u64::from(one.process), usize::from(one.length));
        let of_writer = process == n;
        let takes = used + length <= run.values.len();
        let deed = match one.kind {
            STEP if length == 0 => Deed::Step(process),
            BEGIN if of_writer && takes => Deed::Write(run.values[used..used + length].to_vec()),
            BEGIN if !of_writer && length == 0 => Deed::Read(process),
            _ => continue,
        };
        let answer = planner.act(&deed)?;
        if matches!(deed, Deed::Write(_)) && answer.number == 0 {
            used += length;
        }
        if answer.ended == 1 && !of_writer {
            planner.act(&Deed::Show(process))?;
        }
    }
    Ok(())
}

/// The calls of all run files of the generator of cases.
pub fn run_files() -> Option<Vec<Deed>> {
    let mut planner = Planner::new(Layout::new(8, 32)?.total);
    for case in cases::all() {
        if let Some(run) = parse(&case.file) {
            played(&run, &mut planner).ok()?;
        }
    }
    Some(planner.plan)
}

/// Calls in a plan.
pub fn calls(plan: &[Deed]) -> u64 {
    plan.iter().filter(|deed| deed.is_call()).count() as u64
}

/// Makes the calls of a plan and gives a sum over all answers.
#[inline(never)]
pub fn play(side: &Side, words: &mut [u64], plan: &[Deed]) -> u64 {
    let mut length = 0;
    let mut sum = 0u64;
    for deed in plan {
        let area = &mut words[..length];
        let Answer { number, ended, age } = match deed {
            Deed::Make { form, n, c, record } => (side.make)(area, *form, *n, *c, record),
            Deed::Read(reader) => (side.begin_read)(area, *reader),
            Deed::Write(record) => (side.begin_write)(area, record),
            Deed::Step(process) => (side.step)(area, *process),
            Deed::Show(reader) => {
                let Place { yes, at, len } = (side.show)(area, *reader);
                Answer { number: yes, ended: at, age: len }
            }
            Deed::Lend(words) => {
                length = *words;
                Answer::default()
            }
            _ => Answer::default(),
        };
        sum = sum.wrapping_mul(31).wrapping_add(number + 7 * ended).wrapping_add(age);
    }
    sum
}

/// Nanoseconds a call of the proved board and of the twin: the least of several rounds, in turn.
pub fn times(plan: &[Deed], rounds: u64) -> (f64, f64) {
    let room = plan.iter().map(|deed| if let Deed::Lend(words) = deed { *words } else { 0 }).max();
    let mut words = vec![0; room.unwrap_or(0)];
    let mut least = [f64::INFINITY; 2];
    let mut sums = [0; 2];
    for _ in 0..rounds {
        for (i, side) in [side::proved(), side::twin()].into_iter().enumerate() {
            let began = Instant::now();
            sums[i] = play(&side, &mut words, plan);
            least[i] = least[i].min(began.elapsed().as_nanos() as f64);
        }
        assert_eq!(sums[0], sums[1], "the two boards answer alike");
    }
    let count = calls(plan) as f64;
    (least[0] / count, least[1] / count)
}
