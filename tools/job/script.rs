// The session player's scripts: one asks for the verdict on a sheet, one why there is no route, one for a route between
// two clocks.
// crates/session_player/src/main.rt tells the format.

use crate::answer::Visit;
use crate::job::{Job, PROGRAM_VISITS};

// The most that a script takes. What is above is cut: the planner refuses the rest alike, since a plan of so many cells
// has a side over 32, a mark above 15 is above 15, and buffers are at most 6.
const PLAN: usize = 1_100;
const MARK: u32 = 255;
const BUFFERS: usize = 20;

fn command(name: &str, numbers: impl Iterator<Item = u32>) -> String {
    name.to_string() + &numbers.map(|n| format!(" {n}")).collect::<String>() + "\n"
}

// The numbers after their count.
fn counted(numbers: Vec<u32>, each: usize) -> impl Iterator<Item = u32> {
    std::iter::once((numbers.len() / each) as u32).chain(numbers)
}

// The plan, the tables and what two clocks have besides, then the command that asks about them.
fn asking(job: &Job, name: &str, more: impl Iterator<Item = u32>) -> String {
    let marks = job.marks.iter().take(PLAN).map(|&marks| marks.min(MARK)).collect();
    let clock = [&job.period, &job.skew, &job.limit];
    let tables = job.register.iter().chain(&job.horizontal).chain(&job.vertical).chain(clock);
    let buffers = job.buffers.iter().take(BUFFERS).flatten().copied().collect();
    let clocks = job.clocks.iter().map(|c| command("clocks", [c.source_period].iter().chain(&c.fifo).copied()));
    let asked = [job.width, job.height, job.source, job.sink];
    [
        command("plan", counted(marks, 1)),
        command("tables", tables.copied()),
        command("buffers", counted(buffers, 3)),
        clocks.collect(),
        command(name, asked.into_iter().chain(more)),
    ]
    .concat()
}

pub fn judging(job: &Job, visits: &[Visit]) -> String {
    let words = visits.iter().flat_map(|visit| [visit.cell, visit.code]).collect();
    asking(job, "judge", counted(words, 1))
}

pub fn crossing(job: &Job) -> String {
    asking(job, "crossing", std::iter::once(2 * PROGRAM_VISITS))
}

pub fn explaining(job: &Job) -> String {
    asking(job, "reason", std::iter::empty())
}
