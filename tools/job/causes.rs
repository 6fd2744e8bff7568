// A fault in words. The session player gives the visit and the fault; the plan and the visit show what it is about.

use crate::answer::{joined, number, Visit};
use crate::job::{Job, BLOCKED, CODE_REGISTER, TAP};
use crate::spans::{self, LOWEST};
use crate::words::counted;

#[derive(Clone, Copy)]
pub enum Fault {
    Cell,
    Wire,
    Site,
    Load,
    Period(i64), // the spare figure of the close
}

pub fn fault(words: &[&str]) -> Option<Fault> {
    match words {
        ["cell"] => Some(Fault::Cell),
        ["wire"] => Some(Fault::Wire),
        ["site"] => Some(Fault::Site),
        ["load"] => Some(Fault::Load),
        ["period", slack] => Some(Fault::Period(number(slack)?)),
        _ => None,
    }
}

fn cell(job: &Job, visit: &Visit, first: bool, last: bool) -> Option<String> {
    if visit.cell as u64 >= job.cells() {
        return Some(format!("outside the plan, whose cells are 0 to {}", job.cells() - 1));
    }
    if first && visit.cell != job.sink {
        return Some(format!("the first visit is not the sink, cell {}", job.sink));
    }
    (last && visit.cell != job.source).then(|| format!("the last visit is not the source, cell {}", job.source))
}

fn wire(job: &Job, from: &Visit, to: &Visit) -> Option<String> {
    let inside = [from, to].iter().all(|visit| (visit.cell as u64) < job.cells());
    (inside && !joined(job, from.cell, to.cell)).then(|| format!("no uncut wire from cell {}", from.cell))
}

fn site(job: &Job, visit: &Visit, end: bool) -> Option<String> {
    let (code, count) = (visit.code, job.buffers.len());
    if end {
        return (code != CODE_REGISTER).then(|| format!("an end must have code {CODE_REGISTER}"));
    }
    if code == 0 || visit.cell as u64 >= job.cells() {
        return None;
    }
    if visit.cell == job.source || visit.cell == job.sink {
        return Some("no gate may stand on an end's cell in between".to_string());
    }
    if code > CODE_REGISTER {
        return Some(format!("no such code; the largest is {CODE_REGISTER}, a register"));
    }
    if code == CODE_REGISTER && !job.has_mark(visit.cell, TAP) {
        return Some("no clock tap here".to_string());
    }
    if code < CODE_REGISTER && code as usize > count {
        return Some(format!("no such buffer in the tables, which have {count}"));
    }
    job.has_mark(visit.cell, BLOCKED).then(|| "blocked, no gate may stand here".to_string())
}

// The last visit closes a span whose spare figure is below zero, and is this one.
fn period(job: &Job, visits: &[Visit], slack: i64) -> Option<String> {
    let span = spans::closed(job, visits).ok()?.pop()?;
    if span.from + 1 != visits.len() || span.slack != slack || slack >= 0 {
        return None;
    }
    let or_more = if slack == LOWEST { " or more" } else { "" };
    let (miss, period) = (counted(-slack as usize, "half-tick"), counted(job.period as usize, "tick"));
    let skew = match job.skew {
        0 => String::new(),
        skew => format!(", less the skew, {}", counted(skew as usize, "tick")),
    };
    Some(format!("the span that closes here is {miss}{or_more} too long for the period, {period}{skew}"))
}

// Why the visit at this place is at fault; None where neither plan nor sheet shows such a fault. Loads are the planner's
// part.
pub fn cause(job: &Job, visits: &[Visit], at: usize, fault: Fault) -> Option<String> {
    let visit = visits.get(at)?;
    let (first, last) = (at == 0, at + 1 == visits.len());
    match fault {
        Fault::Cell => cell(job, visit, first, last),
        Fault::Wire => wire(job, &visits[at.checked_sub(1)?], visit),
        Fault::Site => site(job, visit, first || last),
        Fault::Load => Some(format!("the load is more than the limit, {}", job.limit)),
        Fault::Period(slack) => period(job, &visits[..=at], slack),
    }
}
