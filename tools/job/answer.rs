// What the proved program printed, and the wires of the plan that was asked about.

use crate::job::{Job, CUT_BELOW, CUT_RIGHT};
use std::str::FromStr;

#[derive(Clone, Copy)]
pub struct Visit {
    pub cell: u32,
    pub code: u32,
}

pub struct Route {
    pub registers: Vec<u64>, // one number a clock, the source's first
    pub steps: u64,
    pub latency: u64,
    pub slack: i64,         // spare half-ticks, never below zero
    pub visits: Vec<Visit>, // from the sink to the source
}

pub enum Answer {
    Route(Route),
    None,
    Refused(u32),
}

// A number as the program prints it.
pub fn number<T: FromStr + ToString>(word: &str) -> Option<T> {
    word.parse::<T>().ok().filter(|n| n.to_string() == word)
}

// Numbers set apart by single spaces.
fn numbers(line: &str) -> Option<Vec<u64>> {
    line.split(' ').map(number).collect()
}

pub fn read(text: &str) -> Option<Answer> {
    let body = text.strip_suffix('\n')?;
    if body == "none" {
        return Some(Answer::None);
    }
    if let Some(rest) = body.strip_prefix("refused ") {
        return Some(Answer::Refused(number(rest)?));
    }
    let mut lines = body.split('\n');
    let [registers, steps, latency, slack] = numbers(lines.next()?.strip_prefix("route ")?)?[..] else { return None };
    let mut visits = Vec::new();
    for line in lines {
        let [cell, code] = numbers(line)?[..] else { return None };
        visits.push(Visit { cell: u32::try_from(cell).ok()?, code: u32::try_from(code).ok()? });
    }
    let slack = i64::try_from(slack).ok()?;
    Some(Answer::Route(Route { registers: vec![registers], steps, latency, slack, visits }))
}

// The wire between two cells: the first of them in the plan, and whether it goes to the right.
pub fn wire(job: &Job, a: u32, b: u32) -> Option<(u32, bool)> {
    let (first, second) = (a.min(b), a.max(b));
    if second - first == 1 && second % job.width != 0 {
        return Some((first, true));
    }
    (second - first == job.width).then_some((first, false))
}

pub fn joined(job: &Job, a: u32, b: u32) -> bool {
    match wire(job, a, b) {
        Some((first, true)) => !job.has_mark(first, CUT_RIGHT),
        Some((first, false)) => !job.has_mark(first, CUT_BELOW),
        None => false,
    }
}
