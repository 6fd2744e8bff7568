//! The nets between two clocks of the benchmark: the table's plans with pairs of periods and FIFOs; ladders with one tap.

use crate::plans::{self, LADDER_8};
use crate::problem::{BLOCKED, Crossing, Problem, Register, TAP};
use crate::{Group, Plan};

/// In ticks.
const PERIOD_MAX: u16 = 30_000;

/// Not like the register of the plans, and on the open plan with T 15 it still closes and starts a span of one step.
const UNLIKE: Register = Register { r: 2, k: 1, c: 2, setup: 0 };

/// The periods of source and sink by the plan's own.
pub type Pair = (&'static str, fn(u16) -> (u16, u16));

pub const PAIRS: [Pair; 4] = [
    ("equal", |t| (t, t)),
    ("source the double", |t| if t <= PERIOD_MAX / 2 { (2 * t, t) } else { (t / 2 * 2, t / 2) }),
    ("co-prime, source lesser", |t| (t, co_prime(t))),
    ("co-prime, source greater", |t| (co_prime(t), t)),
];

/// The pair of the plain table: as many latencies as can be, and the side that is searched first has the longer spans.
const ALONE: usize = 3;

/// The pair of a plan with one tap: the long span is as tight as the plan's own period makes it, on either side.
const ONE_TAP: usize = 0;

/// A greater period without a common divisor, about half as much again.
fn co_prime(t: u16) -> u16 {
    let divisor = |mut a: u16, mut b: u16| {
        while b != 0 {
            (a, b) = (b, a % b);
        }
        a
    };
    (t + 1..=(t + t / 2 + 1).min(PERIOD_MAX)).rev().find(|&g| divisor(g, t) == 1).unwrap()
}

/// A net between two clocks on a plan of the table.
pub struct Net<'a> {
    pub plan: &'a Plan,
    pub pair: &'static str,
    pub problem: Problem,
    pub crossing: Crossing,
    like: bool,
}

impl Net<'_> {
    /// The plan's own period stands for the sink's.
    pub fn new(plan: &Plan, (pair, periods): Pair, like: bool) -> Net<'_> {
        let (source_period, period) = periods(plan.problem.period);
        let fifo = if like { plan.problem.register } else { UNLIKE };
        let problem = Problem { period, ..plan.problem.clone() };
        Net { plan, pair, like, problem, crossing: Crossing { source_period, fifo } }
    }

    /// The problem of one clock, with the lesser period.
    pub fn lesser(&self) -> Problem {
        Problem { period: self.problem.period.min(self.crossing.source_period), ..self.problem.clone() }
    }

    pub fn columns(&self) -> String {
        let (name, fifo) = (self.plan.name, if self.like { "like" } else { "unlike" });
        format!("{name} | {} | {} | {fifo}", self.crossing.source_period, self.problem.period)
    }
}

/// The plans without a tap have no route; so they stand here with taps at their buffer sites as well.
pub fn plans(mut table: Vec<Plan>) -> Vec<Plan> {
    let names = [
        ("comb, buffer sites at tips", "the same, taps there too"),
        ("comb, every tip needed", "every tip needed, taps there too"),
        ("ladder, L 8, five buffers", "the ladder, taps there too"),
    ];
    for (of, name) in names {
        let at = table.iter().position(|p| p.name == of).unwrap();
        let mut problem = table[at].problem.clone();
        problem.marks.iter_mut().filter(|m| **m & BLOCKED == 0).for_each(|m| *m |= TAP);
        table.insert(at + 1, Plan { group: table[at].group, name, problem });
    }
    table.extend(one_tap());
    table
}

/// The ladder with L 8 and one tap, next to the sink or to the source: the span before the FIFO or the one after it is the
/// whole ladder, at the least periods with a route, and 2 % above.
fn one_tap() -> Vec<Plan> {
    let ladder = |name, near: fn(&Problem) -> usize, period| {
        let mut problem = plans::ladder(LADDER_8, 32, period);
        let cell = near(&problem) - 1;
        problem.marks[cell] |= TAP;
        Plan { group: Group::Ladder, name, problem }
    };
    vec![
        ladder("ladder before the FIFO", |p| p.sink, 23856),
        ladder("ladder before the FIFO, T 2 % above", |p| p.sink, 24333),
        ladder("ladder after the FIFO", |p| p.source, 23856),
        ladder("ladder after the FIFO, T 2 % above", |p| p.source, 24333),
    ]
}

/// The nets of a plan: all pairs and both FIFOs, or one alone. The worst plans and the ladders, which may take seconds,
/// have one.
pub fn nets(plan: &Plan, all: bool) -> Vec<Net<'_>> {
    if !all || !plan.group.held() {
        let taps = plan.problem.marks.iter().filter(|m| **m & TAP != 0).count();
        return vec![Net::new(plan, PAIRS[if taps == 1 { ONE_TAP } else { ALONE }], true)];
    }
    [true, false].into_iter().flat_map(|like| PAIRS.map(|pair| Net::new(plan, pair, like))).collect()
}
