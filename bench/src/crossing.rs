//! Nets between two clocks: the table's plans with several pairs of periods and a FIFO like the register and unlike it.
//! Each answer is checked against the published algorithm and by the judge, and timed against it and against the route
//! call of one clock with the lesser period.

use crate::gals::{Plain, Tuned};
use crate::judge::{LegalCrossing, judge_crossing};
use crate::ladders::{self, Line};
use crate::nets::{Net, PAIRS, nets, plans};
use crate::ours::{self, Crossed, Ours};
use crate::problem::{Crossing, Problem};
use crate::verdict::ms;
use crate::{Group, Plan, least, summary, us};
use std::hint::black_box;
use std::time::Duration;

/// The most that a call may take, and by how much longer than the call of one clock: in the mean of a group, and for one
/// net. The worst plans and the ladders are not held to it. C-15 asks for the first ratio of every net;
/// docs/PERFORMANCE.md says which ones take longer, and why.
const MOST: Duration = Duration::from_millis(2);
const MOST_RATIO: f64 = 3.0;
const MOST_RATIO_ONE_NET: f64 = 4.0;

pub struct Sides {
    ours: Ours,
    peer: Plain,
    tuned: Tuned,
}

impl Sides {
    pub fn new() -> Sides {
        Sides { ours: Ours::new(), peer: Plain::new(), tuned: Tuned::new() }
    }

    /// Our answer; what is wrong with it where the latency is not the peer's, the written route not legal, a figure not
    /// the route's, the figures others with no visits lent, or the scratch words not left as they should be.
    pub fn answer(&mut self, p: &Problem, x: &Crossing) -> Result<Crossed, String> {
        let used = 512 * p.cells();
        self.ours.load_crossing(p, x);
        self.ours.scratch[..used + 1].fill(9);
        let answer = self.ours.crossing(p);
        if self.ours.scratch[..used].iter().any(|&w| w != 0) || self.ours.scratch[used] != 9 {
            return Err("scratch words not left as they should be".into());
        }
        let (got, peer, tuned) = (ours::latency(answer), self.peer.route(p, x), self.tuned.route(p, x));
        if got != peer || got != tuned {
            return Err(format!("ours {got:?}, peer {peer:?}, tuned {tuned:?}"));
        }
        if got.is_some() {
            let written = judge_crossing(p, x, self.ours.written(answer.steps));
            if written.map(|legal| figures(p, x, legal, answer.steps)) != Ok(answer) {
                return Err(format!("{answer:?}, in the route written {written:?}"));
            }
        }
        let no_room = self.ours.crossing_no_room(p);
        if no_room != ours::crossing_without_room(answer) {
            return Err(format!("{answer:?}, with no visits lent {no_room:?}"));
        }
        Ok(answer)
    }
}

/// The answer by the route written.
fn figures(p: &Problem, x: &Crossing, legal: LegalCrossing, steps: u32) -> Crossed {
    let [sink_registers, source_registers] = legal.registers;
    let latency = x.source_period as u32 * (source_registers + 1) + p.period as u32 * (sink_registers + 1);
    Crossed { number: 0, source_registers, sink_registers, steps, latency, slack: legal.slack as u32 }
}

/// What each took; `one` is our call of one clock.
struct Times {
    ours: Duration,
    one: Duration,
    peer: Duration,
    tuned: Duration,
}

impl Times {
    fn new(sides: &mut Sides, net: &Net, budget: Duration) -> Times {
        let (p, x, lesser) = (&net.problem, &net.crossing, net.lesser());
        sides.ours.load(&lesser);
        let one = least(budget, || sides.ours.route(black_box(&lesser)));
        sides.ours.load_crossing(p, x);
        Times {
            ours: least(budget, || sides.ours.crossing(black_box(p))),
            one,
            peer: least(budget, || sides.peer.route(black_box(p), x)),
            tuned: least(budget, || sides.tuned.route(black_box(p), x)),
        }
    }

    fn ratio_one(&self) -> f64 {
        us(self.ours) / us(self.one)
    }

    fn ratio_peer(&self) -> f64 {
        us(self.ours) / us(self.peer)
    }

    fn ratio_tuned(&self) -> f64 {
        us(self.ours) / us(self.tuned)
    }

    fn columns(&self) -> String {
        let (ours, one, peer, tuned) = (us(self.ours), us(self.one), us(self.peer), us(self.tuned));
        let (by_one, by_peer, by_tuned) = (self.ratio_one(), self.ratio_peer(), self.ratio_tuned());
        format!("{ours:.1} | {one:.1} | {by_one:.2} | {peer:.1} | {by_peer:.2} | {tuned:.1} | {by_tuned:.2}")
    }

    fn too_slow(&self) -> bool {
        self.ours > MOST || self.ratio_one() > MOST_RATIO_ONE_NET
    }
}

/// All pairs and FIFOs, or one alone for each plan. False where an answer is wrong or takes too long.
pub fn run(table: Vec<Plan>, all: bool, budget: Duration) -> bool {
    println!();
    println!(
        "Nets between two clocks, 32 x 32. Least times of the repetitions, in microseconds. one clock: the route call with \
         the lesser period. Limits, not for the worst plans and the ladders: {} ms, {MOST_RATIO} times one clock in a \
         group's mean and {MOST_RATIO_ONE_NET} times for a net. peer, tuned: figure 8 of document 001. FIFO: like the \
         register or not.",
        MOST.as_millis()
    );
    println!();
    println!(
        "| plan | Ts | Tk | FIFO | registers, source's side | sink's | steps | latency | ours | one clock | ours / one \
         clock | peer | ours / peer | tuned | ours / tuned |"
    );
    println!("|---|---|---|---|---|---|---|---|---|---|---|---|---|---|---|");
    let (mut sides, mut ok, mut measured, mut ladders) = (Sides::new(), true, Vec::new(), Vec::new());
    let plans = plans(table);
    for net in plans.iter().flat_map(|plan| nets(plan, all)) {
        eprintln!("two clocks: {}, {}", net.plan.name, net.pair);
        let a = match sides.answer(&net.problem, &net.crossing) {
            Ok(a) => a,
            Err(wrong) => {
                println!("MISMATCH: {}: {wrong}", net.columns());
                return false;
            }
        };
        let t = Times::new(&mut sides, &net, budget);
        let figures = if a.number == 7 {
            "none | - | - | -".into()
        } else {
            format!("{} | {} | {} | {}", a.source_registers, a.sink_registers, a.steps, a.latency)
        };
        let slow = net.plan.group.held() && t.too_slow();
        println!("| {} | {figures} | {} |{}", net.columns(), t.columns(), if slow { " TOO SLOW" } else { "" });
        ok &= !slow;
        if net.plan.group == Group::Ladder && a.number == 0 {
            ladders.push(Line::of_net(&net, a.steps, &mut sides.ours, budget));
        }
        measured.push((net.plan.group, t));
    }
    println!();
    for (group, name) in [
        (Group::Ordinary, "ordinary"),
        (Group::Corridor, "corridors"),
        (Group::Hard, "hard"),
        (Group::Worst, "worst"),
        (Group::Ladder, "ladders"),
    ] {
        let of: Vec<&Times> = measured.iter().filter(|m| m.0 == group).map(|m| &m.1).collect();
        let by = |ratio: fn(&Times) -> f64| summary(&of.iter().map(|t| ratio(t)).collect::<Vec<_>>());
        let (one, peer, tuned) = (by(Times::ratio_one), by(Times::ratio_peer), by(Times::ratio_tuned));
        ok &= !group.held() || one.0 <= MOST_RATIO;
        let above = of.iter().filter(|t| t.ratio_one() > MOST_RATIO).count();
        println!(
            "{name}: at most {:.3} ms; by one clock geometric mean {:.2}, largest {:.2}, {above} of {} nets above \
             {MOST_RATIO}; by the peer {:.2}, {:.2}; by the tuned peer {:.2}, {:.2}",
            of.iter().map(|t| ms(t.ours)).fold(0.0, f64::max),
            one.0,
            one.1,
            of.len(),
            peer.0,
            peer.1,
            tuned.0,
            tuned.1
        );
    }
    ladders::report(&ladders) && ok
}

/// Calls of one side (ours, noroom, peer, tuned) on one net of a plan, for a profiler: its pair by its place, from 0.
pub fn once(table: Vec<Plan>, name: &str, pair: usize, like: bool, side: &str, count: u64) -> bool {
    let plans = plans(table);
    let (Some(plan), Some(&pair)) = (plans.iter().find(|p| p.name == name), PAIRS.get(pair)) else {
        println!("no plan of the name {name}, or no such pair");
        return false;
    };
    let (net, mut sides) = (Net::new(plan, pair, like), Sides::new());
    let (p, x) = (&net.problem, &net.crossing);
    sides.ours.load_crossing(p, x);
    for _ in 0..count {
        let p = black_box(p);
        match side {
            "peer" => drop(black_box(sides.peer.route(p, x))),
            "tuned" => drop(black_box(sides.tuned.route(p, x))),
            "noroom" => drop(black_box(sides.ours.crossing_no_room(p))),
            _ => drop(black_box(sides.ours.crossing(p))),
        }
    }
    true
}
