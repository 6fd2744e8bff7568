//! Our route call against the published algorithm, on the same plans in the same run; the verdict against a plain judge.
//!
//!     route_bench                          the table, with the geometric means; the ladders by their own search; then why
//!                                          there is no route, and the same plans as nets between two clocks
//!     route_bench growth                   how the times grow with cells, buffers and load limit; the ladder by side
//!     route_bench agree [N] [SEED]         N small random plans on which all must agree
//!     route_bench crossing                 nets between two clocks: several pairs of periods, two FIFOs
//!     route_bench agree-crossing [N] [SEED]    N small random nets between two clocks on which all must agree
//!     route_bench verdict                  the verdict on lists of up to a million visits, and a plain judge on the same
//!     route_bench stack                    bytes of stack that a call takes
//!     route_bench names                    the names of the table's plans
//!     route_bench once PLAN SIDE [N]       N calls of a side (ours, noroom, search, peer, tuned, explain, exists), for a
//!                                          profiler
//!     route_bench judge LIST VISITS SIDE [N]    N verdicts of a side (ours, peer) on a list by its place, for a profiler
//!     route_bench once-crossing PLAN PAIR FIFO SIDE [N]    N calls of a side (ours, noroom, peer, tuned) on a net between
//!                                          two clocks, its pair by its place, its FIFO like or unlike
//!
//! The status is not 0 where the two differ in the number of registers or in the latency, a figure, a verdict or a reason
//! is not what it must be, or a verdict, a reason, a ladder or a net between two clocks takes too long.

mod agree;
mod agree_crossing;
mod crossing;
mod explain;
mod front;
mod gals;
mod judge;
mod ladders;
mod lists;
mod nets;
mod ours;
mod peer;
mod plans;
mod problem;
mod processor;
mod queues;
mod stack;
mod verdict;
mod walks;

use judge::{Legal, judge};
use ladders::Line;
use ours::{Answer, Ours};
use peer::{Plain, Tuned};
use plans::{FULL, Size};
use problem::Problem;
use std::hint::black_box;
use std::time::{Duration, Instant};

const LEGEND: &str = "Least times of the repetitions, in microseconds. no room: ours with no visits lent, answered by 8 \
and the same figures; peer: binary heap, sorted lists; tuned: the peer with a bucket queue.";

const COLUMNS: &str = "registers | steps | ours | no room | peer | ours / peer | tuned | ours / tuned |";

/// The groups of the table.
#[derive(Clone, Copy, PartialEq)]
enum Group {
    Ordinary,
    Corridor,
    Hard,
    /// the worst known but the ladders
    Worst,
    /// held to a limit of their own: `ladders`
    Ladder,
}

impl Group {
    /// Whether a net between two clocks is held to the limits of `crossing`.
    fn held(self) -> bool {
        !matches!(self, Group::Worst | Group::Ladder)
    }
}

struct Plan {
    group: Group,
    name: &'static str,
    problem: Problem,
}

/// The table's plans but the other ladders. The periods are chosen for the registers that the names say.
fn table_plans() -> Vec<Plan> {
    use Group::*;
    let plan = |group, name, problem| Plan { group, name, problem };
    vec![
        plan(Ordinary, "open, 0 registers", plans::open(FULL, 2000)),
        plan(Ordinary, "open, 5 registers", plans::open(FULL, 250)),
        plan(Ordinary, "open, 30 registers", plans::open(FULL, 30)),
        plan(Ordinary, "open, 61 registers", plans::open(FULL, 15)),
        plan(Ordinary, "30 % blocked, 8 % taps", plans::random(FULL, 200, 0, 1)),
        plan(Ordinary, "the same, 28 % cuts", plans::random(FULL, 230, 28, 1)),
        plan(Corridor, "serpentine, 0 registers", plans::serpentine(FULL, 29000)),
        plan(Corridor, "serpentine, 30 registers", plans::serpentine(FULL, 880)),
        plan(Corridor, "serpentine, 335 registers", plans::serpentine(FULL, 68)),
        plan(Hard, "comb, buffer sites at tips", plans::buffer_comb(FULL, 29000)),
        plan(Hard, "comb, taps at tips", plans::tap_comb(FULL, 600)),
        plan(Worst, "comb, every tip needed", plans::long_comb(FULL, 28000)),
        plan(Ladder, "ladder, L 8, five buffers", plans::ladder(plans::LADDER_8, 32, 23856)),
        plan(Hard, "serpentine cut at the sink", plans::broken_serpentine(FULL, 100, true)),
        plan(Hard, "serpentine cut at the source", plans::broken_serpentine(FULL, 100, false)),
    ]
}

/// All plans of the table.
fn all_plans() -> Vec<Plan> {
    table_plans().into_iter().chain(ladders::more()).collect()
}

struct Sides {
    ours: Ours,
    peer: Plain,
    tuned: Tuned,
}

/// Our answer on one plan, and what each took. `no_room` is ours with no visits lent: the same figures, no route (8).
struct Measured {
    answer: Answer,
    ours: Duration,
    no_room: Duration,
    peer: Duration,
    tuned: Duration,
}

impl Sides {
    fn new() -> Sides {
        Sides { ours: Ours::new(), peer: Plain::new(), tuned: Tuned::new() }
    }

    /// Our answer. None where the sides differ in the registers, our route is not legal or a figure is wrong.
    fn answer(&mut self, p: &Problem) -> Option<Answer> {
        self.ours.load(p);
        let answer = self.ours.route(p);
        let (got, peer, tuned) = (ours::registers(answer), self.peer.route(p), self.tuned.route(p));
        if got != peer || got != tuned {
            println!("MISMATCH: ours {got:?}, peer {peer:?}, tuned {tuned:?}");
            return None;
        }
        if let Some(k) = got {
            let told = Legal { registers: k, slack: answer.slack as u64 };
            let written = judge(p, self.ours.written(answer.steps));
            if written != Ok(told) {
                println!("MISMATCH: {told:?}, in the route written {written:?}");
                return None;
            }
        }
        let no_room = self.ours.no_room(p);
        if no_room != ours::without_room(answer) {
            println!("MISMATCH: {answer:?}, with no visits lent {no_room:?}");
            return None;
        }
        let search = self.ours.search(p);
        if search != ours::searched(answer) {
            println!("MISMATCH: {answer:?}, by the search alone {search:?}");
            return None;
        }
        Some(answer)
    }

    /// Least times over several repetitions. None where something is wrong.
    fn measure(&mut self, p: &Problem, budget: Duration) -> Option<Measured> {
        let m = Measured {
            answer: self.answer(p)?,
            ours: least(budget, || self.ours.route(black_box(p))),
            no_room: least(budget, || self.ours.no_room(black_box(p))),
            peer: least(budget, || self.peer.route(black_box(p))),
            tuned: least(budget, || self.tuned.route(black_box(p))),
        };
        Some(m)
    }
}

/// The least time of a call: repeated three times at least, then for as long as `budget`.
fn least<T>(budget: Duration, mut call: impl FnMut() -> T) -> Duration {
    let begun = Instant::now();
    let mut least = Duration::MAX;
    let mut turns = 0;
    while turns < 3 || begun.elapsed() < budget {
        let start = Instant::now();
        black_box(call());
        least = least.min(start.elapsed());
        turns += 1;
    }
    least
}

fn us(d: Duration) -> f64 {
    d.as_secs_f64() * 1e6
}

impl Measured {
    fn ratio(&self) -> f64 {
        us(self.ours) / us(self.peer)
    }

    fn ratio_tuned(&self) -> f64 {
        us(self.ours) / us(self.tuned)
    }

    fn ratio_no_room(&self) -> f64 {
        us(self.no_room) / us(self.ours)
    }

    fn columns(&self) -> String {
        let a = self.answer;
        let registers = if a.number == 7 { "none".into() } else { a.registers.to_string() };
        let (ours, no_room, peer, tuned) = (us(self.ours), us(self.no_room), us(self.peer), us(self.tuned));
        let (steps, by_peer, by_tuned) = (a.steps, self.ratio(), self.ratio_tuned());
        format!(
            "{registers} | {steps} | {ours:.1} | {no_room:.1} | {peer:.1} | {by_peer:.2} | {tuned:.1} | {by_tuned:.2} |"
        )
    }
}

/// Geometric mean of the ratios, and the largest.
fn summary(ratios: &[f64]) -> (f64, f64) {
    let mean = (ratios.iter().map(|r| r.ln()).sum::<f64>() / ratios.len() as f64).exp();
    (mean, ratios.iter().copied().fold(0.0, f64::max))
}

fn table(budget: Duration) -> bool {
    let mut sides = Sides::new();
    let plans = all_plans();
    let mut measured = Vec::new();
    for (i, plan) in plans.iter().enumerate() {
        eprintln!("plan {} of {}: {}", i + 1, plans.len(), plan.name);
        match sides.measure(&plan.problem, budget) {
            Some(m) => measured.push((plan, m)),
            None => return false,
        }
    }
    println!("32 x 32, L 63 and six buffers where the name says nothing else. {LEGEND}");
    println!();
    println!("| plan | T | {COLUMNS}");
    println!("|---|---|---|---|---|---|---|---|---|---|");
    for (plan, m) in &measured {
        println!("| {} | {} | {}", plan.name, plan.problem.period, m.columns());
    }
    println!();
    for (group, name) in [(Group::Ordinary, "ordinary"), (Group::Corridor, "corridors")] {
        let of = |ratio: fn(&Measured) -> f64| {
            summary(&measured.iter().filter(|(p, _)| p.group == group).map(|(_, m)| ratio(m)).collect::<Vec<f64>>())
        };
        let ((mean, most), (mean_tuned, most_tuned)) = (of(Measured::ratio), of(Measured::ratio_tuned));
        println!(
            "{name}: geometric mean {mean:.2}, largest {most:.2}; by the tuned peer {mean_tuned:.2}, {most_tuned:.2}"
        );
    }
    let routed = measured.iter().filter(|(_, m)| m.answer.number == 0);
    let ratios: Vec<f64> = routed.map(|(_, m)| m.ratio_no_room()).collect();
    let (mean, most) = summary(&ratios);
    println!("no room / ours, {} plans with a route: geometric mean {mean:.2}, largest {most:.2}", ratios.len());
    let ladders = measured.iter().filter(|(p, _)| p.group == Group::Ladder);
    let lines = ladders.map(|(p, m)| Line::of(p.name, &p.problem, m.answer.steps, &mut sides.ours, budget));
    let ladders = ladders::report(&lines.collect::<Vec<_>>());
    let why = explain::run(&plans.iter().map(|p| (p.name, &p.problem)).collect::<Vec<_>>(), Duration::from_millis(400));
    crossing::run(table_plans(), false, budget) && why && ladders
}

type Shape = (&'static str, fn(Size) -> Problem);

/// The shapes of the growth table. The period of a shape in one span grows with its steps.
const SHAPES: [Shape; 6] = [
    ("open, one span", |s| plans::open(s, 64 * s.side as u16)),
    ("open, T 30", |s| plans::open(s, 30)),
    ("30 % blocked, 8 % taps, T 250", |s| plans::random(s, 250, 0, 1)),
    ("serpentine, one span", |s| plans::serpentine(s, 29000)),
    ("serpentine, T 100", |s| plans::serpentine(s, 100)),
    ("comb, every tip needed", |s| plans::long_comb(s, 28000)),
];

/// The shapes of the growth table at one size.
fn shapes_of(side: usize) -> Vec<Problem> {
    SHAPES.iter().map(|(_, shape)| shape(Size { side, ..FULL })).collect()
}

fn growth(budget: Duration) -> bool {
    let size = |side, buffers, limit| Size { side, buffers, limit };
    let sizes =
        [size(8, 6, 63), size(16, 6, 63), FULL, size(32, 3, 63), size(32, 1, 63), size(32, 6, 31), size(32, 6, 15)];
    let mut sides = Sides::new();
    println!("{LEGEND}");
    println!();
    println!("| shape | side | buffers | L | {COLUMNS}");
    println!("|---|---|---|---|---|---|---|---|---|---|---|---|");
    for (name, shape) in SHAPES {
        for s in sizes {
            eprintln!("{name}: side {}, {} buffers, L {}", s.side, s.buffers, s.limit);
            let Some(m) = sides.measure(&shape(s), budget) else { return false };
            println!("| {name} | {} | {} | {} | {}", s.side, s.buffers, s.limit, m.columns());
        }
    }
    ladders::growth(&mut sides, budget)
}

/// Calls of one side on one plan of the table, for a profiler. explain: why there is no route, on its version without one
/// or on one of the plans beside the table; exists: the same question on the plan as it is, where a route exists.
fn once(name: &str, side: &str, count: u64) -> bool {
    let mut all = all_plans().into_iter().map(|p| (p.name, p.problem)).collect::<Vec<_>>();
    if side == "explain" {
        all.iter_mut().for_each(|(_, p)| *p = explain::version(p));
        all.extend(explain::more());
    }
    let Some((_, problem)) = all.into_iter().find(|p| p.0 == name) else {
        println!("no plan of the name {name}");
        return false;
    };
    let mut sides = Sides::new();
    sides.ours.load(&problem);
    for _ in 0..count {
        let p = black_box(&problem);
        match side {
            "explain" => drop(black_box(sides.ours.explain(p))),
            "exists" if sides.ours.explain(p).number != 19 => {
                println!("no route on {name}");
                return false;
            }
            "exists" => {}
            "peer" => drop(black_box(sides.peer.route(p))),
            "tuned" => drop(black_box(sides.tuned.route(p))),
            "noroom" => drop(black_box(sides.ours.no_room(p))),
            "search" => drop(black_box(sides.ours.search(p))),
            _ => drop(black_box(sides.ours.route(p))),
        }
    }
    true
}

fn names() -> bool {
    all_plans().iter().for_each(|p| println!("{}", p.name));
    true
}

fn main() {
    let words: Vec<String> = std::env::args().skip(1).collect();
    let words: Vec<&str> = words.iter().map(String::as_str).collect();
    let number = |i: usize, other: u64| words.get(i).and_then(|w| w.parse().ok()).unwrap_or(other);
    let ok = match words.first() {
        None => table(Duration::from_millis(150)),
        Some(&"growth") => growth(Duration::from_millis(30)),
        Some(&"agree") => agree::run(number(1, 20000), number(2, 1)),
        Some(&"crossing") => crossing::run(table_plans(), true, Duration::from_millis(60)),
        Some(&"agree-crossing") => agree_crossing::run(number(1, 20000), number(2, 1)),
        Some(&"verdict") => verdict::run(Duration::from_millis(400)),
        Some(&"stack") => stack::run(vec![
            ("8 x 8", shapes_of(8)),
            ("32 x 32", table_plans().into_iter().map(|p| p.problem).collect()),
        ]),
        Some(&"names") => names(),
        Some(&"judge") if words.len() > 3 => {
            verdict::once(number(1, 0) as usize, number(2, 10_000) as usize, words[3], number(4, 1))
        }
        Some(&"once") if words.len() > 2 => once(words[1], words[2], number(3, 1)),
        Some(&"once-crossing") if words.len() > 4 => {
            crossing::once(table_plans(), words[1], number(2, 0) as usize, words[3] == "like", words[4], number(5, 1))
        }
        Some(_) => {
            eprintln!(
                "usage: route_bench [growth | agree [N] [SEED] | crossing | agree-crossing [N] [SEED] | verdict | stack | \
                 names | once PLAN SIDE [N] | judge LIST VISITS SIDE [N] | once-crossing PLAN PAIR FIFO SIDE [N]]"
            );
            false
        }
    };
    std::process::exit(if ok { 0 } else { 1 });
}
