//! The ladders: plans whose route is found soon and written late, since their span changes many times the rows that the
//! trail can hold. Each is held to a limit by its own search.

use crate::nets::Net;
use crate::ours::Ours;
use crate::plans::{self, LADDER_8, LADDER_16, LADDER_63};
use crate::problem::Problem;
use crate::verdict::ms;
use crate::{Group, Plan, Sides, explain, processor, summary};
use std::hint::black_box;
use std::time::{Duration, Instant};

/// The most that a whole call may take, by the time of its own search: emission runs a long span again from its start each
/// time the trail is used up, some 90 times the search in all. With a floor and marks it is to be 15 (docs/PORT.md).
const MOST_RATIO: f64 = 120.0;

/// The ladders beside the table's own, which has L 8 and the least T with a route, 23856.
pub fn more() -> Vec<Plan> {
    let ladder = |name, of, period| Plan { group: Group::Ladder, name, problem: plans::ladder(of, 32, period) };
    vec![
        ladder("ladder, L 16, five buffers", LADDER_16, 24304),
        ladder("ladder, L 8, T 2 % above", LADDER_8, 24333),
        ladder("ladder, L 8, T 5 % above", LADDER_8, 25000),
        ladder("ladder, L 8, T 17 % above", LADDER_8, 28000),
        // of 23856 as well
        ladder("ladder, L 63, T 5 % above", LADDER_63, 25048),
    ]
}

/// What a ladder took, in processor time: the whole call, and its search alone.
/// With one clock the search is `bench_search`: the checks, the costs and the search. Between two clocks it is the whole
/// call with the sink walled off: both sides are searched to their ends, no route is written, the scratch words are
/// cleared. On ladders with one clock the second takes as long as the first where T is the least (within 0.3 %), and longer
/// where it is not (1.06 times for 2 % above), since the search then goes on past the sink.
pub struct Line {
    name: String,
    periods: String,
    steps: u32,
    ours: Duration,
    search: Duration,
}

impl Line {
    pub fn of(name: &str, p: &Problem, steps: u32, ours: &mut Ours, budget: Duration) -> Line {
        ours.load(p);
        let times = in_turn(budget, ours, |ours| ours.route(black_box(p)), |ours| ours.search(black_box(p)));
        Line { name: name.into(), periods: p.period.to_string(), steps, ours: times.0, search: times.1 }
    }

    pub fn of_net(net: &Net, steps: u32, ours: &mut Ours, budget: Duration) -> Line {
        let (p, x, walled) = (&net.problem, &net.crossing, net.problem.sink_walled_off());
        ours.load_crossing(p, x);
        assert_eq!(ours.crossing(&walled).number, 7);
        let times = in_turn(budget, ours, |ours| ours.crossing(black_box(p)), |ours| ours.crossing(black_box(&walled)));
        let periods = format!("{}, {}", x.source_period, p.period);
        Line { name: net.plan.name.into(), periods, steps, ours: times.0, search: times.1 }
    }

    fn ratio(&self) -> f64 {
        self.ours.as_secs_f64() / self.search.as_secs_f64()
    }
}

/// Least times of two calls, made in turn so that other work on the machine slows both alike: three rounds at least, then
/// for as long as `budget`. In a round the second is made three times.
fn in_turn<T>(
    budget: Duration,
    ours: &mut Ours,
    first: impl Fn(&mut Ours) -> T,
    second: impl Fn(&mut Ours) -> T,
) -> (Duration, Duration) {
    let (begun, mut turns) = (Instant::now(), 0);
    let mut least = (Duration::MAX, Duration::MAX);
    while turns < 3 || begun.elapsed() < budget {
        least.0 = least.0.min(processor::time_of(|| first(ours)));
        for _ in 0..3 {
            least.1 = least.1.min(processor::time_of(|| second(ours)));
        }
        turns += 1;
    }
    least
}

/// The lines and their mean. False where one is above the limit.
pub fn report(lines: &[Line]) -> bool {
    println!();
    println!("Ladders: the whole call by its own search, limit {MOST_RATIO}. Least processor times, in ms.");
    println!();
    println!("| ladder | T | steps | ours | search | ours / search |");
    println!("|---|---|---|---|---|---|");
    for line in lines {
        let (ours, search, ratio) = (ms(line.ours), ms(line.search), line.ratio());
        let mark = if ratio > MOST_RATIO { " TOO SLOW" } else { "" };
        println!("| {} | {} | {} | {ours:.3} | {search:.3} | {ratio:.1} |{mark}", line.name, line.periods, line.steps);
    }
    println!();
    let (mean, most) = summary(&lines.iter().map(Line::ratio).collect::<Vec<_>>());
    println!("ladders: ours / search, geometric mean {mean:.1}, largest {most:.1}");
    most <= MOST_RATIO
}

/// The ladder with L 8 by side, with the least T that has a route and 2 % above it.
pub fn growth(sides: &mut Sides, budget: Duration) -> bool {
    let mut lines = Vec::new();
    for side in [8, 16, 24, 32] {
        let least = explain::least_period(&mut sides.ours, &plans::ladder(LADDER_8, side, 1));
        for (which, period) in [("least T", least), ("2 % above", (least as u32 * 102 / 100) as u16)] {
            eprintln!("ladder: side {side}, {which}");
            let p = plans::ladder(LADDER_8, side, period);
            let Some(answer) = sides.answer(&p) else { return false };
            lines.push(Line::of(&format!("L 8, {side} x {side}, {which}"), &p, answer.steps, &mut sides.ours, budget));
        }
    }
    report(&lines)
}
