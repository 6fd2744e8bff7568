//! Why there is no route: the plans of the table in a version that has none, and some more. Each reason is checked by the
//! published algorithm, or by a flood fill where the ends are said to be walled off.

use crate::ours::{Ours, Why};
use crate::peer::Plain;
use crate::plans::{self, FULL};
use crate::problem::{BLOCKED, CUT_BELOW, CUT_RIGHT, Problem, TAP};
use crate::verdict::{ms, times};
use std::hint::black_box;
use std::time::Duration;

/// The most that a question may take.
const MOST: Duration = Duration::from_millis(10);

/// In ticks.
const PERIOD_MAX: u16 = 30_000;

/// The reasons' places.
const WALLED_OFF: u32 = 1;
const LOAD: u32 = 2;
const PERIOD: u32 = 3;
const TOO_SHORT: u32 = 4;

/// A plan of the table without a route: with a period of 1, or as it is where its ends are walled off.
pub fn version(p: &Problem) -> Problem {
    if joined(p) { at_period(p, 1) } else { p.clone() }
}

/// The least period with a route, where the period alone stands in the way of one.
pub fn least_period(ours: &mut Ours, p: &Problem) -> u16 {
    let p = at_period(p, 1);
    ours.load(&p);
    let [reason, period, ..] = ours.explain(&p).words;
    assert_eq!(reason, PERIOD, "no period has a route, or T 1 has");
    period as u16
}

/// Plans beside the table's.
pub fn more() -> Vec<(&'static str, Problem)> {
    let mut light = plans::open(FULL, 250);
    light.limit = 2;
    // the sink's way to the next tip is too heavy
    let mut comb = plans::long_comb(FULL, 28000);
    for (cell, mark) in comb.marks.iter_mut().enumerate() {
        if [29, 30].contains(&(cell % comb.width)) {
            *mark |= BLOCKED;
        }
    }
    // one span
    let mut long = plans::serpentine(FULL, 29000);
    long.marks.iter_mut().for_each(|m| *m &= !TAP);
    long.horizontal.r = 4;
    // one span, and then without delays on the wires and no way to the source
    let mut bare = plans::open(FULL, 250);
    bare.marks.iter_mut().for_each(|m| *m &= !TAP);
    let mut walled = bare.clone();
    walled.marks[walled.source] |= CUT_RIGHT | CUT_BELOW;
    (walled.horizontal.r, walled.vertical.r) = (0, 0);
    vec![
        ("open, L 2", light),
        ("comb, two tips near the sink blocked", comb),
        ("serpentine, no taps, R 4", long),
        ("open, no taps", bare),
        ("open, no taps, wires R 0, source cut off", walled),
        ("open, wires R 0, heavy register", plans::heavy_register(1)),
    ]
}

fn at_period(p: &Problem, period: u16) -> Problem {
    Problem { period, ..p.clone() }
}

/// The same without any delay and without a skew.
fn no_delay(p: &Problem) -> Problem {
    let mut p = Problem { skew: 0, ..p.clone() };
    (p.register.r, p.register.k, p.register.setup) = (0, 0, 0);
    (p.horizontal.r, p.vertical.r) = (0, 0);
    p.buffers.iter_mut().for_each(|b| (b.r, b.k) = (0, 0));
    p
}

/// Whether a chain of uncut wires joins the ends.
fn joined(p: &Problem) -> bool {
    let mut seen = vec![false; p.cells()];
    let mut open = vec![p.sink];
    while let Some(cell) = open.pop() {
        if !seen[cell] {
            seen[cell] = true;
            open.extend(p.neighbours(cell).into_iter().flatten());
        }
    }
    seen[p.source]
}

/// Whether the reason is true, and the period told the smallest.
fn right(p: &Problem, why: Why, peer: &mut Plain) -> bool {
    let mut routed = |p: &Problem| peer.route(p).is_some();
    let [reason, period, ..] = why.words;
    let t = period as u16;
    why == Why { number: 0, words: [reason, period, 0, 0, 0] }
        && (reason == PERIOD || period == 0)
        && !routed(p)
        && joined(p) == (reason != WALLED_OFF)
        && match reason {
            WALLED_OFF => true,
            LOAD => !routed(&no_delay(p)),
            PERIOD => t <= PERIOD_MAX && routed(&at_period(p, t)) && !routed(&at_period(p, t - 1)),
            TOO_SHORT => routed(&no_delay(p)) && !routed(&at_period(p, PERIOD_MAX)),
            _ => false,
        }
}

/// The answer; none where the scratch words are not left as they should be.
fn ask(ours: &mut Ours, p: &Problem) -> Option<Why> {
    let used = 256 * p.cells();
    ours.load(p);
    ours.scratch[..used + 1].fill(9);
    let why = ours.explain(p);
    (ours.scratch[..used].iter().all(|&w| w == 0) && ours.scratch[used] == 9).then_some(why)
}

/// Least time of the question on a plan that has a route. None where that is not the answer.
fn routed(ours: &mut Ours, p: &Problem, budget: Duration) -> Option<Duration> {
    let exists = Why { number: 19, words: [0; 5] };
    (ask(ours, p)? == exists).then(|| times(budget, || ours.explain(black_box(p))).0)
}

/// One line. False where the reason is wrong or takes too long.
fn line(name: &str, table: Option<&Problem>, p: &Problem, ours: &mut Ours, peer: &mut Plain, budget: Duration) -> bool {
    let Some(why) = ask(ours, p).filter(|&why| right(p, why, peer)) else {
        println!("MISMATCH: {name}: {:?}", ask(ours, p));
        return false;
    };
    let (least, median) = times(budget, || ours.explain(black_box(p)));
    let with_route = match table.filter(|p| joined(p)).map(|p| routed(ours, p, budget)) {
        None => "-".into(),
        Some(Some(d)) => format!("{:.3}", ms(d)),
        Some(None) => {
            println!("MISMATCH: {name}: not 19 at its own period");
            return false;
        }
    };
    let reason = match why.words[0] {
        WALLED_OFF => "walled off".into(),
        LOAD => "load".into(),
        PERIOD => format!("period {}", why.words[1]),
        _ => "too short".into(),
    };
    let mark = if least > MOST { " TOO SLOW" } else { "" };
    let (least_ms, median) = (ms(least), ms(median));
    println!("| {name} | {} | {reason} | {least_ms:.3} | {median:.3} | {with_route} |{mark}", p.period);
    least <= MOST
}

/// The table's plans by name, then `more`.
pub fn run(table: &[(&str, &Problem)], budget: Duration) -> bool {
    println!();
    println!(
        "Why there is no route, in ms, limit {} ms: the table's plans with T 1, or as they are where walled off, and \
         some more. 19: asked at the table's T, where a route exists.",
        MOST.as_millis()
    );
    println!();
    println!("| plan | T | reason | least | median | 19 |");
    println!("|---|---|---|---|---|---|");
    let (mut ours, mut peer) = (Ours::new(), Plain::new());
    let mut ok = true;
    for (name, p) in table {
        eprintln!("why: {name}");
        ok &= line(name, Some(p), &version(p), &mut ours, &mut peer, budget);
    }
    for (name, p) in more() {
        eprintln!("why: {name}");
        ok &= line(name, None, &p, &mut ours, &mut peer, budget);
    }
    ok
}
