//! The verdict on long lists, against the plain judge on the same lists.

use crate::judge::{AtFault, Legal, judge};
use crate::ours::{Found, Ours};
use crate::walks::{self, Walk};
use std::hint::black_box;
use std::time::{Duration, Instant};

type Shape = (&'static str, fn(usize) -> Walk, &'static [usize]);

const COUNTS: &[usize] = &[10_000, 100_000, 1_000_000];

const SHAPES: [Shape; 5] = [
    ("free wires, no gate", walks::free, COUNTS),
    ("a gate at every other visit", walks::regular, COUNTS),
    ("cells and gates at random", walks::random, COUNTS),
    ("the same, the last visit at fault", walks::bad_end, COUNTS),
    ("delay past 2^32, then a register", walks::overrun, &[140_000, 1_000_000]),
];

/// The most that a list of a million visits may take.
const MOST: Duration = Duration::from_millis(100);

/// What the entry tells of such a verdict.
fn told(judged: Result<Legal, AtFault>) -> Found {
    let words = match judged {
        Ok(legal) => [1, 0, 0, 0, legal.slack],
        Err(at) => [0, at.visit as u64, at.fault as u64, 0, at.miss],
    };
    Found { number: 0, words }
}

/// Least and median time of a call: 11 times at least, then for as long as `budget`.
pub fn times<T>(budget: Duration, mut call: impl FnMut() -> T) -> (Duration, Duration) {
    let begun = Instant::now();
    let mut all = Vec::new();
    while all.len() < 11 || begun.elapsed() < budget {
        let start = Instant::now();
        black_box(call());
        all.push(start.elapsed());
    }
    all.sort();
    (all[0], all[all.len() / 2])
}

/// Nanoseconds a visit.
fn each(d: Duration, visits: usize) -> f64 {
    d.as_secs_f64() * 1e9 / visits as f64
}

pub fn ms(d: Duration) -> f64 {
    d.as_secs_f64() * 1e3
}

/// One line of the table: the least nanoseconds a visit. None where a verdict is not what it must be.
fn line(name: &str, count: usize, walk: &Walk, ours: &mut Ours, budget: Duration) -> Option<f64> {
    let (p, list) = (&walk.problem, &walk.list);
    ours.load(p);
    let (got, judged) = (ours.judge(p, list), judge(p, list));
    if got != told(judged) || judged.err().map(|at| (at.visit, at.fault)) != walk.expected {
        println!("MISMATCH: {name}, {count} visits: must be {:?}, ours {got:?}, peer {judged:?}", walk.expected);
        return None;
    }
    let judged = walk.expected.map_or(count, |(visit, _)| visit + 1);
    let verdict = walk.expected.map_or("accepted".into(), |(visit, fault)| format!("visit {visit}: {fault:?}"));
    let (least, median) = times(budget, || ours.judge(black_box(p), black_box(list)));
    let (peer, peer_median) = times(budget, || judge(black_box(p), black_box(list)));
    println!(
        "| {name} | {count} | {verdict} | {:.3} | {:.3} | {:.2} | {:.2} | {:.2} | {:.2} | {:.2} |",
        ms(least),
        ms(median),
        each(least, judged),
        each(median, judged),
        each(peer, judged),
        each(peer_median, judged),
        ms(least) / ms(peer)
    );
    if least > MOST {
        println!("TOO SLOW: {name}, {count} visits");
        return None;
    }
    Some(each(least, judged))
}

/// Verdicts of one side (ours, peer) on one list, for a profiler; the list is named by its place in the table, from 0.
pub fn once(shape: usize, count: usize, side: &str, times: u64) -> bool {
    let walk = SHAPES[shape].1(count);
    let mut ours = Ours::new();
    ours.load(&walk.problem);
    for _ in 0..times {
        let (p, list) = (black_box(&walk.problem), black_box(&walk.list));
        match side {
            "peer" => drop(black_box(judge(p, list))),
            _ => drop(black_box(ours.judge(p, list))),
        }
    }
    true
}

pub fn run(budget: Duration) -> bool {
    println!("Least and median of the repetitions; a visit: over the visits up to the verdict. peer: the plain judge.");
    println!();
    println!("| list | visits | verdict | ms | median | ns a visit | median | peer | median | ours / peer |");
    println!("|---|---|---|---|---|---|---|---|---|---|");
    let mut ours = Ours::new();
    let mut growth = Vec::new();
    for (name, shape, counts) in SHAPES {
        let mut of = Vec::new();
        for &count in counts {
            eprintln!("{name}: {count} visits");
            let Some(ns) = line(name, count, &shape(count), &mut ours, budget) else { return false };
            of.push(ns);
        }
        growth.push((name, counts[0], of[of.len() - 1] / of[0]));
    }
    println!();
    for (name, from, ratio) in growth {
        println!("{name}: a visit takes {ratio:.2} times as long in 1000000 visits as in {from}");
    }
    true
}
