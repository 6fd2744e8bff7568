// Jobs on one plan: the limit, the setup, the skew and the period put about their thresholds, walls of cuts, questions
// to be refused.

use crate::explained::LONGEST;
use crate::plans;
use crate::question::SCRATCH;
use crate::random::Random;
use crate::rules::{Problem, CUT_BELOW, CUT_RIGHT};
use crate::tuning::spoil;
use crate::why::{chain, fits, period_for, slowest};

const JOBS: u32 = 10; // on one plan
const EVENTS: usize = 100_000; // the most that is followed for a threshold

pub struct Job {
    pub problem: Problem,
    pub lent: u32, // scratch words
    pub depth: u32,
    pub shown: bool, // a route question stands before it, and all words are shown after it
}

// The least period with which there is a route, where one fits and it is found.
fn least_period(p: &Problem) -> Option<u64> {
    slowest(p, EVENTS).ok().flatten().map(period_for)
}

fn set_period(r: &mut Random, p: &mut Problem) {
    let any = r.within(1, LONGEST);
    let least = match least_period(p) {
        Some(least) if least <= LONGEST as u64 => least as u32,
        _ => {
            p.period = r.pick(&[1, any, any, LONGEST - 1, LONGEST, LONGEST]);
            return;
        }
    };
    let below = (least - 1).max(1);
    let (under, over) = (r.within(1, below), r.within(least, LONGEST));
    p.period = r.pick(&[below, below, below, below, least, least, over, LONGEST, 1, 1, under, under, below / 2 + 1]);
}

// The least limit with which a route fits, one less, or less than the register's own load.
fn set_limit(r: &mut Random, p: &mut Problem) {
    if p.register.c > 0 && r.chance(20) {
        p.limit = r.pick(&[p.register.c - 1, p.register.c - 1, 0]);
        return;
    }
    let at = |limit| fits(&Problem { limit, ..p.clone() });
    if !at(63) {
        p.limit = r.pick(&[63, 63, 40]);
        return;
    }
    let (mut fails, mut least) = (-1, 63);
    while least - fails > 1 {
        let middle = (fails + least) / 2;
        if at(middle as u32) {
            least = middle;
        } else {
            fails = middle;
        }
    }
    let least = least as u32;
    p.limit = r.pick(&[least, least, least.saturating_sub(1), least.saturating_sub(1), (least + 1).min(63)]);
}

// A setup with which the least period is 30,000, or one more, or anything; or a delay of the register, if it reaches.
fn set_setup(r: &mut Random, p: &mut Problem) {
    let drawn = p.register;
    (p.register.setup, p.register.k) = (0, 0);
    let (any, close) = (r.within(1, LONGEST), r.within(LONGEST + 1, LONGEST + 9));
    let wanted = r.pick(&[LONGEST, LONGEST, LONGEST, LONGEST + 1, LONGEST + 1, close, any]);
    let least = least_period(p).and_then(|least| wanted.checked_sub(least as u32));
    match least {
        Some(more) if more <= 1_000 => p.register.k = more,
        Some(more) => {
            p.register.k = drawn.k.min(more);
            p.register.setup = (more - p.register.k).min(LONGEST);
        }
        None => p.register = drawn,
    }
}

// A skew with which the least period is 30,000, or one more, or anything; none, or the largest.
fn set_skew(r: &mut Random, p: &mut Problem) {
    p.skew = 0;
    let (any, close) = (r.within(1, LONGEST), r.within(LONGEST + 1, LONGEST + 9));
    let wanted = r.pick(&[LONGEST, LONGEST, LONGEST + 1, LONGEST + 1, close, any, any]);
    let least = least_period(p).map_or(any, |least| wanted.saturating_sub(least as u32));
    p.skew = r.pick(&[least, least, least, least, least, least, 0, LONGEST]).min(LONGEST);
}

// Cells about the sink, grown from it; not the source.
fn region(r: &mut Random, p: &Problem) -> Vec<bool> {
    let mut inside = vec![false; p.cells() as usize];
    inside[p.sink as usize] = true;
    for _ in 0..r.below(3 * p.cells()) {
        let cell = r.below(p.cells());
        let near = [cell.wrapping_sub(p.width), cell.wrapping_sub(1), cell + 1, cell + p.width];
        let joined = near.into_iter().any(|next| p.wire(cell, next).is_some() && inside[next as usize]);
        inside[cell as usize] |= joined && cell != p.source;
    }
    inside
}

// All wires about a region cut, or all but one, or but some.
fn set_wall(r: &mut Random, p: &mut Problem) {
    let inside = region(r, p);
    let mut wires = Vec::new();
    for cell in 0..p.cells() {
        for (next, mark) in [(cell + 1, CUT_RIGHT), (cell + p.width, CUT_BELOW)] {
            let one_column = mark == CUT_RIGHT && p.width == 1; // its next cell is the one below
            if !one_column && p.wire(cell, next).is_some() && inside[cell as usize] != inside[next as usize] {
                wires.push((cell, mark));
            }
        }
    }
    let left = r.pick(&[0, 0, 1, 1, 1, 2]).min(wires.len());
    for _ in 0..left {
        wires.swap_remove(r.below(wires.len() as u32) as usize);
    }
    for (cell, mark) in wires {
        p.marks[cell as usize] |= mark;
    }
    assert!(left > 0 || !chain(p), "a whole wall");
}

// About as many scratch words as are needed, or all.
fn lent(r: &mut Random, p: &Problem) -> u32 {
    let need = (256 * p.cells() as u64).min(SCRATCH as u64) as u32;
    let less = r.below(need.max(1));
    match r.below(20) {
        0 => need.saturating_sub(1),
        1 => r.pick(&[0, 1, less, need.saturating_sub(256)]),
        2..8 => need,
        8 => (need + 1).min(SCRATCH),
        _ => SCRATCH,
    }
}

fn job(r: &mut Random, problem: Problem) -> Job {
    let lent = lent(r, &problem);
    Job { problem, lent, depth: r.pick(&[0, 0, 0, 1, 256, 257, 65_535]), shown: r.chance(8) }
}

fn varied(r: &mut Random, drawn: &Problem) -> Problem {
    let mut p = drawn.clone();
    match r.below(26) {
        0..4 => set_limit(r, &mut p),
        4..9 => set_setup(r, &mut p),
        9..12 => set_wall(r, &mut p),
        12 => {
            set_wall(r, &mut p);
            set_limit(r, &mut p);
        }
        13 => {
            set_limit(r, &mut p);
            set_setup(r, &mut p);
        }
        14 => {
            set_limit(r, &mut p);
            (p.register.setup, p.register.k) = (LONGEST, p.register.k.max(1)); // no span can close
        }
        15 => std::mem::swap(&mut p.source, &mut p.sink),
        16 | 25 if p.period > 0 => return p, // as it was drawn
        20..23 => set_skew(r, &mut p),
        23 => {
            set_limit(r, &mut p);
            set_skew(r, &mut p);
        }
        24 => {
            set_wall(r, &mut p);
            set_skew(r, &mut p);
        }
        _ => {}
    }
    set_period(r, &mut p);
    p
}

// The next jobs, all on one drawn plan.
pub fn draw(r: &mut Random) -> Vec<Job> {
    let drawn = plans::draw(r);
    let mut out = Vec::new();
    for _ in 0..JOBS {
        let mut p = varied(r, &drawn);
        let refused = r.chance(12);
        if refused {
            spoil(r, &mut p);
        }
        let mut job = job(r, p);
        if refused && r.chance(40) {
            job.lent = 0; // refused twice
        }
        out.push(job);
    }
    out
}
