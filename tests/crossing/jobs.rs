// A net with all that is lent for its question; and questions to be refused.

use crate::crossed::EACH;
use crate::net::Net;
use crate::question::{SCRATCH, VISITS};
use crate::random::Random;
use crate::rules::{Buffer, Register, Visit};
use crate::tuning::spoil;

#[derive(Clone)]
pub struct Job {
    pub net: Net,
    pub lent: u32, // scratch words
    pub room: u32, // visit words
    pub depth: u32,
    pub shown: bool, // all words are shown after it
}

impl Job {
    // As much as there is.
    pub fn ample(net: Net) -> Job {
        Job { net, lent: SCRATCH, room: VISITS, depth: 0, shown: false }
    }
}

// About as many scratch words as are needed, or all.
fn lent(r: &mut Random, n: &Net) -> u32 {
    let need = (EACH as u64 * n.problem.cells() as u64).min(SCRATCH as u64) as u32;
    match r.below(20) {
        0 if need > 0 => need - 1,
        1 => r.pick(&[0, 1, need / 2, need.saturating_sub(EACH)]),
        2..9 => need,
        9 => (need + 1).min(SCRATCH),
        _ => SCRATCH,
    }
}

// About as many visit words as the route needs, or all.
fn room(r: &mut Random, route: Option<&[Visit]>) -> u32 {
    let Some(route) = route else { return r.pick(&[VISITS, VISITS, 0, 9]) };
    let need = 2 * route.len() as u32;
    match r.below(20) {
        0 => need - 1,
        1 => r.pick(&[need - 2, need / 2, 1, 0]),
        2..7 => need,
        7 => need + 1,
        _ => VISITS,
    }
}

// The question for a net with this best route.
pub fn job(r: &mut Random, net: Net, route: Option<&[Visit]>) -> Job {
    let (lent, room) = (lent(r, &net), room(r, route));
    Job { net, lent, room, depth: r.pick(&[0, 0, 0, 1, 256, 257, 65_535]), shown: r.chance(6) }
}

// A FIFO or a register with one number above its range.
fn spoil_register(r: &mut Random, g: &mut Register) {
    let (place, number) = r.pick(&[(0, 256), (1, 1_001), (2, 64), (3, 30_001), (0, 65_535), (3, 65_535)]);
    *[&mut g.r, &mut g.k, &mut g.c, &mut g.setup][place] = number;
}

fn spoil_clocks(r: &mut Random, n: &mut Net) {
    let period = r.pick(&[0, 30_001, 65_535]);
    match r.below(9) {
        0 | 1 => n.source_period = period,
        2 => n.problem.period = period,
        3..5 => spoil_register(r, &mut n.fifo),
        5 => spoil_register(r, &mut n.problem.register),
        6 => n.problem.buffers.resize(r.pick(&[7, 7, 20]), Buffer { c: r.pick(&[1, 64]), ..Buffer::default() }),
        7 => n.problem.skew = r.pick(&[30_001, 30_001, 65_535]),
        _ => {
            n.problem.buffers.resize(r.within(1, 6) as usize, Buffer::default());
            n.problem.buffers.last_mut().unwrap().c = 64;
        }
    }
}

// The same question with one to five reasons to refuse it.
pub fn refused(r: &mut Random, job: &Job) -> Job {
    let mut job = job.clone();
    let p = &mut job.net.problem;
    let turn = r.below(10);
    if turn == 0 {
        let end = r.pick(&[p.cells(), p.cells() + 1, 65_535]);
        (p.source, p.sink) = r.pick(&[(p.source, p.source), (p.sink, p.sink), (end, p.sink), (p.source, end)]);
    }
    if turn > 3 {
        spoil(r, p);
    }
    if 0 < turn && turn < 8 {
        (0..r.within(1, 2)).for_each(|_| spoil_clocks(r, &mut job.net));
    }
    job.lent = lent(r, &job.net);
    if r.chance(20) {
        job.lent = 0;
    }
    job
}
