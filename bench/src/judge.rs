//! A plain judge of route lists, from documents 01 and 02: the peer of the verdict, and the check of the routes that we
//! write. Delays are 64-bit half-ticks.

use crate::problem::{BLOCKED, CUT_BELOW, CUT_RIGHT, Crossing, Problem, Wire};

/// Half-ticks; no larger miss is told.
const MISS_MOST: u64 = 1_000_000_000;

/// The registers between the ends of a legal route, and its spare half-ticks: the smallest of its spans' figures.
#[derive(Clone, Copy, PartialEq, Debug)]
pub struct Legal {
    pub registers: u32,
    pub slack: u64,
}

/// The registers between the ends of a legal route between two clocks, of the sink's side and of the source's, and its
/// spare half-ticks.
#[derive(Clone, Copy, PartialEq, Debug)]
pub struct LegalCrossing {
    pub registers: [u32; 2],
    pub slack: u64,
}

/// The first visit at fault and its fault; of a period the half-ticks by which it is missed, else 0.
#[derive(Clone, Copy, PartialEq, Debug)]
pub struct AtFault {
    pub visit: usize,
    pub fault: Fault,
    pub miss: u64,
}

fn at_fault<T>(visit: usize, fault: Fault) -> Result<T, AtFault> {
    Err(AtFault { visit, fault, miss: 0 })
}

fn late<T>(visit: usize, miss: u64) -> Result<T, AtFault> {
    Err(AtFault { visit, fault: Fault::Period, miss: miss.min(MISS_MOST) })
}

/// In the order of the tests.
#[derive(Clone, Copy, PartialEq, Debug)]
pub enum Fault {
    Cell = 1,
    Wire,
    Site,
    Load,
    Period,
}

/// The uncut wire between two cells of the plan.
fn wire(p: &Problem, from: usize, to: usize) -> Option<Wire> {
    let (low, high) = (from.min(to), from.max(to));
    let row_start = high as u32 % p.width as u32 == 0;
    if high - low == 1 && !row_start {
        return (p.marks[low] & CUT_RIGHT == 0).then_some(p.horizontal);
    }
    (high - low == p.width && p.marks[low] & CUT_BELOW == 0).then_some(p.vertical)
}

/// Whether the code may stand at a visit between the ends.
fn site(p: &Problem, cell: usize, code: usize) -> bool {
    if code == 0 {
        return true;
    }
    if cell == p.source || cell == p.sink {
        return false;
    }
    if code == 7 { p.takes_register(cell) } else { code <= p.buffers.len() && p.marks[cell] & BLOCKED == 0 }
}

/// Of a list of two visits or more.
pub fn judge(p: &Problem, words: &[u16]) -> Result<Legal, AtFault> {
    let LegalCrossing { registers: [registers, _], slack } = walk(p, None, words)?;
    Ok(Legal { registers, slack })
}

/// The same between two clocks.
pub fn judge_crossing(p: &Problem, x: &Crossing, words: &[u16]) -> Result<LegalCrossing, AtFault> {
    walk(p, Some(x), words)
}

/// With one clock all spans are of side 0. Inlined, so that one clock does not pay for two.
#[inline(always)]
fn walk(p: &Problem, crossing: Option<&Crossing>, words: &[u16]) -> Result<LegalCrossing, AtFault> {
    let limit = p.limit as u64;
    if words[0] as usize != p.sink {
        return at_fault(0, Fault::Cell);
    }
    if words[1] != 7 {
        return at_fault(0, Fault::Site);
    }
    let start = (p.register.c as u64, 2 * p.register.setup as u64);
    if start.0 > limit {
        return at_fault(0, Fault::Load);
    }
    let (mut from, (mut load, mut delay)) = (p.sink, start);
    let (mut allowed, mut side, skew) = (2 * p.period as u64, 0, 2 * p.skew as u64);
    let (mut registers, mut slack, last) = ([0; 2], u64::MAX, words.len() / 2 - 1);
    for (i, visit) in words.chunks_exact(2).enumerate().skip(1) {
        let (cell, code) = (visit[0] as usize, visit[1] as usize);
        if cell >= p.marks.len() || i == last && cell != p.source {
            return at_fault(i, Fault::Cell);
        }
        let Some(wire) = wire(p, from, cell) else { return at_fault(i, Fault::Wire) };
        let fifo = crossing.filter(|_| code == 8);
        let stands = if i == last {
            code == 7 && (crossing.is_none() || side == 1)
        } else {
            fifo.map_or_else(|| site(p, cell, code), |_| side == 0 && site(p, cell, 7))
        };
        if !stands {
            return at_fault(i, Fault::Site);
        }
        delay += wire.r as u64 * (2 * load + wire.c as u64);
        load += wire.c as u64;
        let after = match (code, fifo) {
            (0, _) => load,
            (7, _) if i == last => 0,
            (7, _) => start.0,
            (_, Some(x)) => x.fifo.c as u64,
            _ => p.buffers[code - 1].c as u64,
        };
        if load > limit || after > limit {
            return at_fault(i, Fault::Load);
        }
        match (code, fifo) {
            (0, _) => {}
            (7, _) => {
                let closing = delay + 2 * (p.register.r as u64 * load + p.register.k as u64) + skew;
                if closing > allowed {
                    return late(i, closing - allowed);
                }
                slack = slack.min(allowed - closing);
                delay = start.1;
                registers[side] += (i < last) as u32;
            }
            (_, Some(x)) => {
                let closing = delay + 2 * (x.fifo.r as u64 * load + x.fifo.k as u64) + skew;
                if closing > allowed {
                    return late(i, closing - allowed);
                }
                slack = slack.min(allowed - closing);
                (side, allowed, delay) = (1, 2 * x.source_period as u64, 2 * x.fifo.setup as u64);
            }
            _ => {
                let b = p.buffers[code - 1];
                delay += 2 * (b.r as u64 * load + b.k as u64);
            }
        }
        (from, load) = (cell, after);
    }
    Ok(LegalCrossing { registers, slack })
}
