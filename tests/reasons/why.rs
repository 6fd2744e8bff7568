// Why there is no route, found without a search of routes and without a period: a flood over uncut wires, a flood over
// cells with loads, and the least delay at which the slowest span of a route can close.

use crate::rules::{Problem, Wire, REGISTER};
use crate::search::TooLarge;
use std::cmp::Reverse;
use std::collections::BinaryHeap;

const LOADS: u32 = 64;

fn neighbours(p: &Problem, cell: u32) -> impl Iterator<Item = (u32, Wire)> + '_ {
    let near = [cell.wrapping_sub(p.width), cell.wrapping_sub(1), cell + 1, cell + p.width];
    near.into_iter().filter_map(move |next| p.wire(cell, next).map(|wire| (next, wire)))
}

// Does a chain of uncut wires join the ends, over cells that `passable` takes?
pub fn chain_over(p: &Problem, passable: impl Fn(u32) -> bool) -> bool {
    let mut met = vec![false; p.cells() as usize];
    let mut list = vec![p.sink];
    while let Some(cell) = list.pop() {
        if cell == p.source {
            return true;
        }
        for (next, _) in neighbours(p, cell) {
            if !met[next as usize] && (next == p.source || passable(next)) {
                met[next as usize] = true;
                list.push(next);
            }
        }
    }
    false
}

// Wires pass over blocked cells.
pub fn chain(p: &Problem) -> bool {
    chain_over(p, |_| true)
}

// The load after a gate.
fn load_after(p: &Problem, code: u32, load: u32) -> u32 {
    match code {
        0 => load,
        REGISTER => p.register.c,
        _ => p.buffers[code as usize - 1].c,
    }
}

fn codes(p: &Problem, cell: u32) -> impl Iterator<Item = u32> + '_ {
    (0..=REGISTER).filter(move |&code| p.site(cell, code))
}

// Is there a route that keeps all rules but the period?
pub fn fits(p: &Problem) -> bool {
    let mut met = vec![false; (p.cells() * LOADS) as usize];
    let mut list = Vec::new();
    if p.register.c <= p.limit {
        list.push((p.sink, p.register.c));
    }
    while let Some((cell, load)) = list.pop() {
        for (next, wire) in neighbours(p, cell) {
            let before = load + wire.c;
            if before > p.limit {
                continue;
            }
            if next == p.source {
                return true;
            }
            for code in codes(p, next) {
                let after = load_after(p, code, before);
                let place = (next * LOADS + after) as usize;
                if after <= p.limit && !met[place] {
                    met[place] = true;
                    list.push((next, after));
                }
            }
        }
    }
    false
}

#[derive(Clone, Copy, PartialEq, Eq, PartialOrd, Ord)]
enum Event {
    Reached(u32, u32), // a cell with a load after its gate
    Closes(u32),       // a register at the cell, or the source
}

// What may happen next, the least delay first.
struct Events {
    least: Vec<u64>, // by cell and load: the least delay so far
    heap: BinaryHeap<Reverse<(u64, Event)>>,
}

impl Events {
    fn reach(&mut self, cell: u32, load: u32, delay: u64) {
        let least = &mut self.least[(cell * LOADS + load) as usize];
        if delay < *least {
            *least = delay;
            self.heap.push(Reverse((delay, Event::Reached(cell, load))));
        }
    }

    fn is_least(&self, cell: u32, load: u32, delay: u64) -> bool {
        self.least[(cell * LOADS + load) as usize] == delay
    }
}

// The least delay, in half-ticks, that the slowest span of a route has to be allowed, twice the skew of every close in
// it; None where no route fits. The bound rises only when nothing is left that happens within it. At most so many
// events are followed.
pub fn slowest(p: &Problem, most: usize) -> Result<Option<u64>, TooLarge> {
    let fresh = 2 * p.register.setup as u64;
    let drive = |r: u32, k: u32, load: u32| 2 * (r as u64 * load as u64 + k as u64);
    let mut events = Events { least: vec![u64::MAX; (p.cells() * LOADS) as usize], heap: BinaryHeap::new() };
    if p.register.c <= p.limit {
        events.reach(p.sink, p.register.c, fresh);
    }
    let (mut bound, mut followed) = (0, 0);
    while let Some(Reverse((delay, event))) = events.heap.pop() {
        bound = bound.max(delay);
        followed += 1;
        if followed > most {
            return Err(TooLarge);
        }
        let (cell, load) = match event {
            Event::Closes(cell) if cell == p.source => return Ok(Some(bound + 2 * p.skew as u64)),
            Event::Closes(cell) => {
                events.reach(cell, p.register.c, fresh);
                continue;
            }
            Event::Reached(cell, load) => (cell, load),
        };
        if !events.is_least(cell, load, delay) {
            continue;
        }
        for (next, wire) in neighbours(p, cell) {
            let before = load + wire.c;
            if before > p.limit {
                continue;
            }
            let delay = delay + wire.r as u64 * (2 * load as u64 + wire.c as u64);
            let closing = delay + drive(p.register.r, p.register.k, before);
            if next == p.source {
                events.heap.push(Reverse((closing, Event::Closes(next))));
            }
            for code in codes(p, next) {
                let after = load_after(p, code, before);
                if after > p.limit {
                    continue;
                }
                match code {
                    0 => events.reach(next, after, delay),
                    REGISTER if events.is_least(next, after, fresh) => {} // it drives a span already
                    REGISTER => events.heap.push(Reverse((closing, Event::Closes(next)))),
                    _ => {
                        let b = p.buffers[code as usize - 1];
                        events.reach(next, after, delay + drive(b.r, b.k, before));
                    }
                }
            }
        }
    }
    Ok(None)
}

// The least period that allows a span of so many half-ticks.
pub fn period_for(slowest: u64) -> u64 {
    slowest.div_ceil(2).max(1)
}
