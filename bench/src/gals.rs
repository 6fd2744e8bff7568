//! The algorithm for nets between two clocks of source document 001, figure 8 (GALS). It gives the least latency, or none;
//! no route. The rest is the wave front's (`front`): a candidate's node tells its side too, so that pruning is by side.
//!
//! As in the figure: one queue by delay for both sides, waves by the latency of the spans closed so far, all of one
//! latency at once; a register once a node and side, a FIFO once a node, which leads from the sink's side to the source's.
//! A span that the FIFO drives closes against the sink's period. The two builds are those of `peer`.

use crate::front::{Closer, Front, Side};
use crate::lists::{List, Sorted, Staircase};
use crate::problem::{Crossing, Problem};
use crate::queues::{Buckets, Heap, Queue};
use std::cmp::Reverse;
use std::collections::BinaryHeap;

pub type Plain = Gals<Heap, Sorted>;
pub type Tuned = Gals<Buckets, Staircase>;

/// What starts a span of a later wave.
#[derive(Clone, Copy, PartialEq, Eq, PartialOrd, Ord)]
struct Start {
    /// of the spans before it
    latency: u32,
    node: u16,
    fifo: bool,
}

/// Work space, kept from route to route.
pub struct Gals<Q, L> {
    front: Front<Q, L>,
    /// least latency first: Q* of the figure
    later: BinaryHeap<Reverse<Start>>,
    /// by node: A of the figure
    registered: Vec<bool>,
    /// by cell: F of the figure
    crossed: Vec<bool>,
}

/// One net's numbers: the sink's side, then the source's.
struct Net {
    sides: [Side; 2],
    periods: [u32; 2],
    register: Closer,
    fifo: Closer,
}

impl Net {
    fn new(p: &Problem, x: &Crossing) -> Net {
        let (register, fifo) = (Closer::new(p.register, p.skew), Closer::new(x.fifo, p.skew));
        let sink = Side::new(p, 0, p.period, &[register, fifo], None);
        let source = Side::new(p, p.cells(), x.source_period, &[register], Some(register));
        Net { sides: [sink, source], periods: [p.period as u32, x.source_period as u32], register, fifo }
    }
}

impl<Q: Queue, L: List> Gals<Q, L> {
    pub fn new() -> Self {
        Gals { front: Front::new(), later: BinaryHeap::new(), registered: Vec::new(), crossed: Vec::new() }
    }

    fn prepare(&mut self, p: &Problem) {
        self.front.prepare(p, 2);
        self.registered.clear();
        self.registered.resize(2 * p.cells(), false);
        self.crossed.clear();
        self.crossed.resize(p.cells(), false);
        self.later.clear();
    }

    /// The least latency, or none.
    pub fn route(&mut self, p: &Problem, x: &Crossing) -> Option<u32> {
        let net = Net::new(p, x);
        self.prepare(p);
        self.later.push(Reverse(Start { latency: 0, node: p.sink as u16, fifo: false }));
        while let Some(&Reverse(Start { latency, .. })) = self.later.peek() {
            self.next_wave(p, &net, latency);
            if self.reaches_source(p, &net, latency) {
                return Some(latency + net.periods[1]);
            }
        }
        None
    }

    /// Begins all spans of one latency.
    fn next_wave(&mut self, p: &Problem, net: &Net, latency: u32) {
        self.front.next_wave();
        while let Some(&Reverse(start)) = self.later.peek().filter(|s| s.0.latency == latency) {
            self.later.pop();
            let node = start.node as usize;
            let side = &net.sides[(node >= p.cells()) as usize];
            self.front.begin(side, if start.fifo { &net.fifo } else { &net.register }, node);
        }
    }

    /// One wave, up to the first candidate that closes at the source.
    fn reaches_source(&mut self, p: &Problem, net: &Net, latency: u32) -> bool {
        let n = p.cells();
        while let Some(c) = self.front.pop() {
            let at = (c.node >= n) as usize;
            let side = &net.sides[at];
            if self.front.push_steps(p, side, c) {
                return true;
            }
            let Some(cell) = side.gate_cell(p, c) else { continue };
            self.front.push_buffers(p, side, c, cell);
            if !p.takes_register(cell) {
                continue;
            }
            let latency = latency + net.periods[at];
            if !self.registered[c.node] && side.ends(&net.register, c) {
                self.registered[c.node] = true;
                self.later.push(Reverse(Start { latency, node: c.node as u16, fifo: false }));
            }
            if at == 0 && !self.crossed[cell] && side.ends(&net.fifo, c) {
                self.crossed[cell] = true;
                self.later.push(Reverse(Start { latency, node: (n + cell) as u16, fifo: true }));
            }
        }
        false
    }
}
