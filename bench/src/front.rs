//! The wave front that the algorithms of source document 001 share (figures 4 and 8), under document 01's rules: load
//! limit, taps, blocked cells, cuts, the pi model in half-ticks.
//!
//! As in the figures: candidates (load, delay, node) from the sink on, a queue by delay, a candidate pruned by one of the
//! same wave and node with no more load and no more delay, figure 4's test of the period before a push. Candidates that
//! have a gate at their node stand in a list of their own: they may not prune one that has none, since that one can still
//! take a gate; the other way round they may.
//!
//! A net between two clocks has a node for each cell and side. Nothing is allocated once the work space has its size.

use crate::lists::List;
use crate::problem::{BLOCKED, CUT_BELOW, CUT_RIGHT, Problem, Register};
use crate::queues::{Candidate, Queue};

struct Node<L> {
    /// the wave of its lists; those of an earlier wave are as good as empty
    wave: u32,
    plain: L,
    gated: L,
}

/// A register or FIFO in half-ticks: what it adds where it closes a span, twice the skew in `k`, and the load and delay
/// that it starts one with.
#[derive(Clone, Copy)]
pub struct Closer {
    r: u32,
    k: u32,
    load: u32,
    delay: u32,
}

impl Closer {
    pub fn new(g: Register, skew: u16) -> Closer {
        Closer { r: 2 * g.r as u32, k: 2 * (g.k as u32 + skew as u32), load: g.c as u32, delay: 2 * g.setup as u32 }
    }
}

/// The numbers of one side of a net, in half-ticks; a net of one clock has one side.
pub struct Side {
    /// the node of cell 0
    pub first: usize,
    /// what closes a span here for good: the source's register, or none
    source: Option<Closer>,
    limit: u32,
    bound: u32,
    least_r: u32,
    least_k: u32,
    wires: [(u32, u32); 4],
    buffers: [(u32, u32, u32); 6],
    count: usize,
}

impl Side {
    /// `closers` are what may close its spans.
    pub fn new(p: &Problem, first: usize, period: u16, closers: &[Closer], source: Option<Closer>) -> Side {
        let (h, v) = ((p.horizontal.r as u32, p.horizontal.c as u32), (p.vertical.r as u32, p.vertical.c as u32));
        let mut buffers = [(0, 0, 0); 6];
        for (to, b) in buffers.iter_mut().zip(&p.buffers) {
            *to = (2 * b.r as u32, 2 * b.k as u32, b.c as u32);
        }
        let drives = closers.iter().map(|g| g.r).chain(p.buffers.iter().map(|b| 2 * b.r as u32));
        Side {
            first,
            source,
            limit: p.limit as u32,
            bound: 2 * period as u32,
            least_r: drives.fold(u32::MAX, u32::min),
            least_k: closers.iter().map(|g| g.k).fold(u32::MAX, u32::min),
            wires: [v, h, h, v],
            buffers,
            count: p.buffers.len(),
        }
    }

    /// Whether the load is in its limit and the period can still be met: figure 4's test before a push.
    #[inline(always)]
    fn may_go_on(&self, load: u32, delay: u32) -> bool {
        load <= self.limit && delay + self.least_k + self.least_r * load <= self.bound
    }

    /// Whether the closer ends the candidate's span within the period.
    #[inline(always)]
    pub fn ends(&self, g: &Closer, c: Candidate) -> bool {
        self.closes(g, c.load, c.delay)
    }

    #[inline(always)]
    fn closes(&self, g: &Closer, load: u32, delay: u32) -> bool {
        delay + g.k + g.r * load <= self.bound
    }

    /// The candidate's cell, if a gate may stand at this visit to it.
    #[inline(always)]
    pub fn gate_cell(&self, p: &Problem, c: Candidate) -> Option<usize> {
        let cell = c.node - self.first;
        (!c.gated && cell != p.source && cell != p.sink).then_some(cell)
    }
}

/// Work space, kept from route to route.
pub struct Front<Q, L> {
    nodes: Vec<Node<L>>,
    /// numbers the waves of all routes
    wave: u32,
    queue: Q,
    /// up, left, right, down; the number of cells for none
    around: Vec<[u16; 4]>,
}

impl<Q: Queue, L: List> Front<Q, L> {
    pub fn new() -> Self {
        Front { nodes: Vec::new(), wave: 0, queue: Q::new(), around: Vec::new() }
    }

    pub fn prepare(&mut self, p: &Problem, sides: usize) {
        let (n, w, h) = (p.cells(), p.width, p.height);
        while self.nodes.len() < sides * n {
            self.nodes.push(Node { wave: 0, plain: L::EMPTY, gated: L::EMPTY });
        }
        self.around.clear();
        for row in 0..h {
            for column in 0..w {
                let cell = row * w + column;
                let m = p.marks[cell];
                let up = if row > 0 && p.marks[cell - w] & CUT_BELOW == 0 { cell - w } else { n };
                let left = if column > 0 && p.marks[cell - 1] & CUT_RIGHT == 0 { cell - 1 } else { n };
                let right = if column + 1 < w && m & CUT_RIGHT == 0 { cell + 1 } else { n };
                let down = if row + 1 < h && m & CUT_BELOW == 0 { cell + w } else { n };
                self.around.push([up as u16, left as u16, right as u16, down as u16]);
            }
        }
        self.queue.clear();
    }

    pub fn next_wave(&mut self) {
        self.wave += 1;
    }

    /// A span that begins at a node, if it can be closed.
    #[inline(always)]
    pub fn begin(&mut self, side: &Side, g: &Closer, node: usize) {
        if side.may_go_on(g.load, g.delay) {
            self.push(Candidate { delay: g.delay, load: g.load, node, gated: true });
        }
    }

    /// Into the queue, unless pruned. Those that it prunes are passed over when the queue gives them out.
    #[inline(always)]
    fn push(&mut self, c: Candidate) {
        let node = &mut self.nodes[c.node];
        if node.wave != self.wave {
            node.wave = self.wave;
            node.plain.clear();
            node.gated.clear();
        }
        if node.plain.prunes(c.load, c.delay) {
            return;
        }
        if c.gated {
            if node.gated.prunes(c.load, c.delay) {
                return;
            }
            node.gated.insert(c.load, c.delay);
        } else {
            node.plain.insert(c.load, c.delay);
        }
        self.queue.push(c);
    }

    /// One of least delay.
    #[inline(always)]
    pub fn pop(&mut self) -> Option<Candidate> {
        loop {
            let c = self.queue.pop()?;
            if self.stands(c) {
                return Some(c);
            }
        }
    }

    /// Whether no better candidate has come since it was pushed.
    #[inline(always)]
    fn stands(&self, c: Candidate) -> bool {
        let node = &self.nodes[c.node];
        if c.gated {
            node.gated.holds(c.load, c.delay) && !node.plain.prunes(c.load, c.delay)
        } else {
            node.plain.holds(c.load, c.delay)
        }
    }

    /// Pushes what a candidate leads to over the wires. True as soon as one closes at the source.
    #[inline(always)]
    pub fn push_steps(&mut self, p: &Problem, side: &Side, c: Candidate) -> bool {
        let none = p.cells();
        let around = self.around[c.node - side.first];
        for (way, next) in around.into_iter().enumerate() {
            let next = next as usize;
            if next == none {
                continue;
            }
            let (wire_r, wire_c) = side.wires[way];
            let (load, delay) = (c.load + wire_c, c.delay + wire_r * (2 * c.load + wire_c));
            if !side.may_go_on(load, delay) {
                continue;
            }
            if next == p.source && side.source.is_some_and(|g| side.closes(&g, load, delay)) {
                return true;
            }
            self.push(Candidate { delay, load, node: side.first + next, gated: false });
        }
        false
    }

    /// Pushes what the buffers make of a candidate at a cell where a gate may stand.
    #[inline(always)]
    pub fn push_buffers(&mut self, p: &Problem, side: &Side, c: Candidate, cell: usize) {
        if p.marks[cell] & BLOCKED != 0 {
            return;
        }
        for &(r, k, load) in &side.buffers[..side.count] {
            let delay = c.delay + r * c.load + k;
            if side.may_go_on(load, delay) {
                self.push(Candidate { delay, load, node: c.node, gated: true });
            }
        }
    }
}
