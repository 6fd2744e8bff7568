//! The registered buffered path algorithm of source document 001, figure 4. It gives the least number of registers, or
//! none; no route. Waves by registers, a register once a node; the rest is the wave front's (`front`).
//!
//! Two builds of it: `Plain` has a binary heap and sorted lists, `Tuned` uses document 01's bounds on delay and load for
//! a bucket queue and a list that is read in one place.

use crate::front::{Closer, Front, Side};
use crate::lists::{List, Sorted, Staircase};
use crate::problem::Problem;
use crate::queues::{Buckets, Heap, Queue};

pub type Plain = Peer<Heap, Sorted>;
pub type Tuned = Peer<Buckets, Staircase>;

/// Work space, kept from route to route.
pub struct Peer<Q, L> {
    front: Front<Q, L>,
    next_wave: Vec<u16>,
    registered: Vec<bool>,
}

impl<Q: Queue, L: List> Peer<Q, L> {
    pub fn new() -> Self {
        Peer { front: Front::new(), next_wave: Vec::new(), registered: Vec::new() }
    }

    fn prepare(&mut self, p: &Problem) {
        self.front.prepare(p, 1);
        self.registered.clear();
        self.registered.resize(p.cells(), false);
        self.next_wave.clear();
    }

    /// The least number of registers between the ends, or none.
    pub fn route(&mut self, p: &Problem) -> Option<u32> {
        let register = Closer::new(p.register, p.skew);
        let side = Side::new(p, 0, p.period, &[register], Some(register));
        self.prepare(p);
        self.next_wave.push(p.sink as u16);
        let mut registers = 0;
        while !self.next_wave.is_empty() {
            self.front.next_wave();
            for &cell in &self.next_wave {
                self.front.begin(&side, &register, cell as usize);
            }
            self.next_wave.clear();
            if self.reaches_source(p, &side, &register) {
                return Some(registers);
            }
            registers += 1;
        }
        None
    }

    /// One wave, up to the first candidate that closes at the source.
    fn reaches_source(&mut self, p: &Problem, side: &Side, register: &Closer) -> bool {
        while let Some(c) = self.front.pop() {
            if self.front.push_steps(p, side, c) {
                return true;
            }
            let Some(cell) = side.gate_cell(p, c) else { continue };
            self.front.push_buffers(p, side, c, cell);
            if p.takes_register(cell) && !self.registered[cell] && side.ends(register, c) {
                self.registered[cell] = true;
                self.next_wave.push(cell as u16);
            }
        }
        false
    }
}
