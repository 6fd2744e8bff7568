// Exhaustive search for the best route between two clocks: exact states (cell, load, delay, FIFOs passed), nothing left
// out but delays above twice the period of the state's side less twice the skew, which nothing can close. A state is
// what the rest of a route depends on. The states are settled in the order of (latency, steps), over all splits at
// once; a best route meets each of its states just then, for with an earlier beginning it would be better. "None" is
// said when no state is left to follow.

use crate::net::{Net, FIFO};
use crate::rules::{Register, Visit, Wire, BLOCKED, CUT_BELOW, CUT_RIGHT, REGISTER};
use crate::search::TooLarge;
use std::cmp::Reverse;
use std::collections::BinaryHeap;

const DELAYS: u64 = 60_001; // half-ticks 0 to 2 × 30,000
const LOADS: u64 = 64;

#[derive(Clone, Copy, PartialEq)]
struct State {
    cell: u32,
    load: u32,
    delay: u32,
    fifos: u32,
}

impl State {
    fn number(self) -> u64 {
        ((self.cell as u64 * 2 + self.fifos as u64) * LOADS + self.load as u64) * DELAYS + self.delay as u64
    }
}

// One visit that may follow a state, and the period of the span that it closes, 0 if it closes none. The next state is
// None at the source: the route ends.
struct Move {
    visit: Visit,
    latency: u32,
    next: Option<State>,
}

#[derive(Clone, Copy, Debug, PartialEq, Eq, PartialOrd, Ord)]
struct Label {
    latency: u32,
    steps: u32,
}

impl Label {
    fn after(self, m: &Move) -> Label {
        Label { latency: self.latency + m.latency, steps: self.steps + 1 }
    }
}

// The states met with their least labels so far, and an index by state number.
struct Met {
    states: Vec<State>,
    labels: Vec<Label>,
    slots: Vec<u32>, // place in `states` plus one; 0 is free
}

impl Met {
    fn slot(&self, state: State) -> usize {
        let mask = self.slots.len() - 1;
        let mut at = (state.number().wrapping_mul(0x9E37_79B9_7F4A_7C15) >> 32) as usize & mask;
        while self.slots[at] != 0 && self.states[self.slots[at] as usize - 1] != state {
            at = (at + 1) & mask;
        }
        at
    }

    fn place(&self, state: State) -> Option<usize> {
        (self.slots[self.slot(state)] as usize).checked_sub(1)
    }

    // Its place, if the label is less than the state's.
    fn improve(&mut self, state: State, label: Label) -> Option<usize> {
        let slot = self.slot(state);
        if let Some(at) = (self.slots[slot] as usize).checked_sub(1) {
            let less = label < self.labels[at];
            if less {
                self.labels[at] = label;
            }
            return less.then_some(at);
        }
        self.states.push(state);
        self.labels.push(label);
        self.slots[slot] = self.states.len() as u32;
        if self.states.len() * 2 > self.slots.len() {
            self.slots = vec![0; self.slots.len() * 2];
            for i in 0..self.states.len() {
                let slot = self.slot(self.states[i]);
                self.slots[slot] = i as u32 + 1;
            }
        }
        Some(self.states.len() - 1)
    }
}

// The moves from a state, in written order: the neighbours' cell numbers ascend, then the codes.
fn moves(n: &Net, from: State, out: &mut Vec<Move>) {
    out.clear();
    let p = &n.problem;
    let (w, c) = (p.width, from.cell);
    let marks = |cell: u32| p.marks[cell as usize];
    if c >= w && marks(c - w) & CUT_BELOW == 0 {
        arrivals(n, from, c - w, p.vertical, out);
    }
    if c % w > 0 && marks(c - 1) & CUT_RIGHT == 0 {
        arrivals(n, from, c - 1, p.horizontal, out);
    }
    if c % w + 1 < w && marks(c) & CUT_RIGHT == 0 {
        arrivals(n, from, c + 1, p.horizontal, out);
    }
    if c + w < p.cells() && marks(c) & CUT_BELOW == 0 {
        arrivals(n, from, c + w, p.vertical, out);
    }
}

// The largest closing delay in time on the side after so many FIFOs; none where the skew is above its period.
fn closes_by(n: &Net, fifos: u32) -> Option<u32> {
    (2 * n.period(fifos)).checked_sub(2 * n.problem.skew)
}

// The moves over one wire: each code that the cell takes, within the load limit and the period of the span's side.
fn arrivals(n: &Net, from: State, cell: u32, wire: Wire, out: &mut Vec<Move>) {
    let (p, fifos) = (&n.problem, from.fifos);
    let (latency, Some(most)) = (n.period(fifos), closes_by(n, fifos)) else { return };
    let load = from.load + wire.c;
    let delay = from.delay + wire.r * (2 * from.load + wire.c);
    if load > p.limit || delay > most {
        return;
    }
    let between = cell != p.source && cell != p.sink;
    let closes = |gate: Register| delay + 2 * (gate.r * load + gate.k) <= most;
    out.push(Move { visit: (cell, 0), latency: 0, next: Some(State { cell, load, delay, fifos }) });
    if between && p.marks[cell as usize] & BLOCKED == 0 {
        for (i, b) in p.buffers.iter().enumerate() {
            let next = State { cell, load: b.c, delay: delay + 2 * (b.r * load + b.k), fifos };
            if next.load <= p.limit && next.delay <= most {
                out.push(Move { visit: (cell, i as u32 + 1), latency: 0, next: Some(next) });
            }
        }
    }
    if cell == p.source && fifos == 1 && closes(p.register) {
        out.push(Move { visit: (cell, REGISTER), latency, next: None });
    }
    if !between || !p.takes_register(cell) {
        return;
    }
    if closes(p.register) {
        let next = State { cell, load: p.register.c, delay: 2 * p.register.setup, fifos };
        out.push(Move { visit: (cell, REGISTER), latency, next: Some(next) });
    }
    let starts = closes_by(n, 1).is_some_and(|most| 2 * n.fifo.setup <= most);
    if fifos == 0 && closes(n.fifo) && n.fifo.c <= p.limit && starts {
        let next = State { cell, load: n.fifo.c, delay: 2 * n.fifo.setup, fifos: 1 };
        out.push(Move { visit: (cell, FIFO), latency, next: Some(next) });
    }
}

// A search that has found a route.
pub struct Found<'a> {
    net: &'a Net,
    met: Met,
    settled: Vec<usize>, // the states with labels below the route's, in their order
    best: Label,
}

// Follows at most so many states. None: no legal route exists.
pub fn search(n: &Net, most: usize) -> Result<Option<Found<'_>>, TooLarge> {
    let g = n.problem.register;
    let start = State { cell: n.problem.sink, load: g.c, delay: 2 * g.setup, fifos: 0 };
    if start.load > n.problem.limit || closes_by(n, 0).is_none_or(|most| start.delay > most) {
        return Ok(None);
    }
    let mut met = Met { states: Vec::new(), labels: Vec::new(), slots: vec![0; 256] };
    let (mut heap, mut settled, mut list, mut best) = (BinaryHeap::new(), Vec::new(), Vec::new(), None);
    let zero = Label { latency: 0, steps: 0 };
    met.improve(start, zero);
    heap.push(Reverse((zero, 0)));
    while let Some(Reverse((label, at))) = heap.pop() {
        if best.is_some_and(|best| best <= label) {
            break;
        }
        if met.labels[at] != label {
            continue; // met again with less
        }
        settled.push(at);
        if met.states.len() > most {
            return Err(TooLarge);
        }
        moves(n, met.states[at], &mut list);
        for m in &list {
            let after = label.after(m);
            match m.next {
                None => best = Some(best.map_or(after, |best: Label| best.min(after))),
                Some(next) => {
                    if let Some(to) = met.improve(next, after) {
                        heap.push(Reverse((after, to)));
                    }
                }
            }
        }
    }
    Ok(best.map(|best| Found { net: n, met, settled, best }))
}

impl Found<'_> {
    pub fn latency(&self) -> u32 {
        self.best.latency
    }

    pub fn steps(&self) -> u32 {
        self.best.steps
    }

    // A move of a best route's list: it leads to a state that is met just then and can go on, or ends the route then.
    fn keeps(&self, good: &[bool], at: usize, m: &Move) -> bool {
        let after = self.met.labels[at].after(m);
        match m.next {
            None => after == self.best,
            Some(next) => self.met.place(next).is_some_and(|to| good[to] && self.met.labels[to] == after),
        }
    }

    // The first route in written order.
    pub fn route(&self) -> Vec<Visit> {
        let mut list = Vec::new();
        let mut good = vec![false; self.met.states.len()];
        for &at in self.settled.iter().rev() {
            moves(self.net, self.met.states[at], &mut list);
            good[at] = list.iter().any(|m| self.keeps(&good, at, m));
        }
        let mut route = vec![(self.net.problem.sink, REGISTER)];
        let mut at = 0;
        loop {
            moves(self.net, self.met.states[at], &mut list);
            let m = list.iter().find(|m| self.keeps(&good, at, m)).expect("a best route goes on");
            route.push(m.visit);
            match m.next {
                None => return route,
                Some(next) => at = self.met.place(next).unwrap(),
            }
        }
    }

    // The numbers of sink registers (0 to 63) with which a route has the least latency, and (by steps) also the fewest
    // steps. A route of least latency meets its states with their least latency; each state gets the numbers with which
    // it is met so, until nothing changes.
    pub fn splits(&self, by_steps: bool) -> Vec<u32> {
        let tight = |a: Label, b: Label| a.latency == b.latency && (!by_steps || a.steps == b.steps);
        let mut numbers = vec![0u64; self.met.states.len()]; // bit k: k registers
        let (mut ends, mut list, mut changed) = (0u64, Vec::new(), true);
        numbers[0] = 1;
        while changed {
            changed = false;
            for &at in &self.settled {
                moves(self.net, self.met.states[at], &mut list);
                for m in &list {
                    let after = self.met.labels[at].after(m);
                    let of_sink = m.visit.1 == REGISTER && self.met.states[at].fifos == 0;
                    let more = numbers[at] << of_sink as u32;
                    match m.next.map(|next| self.met.place(next).unwrap()) {
                        None if tight(after, self.best) => ends |= more,
                        Some(to) if tight(after, self.met.labels[to]) && more & !numbers[to] != 0 => {
                            numbers[to] |= more;
                            changed = true;
                        }
                        _ => {}
                    }
                }
            }
        }
        (0..64).filter(|&k| ends >> k & 1 == 1).collect()
    }
}

// The best route of a net that has passed the checks; None when no legal route exists.
pub fn best(n: &Net, most: usize) -> Result<Option<Vec<Visit>>, TooLarge> {
    Ok(search(n, most)?.map(|found| found.route()))
}
