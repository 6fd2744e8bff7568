// Exhaustive search for the best route: exact states (cell, load, delay), nothing left out but delays above 2T less
// twice the skew, which no register and no source can close. A state is what the rest of a route depends on; it is
// followed once, the first time that it is met in the order of (registers, steps). A best route never meets a state
// later than that: with the earlier beginning it would be better. There are finitely many states, so the search ends,
// and "none" is said when no state is left to follow.

use crate::rules::{Problem, Visit, Wire, BLOCKED, CUT_BELOW, CUT_RIGHT, REGISTER};

const DELAYS: u32 = 60_001; // half-ticks 0 to 2 × 30,000
const LOADS: u32 = 64;

#[derive(Clone, Copy, PartialEq)]
struct State {
    cell: u32,
    load: u32,
    delay: u32,
}

impl State {
    fn number(self) -> u32 {
        (self.cell * LOADS + self.load) * DELAYS + self.delay
    }
}

// One visit that may follow a state. None: it is the source, and the route ends.
struct Move {
    visit: Visit,
    next: Option<State>,
}

#[derive(Clone, Copy, PartialEq, PartialOrd)]
struct Label {
    registers: u32,
    steps: u32,
}

// The states met, in the order of their labels, with an index by state number.
struct Met {
    states: Vec<State>,
    labels: Vec<Label>,
    slots: Vec<u32>, // place in `states` plus one; 0 is free
}

impl Met {
    fn new() -> Met {
        Met { states: Vec::new(), labels: Vec::new(), slots: vec![0; 256] }
    }

    fn slot(&self, state: State) -> usize {
        let mask = self.slots.len() - 1;
        let mut at = (state.number().wrapping_mul(2_654_435_769) >> 7) as usize & mask;
        while self.slots[at] != 0 && self.states[self.slots[at] as usize - 1] != state {
            at = (at + 1) & mask;
        }
        at
    }

    fn place(&self, state: State) -> Option<usize> {
        match self.slots[self.slot(state)] {
            0 => None,
            found => Some(found as usize - 1),
        }
    }

    fn insert(&mut self, state: State, label: Label) {
        let at = self.slot(state);
        if self.slots[at] != 0 {
            return;
        }
        self.states.push(state);
        self.labels.push(label);
        self.slots[at] = self.states.len() as u32;
        if self.states.len() * 2 > self.slots.len() {
            self.slots = vec![0; self.slots.len() * 2];
            for i in 0..self.states.len() {
                let at = self.slot(self.states[i]);
                self.slots[at] = i as u32 + 1;
            }
        }
    }
}

// The moves from a state, in written order: the neighbours' cell numbers ascend, then the codes.
fn moves(p: &Problem, from: State, out: &mut Vec<Move>) {
    out.clear();
    let w = p.width;
    let c = from.cell;
    let marks = |cell: u32| p.marks[cell as usize];
    if c >= w && marks(c - w) & CUT_BELOW == 0 {
        arrivals(p, from, c - w, p.vertical, out);
    }
    if c % w > 0 && marks(c - 1) & CUT_RIGHT == 0 {
        arrivals(p, from, c - 1, p.horizontal, out);
    }
    if c % w + 1 < w && marks(c) & CUT_RIGHT == 0 {
        arrivals(p, from, c + 1, p.horizontal, out);
    }
    if c + w < p.cells() && marks(c) & CUT_BELOW == 0 {
        arrivals(p, from, c + w, p.vertical, out);
    }
}

// The largest closing delay in time; none where the skew is above T.
fn closes_by(p: &Problem) -> Option<u32> {
    (2 * p.period).checked_sub(2 * p.skew)
}

// The moves over one wire: each code that the cell takes, within the load limit and the period.
fn arrivals(p: &Problem, from: State, cell: u32, wire: Wire, out: &mut Vec<Move>) {
    let Some(most) = closes_by(p) else { return };
    let load = from.load + wire.c;
    let delay = from.delay + wire.r * (2 * from.load + wire.c);
    if load > p.limit || delay > most {
        return;
    }
    let closes = delay + 2 * (p.register.r * load + p.register.k) <= most;
    let between = cell != p.source && cell != p.sink;
    out.push(Move { visit: (cell, 0), next: Some(State { cell, load, delay }) });
    if between && p.marks[cell as usize] & BLOCKED == 0 {
        for (i, b) in p.buffers.iter().enumerate() {
            let after = delay + 2 * (b.r * load + b.k);
            if b.c <= p.limit && after <= most {
                let next = State { cell, load: b.c, delay: after };
                out.push(Move { visit: (cell, i as u32 + 1), next: Some(next) });
            }
        }
    }
    if closes && cell == p.source {
        out.push(Move { visit: (cell, REGISTER), next: None });
    }
    let fresh = State { cell, load: p.register.c, delay: 2 * p.register.setup };
    if closes && between && p.takes_register(cell) && fresh.delay <= most {
        out.push(Move { visit: (cell, REGISTER), next: Some(fresh) });
    }
}

// More states than allowed: no answer.
#[derive(Debug)]
pub struct TooLarge;

// Meets states until the source closes; the label of the whole route, or None when no state is left.
fn explore(p: &Problem, met: &mut Met, most: usize) -> Result<Option<Label>, TooLarge> {
    let mut list = Vec::new();
    let start = State { cell: p.sink, load: p.register.c, delay: 2 * p.register.setup };
    let mut arriving: Vec<(u32, State)> = Vec::new(); // this wave's fresh states, by steps
    if start.load <= p.limit && closes_by(p).is_some_and(|most| start.delay <= most) {
        arriving.push((0, start));
    }
    let mut registers = 0;
    while !arriving.is_empty() {
        let mut following: Vec<(u32, State)> = Vec::new(); // the next wave's
        let mut awaited = vec![false; p.cells() as usize];
        let mut at = met.states.len(); // the first state of this level
        let mut next_arrival = 0;
        let mut steps = 0;
        loop {
            if at == met.states.len() && next_arrival == arriving.len() {
                break;
            }
            if at == met.states.len() {
                steps = steps.max(arriving[next_arrival].0);
            }
            while next_arrival < arriving.len() && arriving[next_arrival].0 == steps {
                met.insert(arriving[next_arrival].1, Label { registers, steps });
                next_arrival += 1;
            }
            let end = met.states.len();
            if end > most {
                return Err(TooLarge);
            }
            steps += 1;
            while at < end {
                moves(p, met.states[at], &mut list);
                for m in &list {
                    match m.next {
                        None => return Ok(Some(Label { registers, steps })),
                        Some(next) if m.visit.1 == REGISTER => {
                            if !awaited[next.cell as usize] {
                                awaited[next.cell as usize] = true;
                                following.push((steps, next));
                            }
                        }
                        Some(next) => met.insert(next, Label { registers, steps }),
                    }
                }
                at += 1;
            }
        }
        arriving = following;
        registers += 1;
    }
    Ok(None)
}

// A move of a best route's list: it leads to a state that is met just then and can go on, or ends the route just then.
fn keeps(met: &Met, good: &[bool], best: Label, at: usize, m: &Move) -> bool {
    let label = met.labels[at];
    match m.next {
        None => label.registers == best.registers && label.steps + 1 == best.steps,
        Some(next) => met.place(next).is_some_and(|to| {
            let more = (m.visit.1 == REGISTER) as u32;
            let then = Label { registers: label.registers + more, steps: label.steps + 1 };
            good[to] && met.labels[to] == then
        }),
    }
}

// The first route in written order among those with the best label.
fn first_written(p: &Problem, met: &Met, best: Label) -> Vec<Visit> {
    let mut list = Vec::new();
    let mut good = vec![false; met.states.len()];
    for at in (0..met.states.len()).rev() {
        moves(p, met.states[at], &mut list);
        good[at] = list.iter().any(|m| keeps(met, &good, best, at, m));
    }
    let mut route = vec![(p.sink, REGISTER)];
    let mut at = 0;
    loop {
        moves(p, met.states[at], &mut list);
        let m = list.iter().find(|m| keeps(met, &good, best, at, m)).expect("a best route goes on");
        route.push(m.visit);
        match m.next {
            None => return route,
            Some(next) => at = met.place(next).unwrap(),
        }
    }
}

// The best route of a problem that has passed the checks; None when no legal route exists.
pub fn best(p: &Problem, most: usize) -> Result<Option<Vec<Visit>>, TooLarge> {
    let mut met = Met::new();
    let label = explore(p, &mut met, most)?;
    Ok(label.map(|label| first_written(p, &met, label)))
}
