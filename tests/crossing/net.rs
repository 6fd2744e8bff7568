// A net between two clocks: document 01's rules with one FIFO on the route, by requests C-15 to C-17 of document 02.

use crate::rules::{Fault, Problem, ReadLast, Register, Visit, REGISTER};

pub const FIFO: u32 = 8; // gate code

// The problem's period is the sink's.
#[derive(Clone, Debug, Default, PartialEq)]
pub struct Net {
    pub problem: Problem,
    pub source_period: u32,
    pub fifo: Register,
}

// A span: the FIFOs passed before it closes (0: it is on the sink's side) and the delay at which it closes, with twice
// the skew.
#[derive(Clone, Copy, Debug, PartialEq)]
pub struct Span {
    pub fifos: u32,
    pub closing: u64,
}

#[derive(Clone, Debug, PartialEq)]
pub struct Measured {
    pub spans: Vec<Span>,
    pub greatest_load: u32,
}

#[derive(Clone, Copy, Debug, PartialEq)]
pub struct Figures {
    pub source_registers: u32,
    pub sink_registers: u32,
    pub steps: u32,
    pub latency: u64,
    pub slack: u64,
}

impl Figures {
    pub fn numbers(&self) -> [u64; 5] {
        let [source, sink, steps] = [self.source_registers, self.sink_registers, self.steps].map(u64::from);
        [source, sink, steps, self.latency, self.slack]
    }
}

fn in_range(period: u32) -> bool {
    (1..=30_000).contains(&period)
}

impl Net {
    // The same net by the rules of now, or of before C-17.
    pub fn by(&self, read_last: ReadLast) -> Net {
        Net { problem: Problem { read_last, ..self.problem.clone() }, ..self.clone() }
    }

    // The period that a span closes against.
    pub fn period(&self, fifos: u32) -> u32 {
        if fifos == 0 {
            self.problem.period
        } else {
            self.source_period
        }
    }

    // The FIFO stands where a register may.
    pub fn site(&self, cell: u32, code: u32) -> bool {
        self.problem.site(cell, if code == FIFO { REGISTER } else { code })
    }

    // The gate that closes a span.
    fn closer(&self, code: u32) -> Option<Register> {
        match code {
            REGISTER => Some(self.problem.register),
            FIFO => Some(self.fifo),
            _ => None,
        }
    }

    // Refusal 4: the place of the first number outside its range. The source's period comes first, the skew after the
    // sink's, the FIFO after the register; a buffer has its own place behind.
    pub fn fault(&self) -> Option<String> {
        if !in_range(self.source_period) {
            return Some("1".to_string());
        }
        let place = match self.problem.fault() {
            Some(Fault::Period) => "2",
            Some(Fault::Skew) => "3",
            Some(Fault::Limit) => "4",
            Some(Fault::Horizontal) => "5",
            Some(Fault::Vertical) => "6",
            Some(Fault::Register) => "7",
            _ if self.fifo.out_of_range() => "8",
            Some(Fault::Count) => "9",
            Some(Fault::Buffer(place)) => return Some(format!("10 {place}")),
            None => return None,
        };
        Some(place.to_string())
    }

    // The figures of a legal route.
    pub fn figures(&self, route: &[Visit]) -> Figures {
        let measured = legal(self, route).expect("a legal route");
        let at = route.iter().position(|visit| visit.1 == FIFO).expect("a FIFO");
        let registers = |part: &[Visit]| part.iter().filter(|visit| visit.1 == REGISTER).count() as u32 - 1;
        let (sink_registers, source_registers) = (registers(&route[..at]), registers(&route[at..]));
        Figures {
            source_registers,
            sink_registers,
            steps: route.len() as u32 - 1,
            latency: self.latency(source_registers, sink_registers),
            slack: measured.spans.iter().map(|span| self.slack(span)).min().expect("a span"),
        }
    }

    pub fn latency(&self, source_registers: u32, sink_registers: u32) -> u64 {
        let part = |period: u32, registers: u32| period as u64 * (registers as u64 + 1);
        part(self.source_period, source_registers) + part(self.problem.period, sink_registers)
    }

    // The spare half-ticks of a span, by its own period.
    pub fn slack(&self, span: &Span) -> u64 {
        2 * self.period(span.fifos) as u64 - span.closing
    }
}

// The definition of a legal route, on a whole list of visits. None: not legal.
pub fn legal(n: &Net, route: &[Visit]) -> Option<Measured> {
    let p = &n.problem;
    let last = route.len().checked_sub(1)?;
    if last == 0 || route[0] != (p.sink, REGISTER) || route[last] != (p.source, REGISTER) {
        return None;
    }
    let drive = |r: u32, k: u32, load: u32| 2 * (r as u64 * load as u64 + k as u64);
    let (mut load, mut delay, mut fifos) = (p.register.c, 2 * p.register.setup as u64, 0);
    let mut measured = Measured { spans: Vec::new(), greatest_load: load };
    for i in 1..=last {
        if load > p.limit {
            return None; // after the gate before
        }
        let (cell, code) = route[i];
        let wire = p.wire(route[i - 1].0, cell)?;
        delay += wire.r as u64 * (2 * load as u64 + wire.c as u64);
        load += wire.c;
        measured.greatest_load = measured.greatest_load.max(load);
        if load > p.limit || (i < last && !n.site(cell, code)) {
            return None;
        }
        if let Some(gate) = n.closer(code) {
            let closing = delay + drive(gate.r, gate.k, load) + 2 * p.skew as u64;
            if closing > 2 * n.period(fifos) as u64 {
                return None;
            }
            measured.spans.push(Span { fifos, closing });
            (load, delay) = (gate.c, 2 * gate.setup as u64);
            fifos += (code == FIFO) as u32;
        } else if code != 0 {
            let b = p.buffers[code as usize - 1];
            (load, delay) = (b.c, delay + drive(b.r, b.k, load));
        }
        if i < last {
            measured.greatest_load = measured.greatest_load.max(load);
        }
    }
    (fifos == 1).then_some(measured)
}
