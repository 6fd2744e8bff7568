//! The proved route calls, search, verdict and reasons: `bench_entry`, `bench_crossing`, `bench_search`, `bench_judge` and
//! `bench_explain` of crates/bench_entry, linked from target/staticlib/libbench_entry.a.

use crate::problem::{Crossing, Problem};

#[link(name = "bench_entry", kind = "static")]
unsafe extern "C" {
    fn bench_entry(
        plan: *const u8,
        plan_len: usize,
        width: u16,
        height: u16,
        tables: *const u16,
        tables_len: usize,
        buffers: *const u16,
        buffers_len: usize,
        source: u16,
        sink: u16,
        scratch: *mut u16,
        scratch_len: usize,
        visits: *mut u16,
        visits_len: usize,
        figures: *mut u32,
        figures_len: usize,
    ) -> u16;

    fn bench_crossing(
        plan: *const u8,
        plan_len: usize,
        width: u16,
        height: u16,
        tables: *const u16,
        tables_len: usize,
        clocks: *const u16,
        clocks_len: usize,
        buffers: *const u16,
        buffers_len: usize,
        source: u16,
        sink: u16,
        scratch: *mut u16,
        scratch_len: usize,
        visits: *mut u16,
        visits_len: usize,
        figures: *mut u32,
        figures_len: usize,
    ) -> u16;

    fn bench_search(
        plan: *const u8,
        plan_len: usize,
        width: u16,
        height: u16,
        tables: *const u16,
        tables_len: usize,
        buffers: *const u16,
        buffers_len: usize,
        source: u16,
        sink: u16,
        scratch: *mut u16,
        scratch_len: usize,
        figures: *mut u32,
        figures_len: usize,
    ) -> u16;

    fn bench_judge(
        plan: *const u8,
        plan_len: usize,
        width: u16,
        height: u16,
        tables: *const u16,
        tables_len: usize,
        buffers: *const u16,
        buffers_len: usize,
        source: u16,
        sink: u16,
        list: *const u16,
        list_len: usize,
        found: *mut u64,
        found_len: usize,
    ) -> u16;

    fn bench_explain(
        plan: *const u8,
        plan_len: usize,
        width: u16,
        height: u16,
        tables: *const u16,
        tables_len: usize,
        buffers: *const u16,
        buffers_len: usize,
        source: u16,
        sink: u16,
        scratch: *mut u16,
        scratch_len: usize,
        told: *mut u32,
        told_len: usize,
    ) -> u16;
}

#[derive(Clone, Copy, PartialEq, Debug)]
pub struct Answer {
    pub number: u16,
    pub registers: u32,
    pub steps: u32,
    pub latency: u32,
    /// spare half-ticks
    pub slack: u32,
}

/// An answer to a net between two clocks.
#[derive(Clone, Copy, PartialEq, Debug)]
pub struct Crossed {
    pub number: u16,
    pub source_registers: u32,
    pub sink_registers: u32,
    pub steps: u32,
    pub latency: u32,
    /// spare half-ticks
    pub slack: u32,
}

/// A verdict as the entry tells it.
#[derive(Clone, Copy, PartialEq, Debug)]
pub struct Found {
    pub number: u16,
    /// accepted, the visit at fault, the fault's place, the place of refusal 4, the spare half-ticks or the miss
    pub words: [u64; 5],
}

/// Why there is no route, as the entry tells it.
#[derive(Clone, Copy, PartialEq, Debug)]
pub struct Why {
    pub number: u16,
    /// the reason's place, the smallest period, the place of refusal 4, 0, 0
    pub words: [u32; 5],
}

/// What is lent to the call, once for all calls.
pub struct Ours {
    pub scratch: Vec<u16>,
    visits: Vec<u16>,
    tables: [u16; 11],
    clocks: [u16; 5],
    buffers: Vec<u16>,
}

impl Ours {
    pub fn new() -> Ours {
        Ours {
            scratch: vec![0; 512 * 1024 + 1],
            visits: vec![0; 1 << 16],
            tables: [0; 11],
            clocks: [0; 5],
            buffers: Vec::new(),
        }
    }

    /// Puts the tables into words; not part of what is timed.
    pub fn load(&mut self, p: &Problem) {
        let (g, h, v) = (p.register, p.horizontal, p.vertical);
        self.tables = [g.r, g.k, g.c, g.setup, h.r, h.c, v.r, v.c, p.period, p.skew, p.limit];
        self.buffers = p.buffers.iter().flat_map(|b| [b.r, b.k, b.c]).collect();
    }

    /// The same for a net between two clocks.
    pub fn load_crossing(&mut self, p: &Problem, x: &Crossing) {
        self.load(p);
        let f = x.fifo;
        self.clocks = [x.source_period, f.r, f.k, f.c, f.setup];
    }

    pub fn route(&mut self, p: &Problem) -> Answer {
        self.call(p, self.visits.len())
    }

    /// With no visits lent: the figures come with number 8, and no route is written.
    pub fn no_room(&mut self, p: &Problem) -> Answer {
        self.call(p, 0)
    }

    pub fn crossing(&mut self, p: &Problem) -> Crossed {
        self.call_crossing(p, self.visits.len())
    }

    /// With no visits lent.
    pub fn crossing_no_room(&mut self, p: &Problem) -> Crossed {
        self.call_crossing(p, 0)
    }

    /// The words of the route of so many steps that an answer of 0 has written.
    pub fn written(&self, steps: u32) -> &[u16] {
        &self.visits[..2 * (steps as usize + 1)]
    }

    /// By the search alone, no route made: registers and steps, the other figures 0. It leaves the scratch words as it
    /// has used them.
    pub fn search(&mut self, p: &Problem) -> Answer {
        let mut figures = [9u32; 5];
        let number = unsafe {
            bench_search(
                p.marks.as_ptr(),
                p.marks.len(),
                p.width as u16,
                p.height as u16,
                self.tables.as_ptr(),
                self.tables.len(),
                self.buffers.as_ptr(),
                self.buffers.len(),
                p.source as u16,
                p.sink as u16,
                self.scratch.as_mut_ptr(),
                self.scratch.len(),
                figures.as_mut_ptr(),
                figures.len(),
            )
        };
        answer(number, figures)
    }

    /// The verdict on a list.
    pub fn judge(&self, p: &Problem, list: &[u16]) -> Found {
        let mut words = [9u64; 5];
        let number = unsafe {
            bench_judge(
                p.marks.as_ptr(),
                p.marks.len(),
                p.width as u16,
                p.height as u16,
                self.tables.as_ptr(),
                self.tables.len(),
                self.buffers.as_ptr(),
                self.buffers.len(),
                p.source as u16,
                p.sink as u16,
                list.as_ptr(),
                list.len(),
                words.as_mut_ptr(),
                words.len(),
            )
        };
        Found { number, words }
    }

    /// Why there is no route.
    pub fn explain(&mut self, p: &Problem) -> Why {
        let mut words = [9u32; 5];
        let number = unsafe {
            bench_explain(
                p.marks.as_ptr(),
                p.marks.len(),
                p.width as u16,
                p.height as u16,
                self.tables.as_ptr(),
                self.tables.len(),
                self.buffers.as_ptr(),
                self.buffers.len(),
                p.source as u16,
                p.sink as u16,
                self.scratch.as_mut_ptr(),
                self.scratch.len(),
                words.as_mut_ptr(),
                words.len(),
            )
        };
        Why { number, words }
    }

    fn call(&mut self, p: &Problem, room: usize) -> Answer {
        let mut figures = [9u32; 5];
        let number = unsafe {
            bench_entry(
                p.marks.as_ptr(),
                p.marks.len(),
                p.width as u16,
                p.height as u16,
                self.tables.as_ptr(),
                self.tables.len(),
                self.buffers.as_ptr(),
                self.buffers.len(),
                p.source as u16,
                p.sink as u16,
                self.scratch.as_mut_ptr(),
                self.scratch.len(),
                self.visits.as_mut_ptr(),
                room,
                figures.as_mut_ptr(),
                figures.len(),
            )
        };
        answer(number, figures)
    }

    fn call_crossing(&mut self, p: &Problem, room: usize) -> Crossed {
        let mut figures = [9u32; 6];
        let number = unsafe {
            bench_crossing(
                p.marks.as_ptr(),
                p.marks.len(),
                p.width as u16,
                p.height as u16,
                self.tables.as_ptr(),
                self.tables.len(),
                self.clocks.as_ptr(),
                self.clocks.len(),
                self.buffers.as_ptr(),
                self.buffers.len(),
                p.source as u16,
                p.sink as u16,
                self.scratch.as_mut_ptr(),
                self.scratch.len(),
                self.visits.as_mut_ptr(),
                room,
                figures.as_mut_ptr(),
                figures.len(),
            )
        };
        let [source_registers, sink_registers, steps, latency, _, slack] = figures;
        Crossed { number, source_registers, sink_registers, steps, latency, slack }
    }
}

/// The answer that an entry has told in five words.
fn answer(number: u16, [registers, steps, latency, _, slack]: [u32; 5]) -> Answer {
    Answer { number, registers, steps, latency, slack }
}

/// The registers, or none; any other refusal is a fault of the benchmark.
pub fn registers(a: Answer) -> Option<u32> {
    match a.number {
        0 => Some(a.registers),
        7 => None,
        n => panic!("the route call refused with {n}"),
    }
}

/// The latency, or none, likewise.
pub fn latency(a: Crossed) -> Option<u32> {
    match a.number {
        0 => Some(a.latency),
        7 => None,
        n => panic!("the crossing call refused with {n}"),
    }
}

/// The number of the same answer where no visits are lent.
fn number_without_room(number: u16) -> u16 {
    if number == 0 { 8 } else { number }
}

/// The same answer where no visits are lent.
pub fn without_room(a: Answer) -> Answer {
    Answer { number: number_without_room(a.number), ..a }
}

/// What the search alone tells of it.
pub fn searched(a: Answer) -> Answer {
    Answer { latency: 0, slack: 0, ..a }
}

pub fn crossing_without_room(a: Crossed) -> Crossed {
    Crossed { number: number_without_room(a.number), ..a }
}
