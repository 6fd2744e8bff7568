// The rules of documents 01 and 02, read position by position: the problem, what a legal route is, and the checks before
// a route.

pub const REGISTER: u32 = 7; // gate code

pub const BLOCKED: u32 = 1;
pub const TAP: u32 = 2;
pub const CUT_RIGHT: u32 = 4;
pub const CUT_BELOW: u32 = 8;

// Which rule is read last on a cell with marks 1 and 2.
#[derive(Clone, Copy, Debug, Default, PartialEq)]
pub enum ReadLast {
    #[default]
    Blocked, // it takes no gate
    Tap, // it takes a register, or a FIFO: before C-17
}

#[derive(Clone, Copy, Debug, Default, PartialEq)]
pub struct Wire {
    pub r: u32,
    pub c: u32,
}

#[derive(Clone, Copy, Debug, Default, PartialEq)]
pub struct Buffer {
    pub r: u32,
    pub k: u32,
    pub c: u32,
}

#[derive(Clone, Copy, Debug, Default, PartialEq)]
pub struct Register {
    pub r: u32,
    pub k: u32,
    pub c: u32,
    pub setup: u32,
}

impl Register {
    pub fn out_of_range(&self) -> bool {
        self.r > 255 || self.k > 1_000 || self.c > 63 || self.setup > 30_000
    }
}

// A job's numbers, in range or not.
#[derive(Clone, Debug, Default, PartialEq)]
pub struct Problem {
    pub width: u32,
    pub height: u32,
    pub marks: Vec<u32>,
    pub register: Register,
    pub horizontal: Wire,
    pub vertical: Wire,
    pub period: u32,
    pub skew: u32,
    pub limit: u32,
    pub source: u32,
    pub sink: u32,
    pub buffers: Vec<Buffer>,
    pub read_last: ReadLast,
}

pub type Visit = (u32, u32); // cell, gate code

#[derive(Clone, Copy, Debug, PartialEq)]
pub enum Fault {
    Period,
    Skew,
    Limit,
    Horizontal,
    Vertical,
    Register,
    Count,
    Buffer(usize),
}

impl Problem {
    pub fn cells(&self) -> u32 {
        self.width * self.height
    }

    // The uncut wire between two cells, if they are neighbours.
    pub fn wire(&self, a: u32, b: u32) -> Option<Wire> {
        let (low, high) = if a < b { (a, b) } else { (b, a) };
        if high >= self.cells() {
            return None;
        }
        let (low_row, low_column) = (low / self.width, low % self.width);
        let (high_row, high_column) = (high / self.width, high % self.width);
        let marks = self.marks[low as usize];
        if low_row == high_row && low_column + 1 == high_column && marks & CUT_RIGHT == 0 {
            return Some(self.horizontal);
        }
        if low_column == high_column && low_row + 1 == high_row && marks & CUT_BELOW == 0 {
            return Some(self.vertical);
        }
        None
    }

    pub fn is_end(&self, cell: u32) -> bool {
        cell == self.source || cell == self.sink
    }

    pub fn has_both_marks(&self, cell: u32) -> bool {
        self.marks[cell as usize] & (BLOCKED | TAP) == BLOCKED | TAP
    }

    // May a register, or a FIFO, stand on this cell by its marks?
    pub fn takes_register(&self, cell: u32) -> bool {
        let marks = self.marks[cell as usize];
        marks & TAP != 0 && (marks & BLOCKED == 0 || self.read_last == ReadLast::Tap)
    }

    // May this gate code stand at this cell, between the ends of a route?
    pub fn site(&self, cell: u32, code: u32) -> bool {
        match code {
            0 => true,
            _ if self.is_end(cell) => false,
            REGISTER => self.takes_register(cell),
            _ => code as usize <= self.buffers.len() && self.marks[cell as usize] & BLOCKED == 0,
        }
    }

    // Refusal 3: a byte above 15, a cut wire past the last column or the last row.
    pub fn invalid_marks(&self) -> bool {
        (0..self.cells()).any(|cell| {
            let marks = self.marks[cell as usize];
            let last_column = cell % self.width == self.width - 1;
            let last_row = cell / self.width == self.height - 1;
            marks > 15 || (last_column && marks & CUT_RIGHT != 0) || (last_row && marks & CUT_BELOW != 0)
        })
    }

    // Refusal 4: the first number outside its range.
    pub fn fault(&self) -> Option<Fault> {
        let wire_fails = |w: Wire| w.r > 255 || w.c > 63;
        if self.period < 1 || self.period > 30_000 {
            return Some(Fault::Period);
        }
        if self.skew > 30_000 {
            return Some(Fault::Skew);
        }
        if self.limit > 63 {
            return Some(Fault::Limit);
        }
        if wire_fails(self.horizontal) {
            return Some(Fault::Horizontal);
        }
        if wire_fails(self.vertical) {
            return Some(Fault::Vertical);
        }
        if self.register.out_of_range() {
            return Some(Fault::Register);
        }
        if self.buffers.len() > 6 {
            return Some(Fault::Count);
        }
        for (place, b) in self.buffers.iter().enumerate() {
            if b.r > 255 || b.k > 1_000 || b.c > 63 {
                return Some(Fault::Buffer(place + 1));
            }
        }
        None
    }

    // Refusal 5: an end outside the plan, or both the same.
    pub fn ends_fail(&self) -> bool {
        self.source >= self.cells() || self.sink >= self.cells() || self.source == self.sink
    }
}

pub fn registers(route: &[Visit]) -> u32 {
    let sevens = route.iter().filter(|visit| visit.1 == REGISTER).count() as u32;
    sevens - 2
}

// What a legal route comes to: the delay at which each register and the source close, with twice the skew, and the
// greatest load met.
#[derive(Clone, Debug, PartialEq)]
pub struct Measured {
    pub closings: Vec<u64>,
    pub greatest_load: u32,
}

// Which of a route's spans has the smallest spare figure.
pub const TIGHTEST: [&str; 4] = ["first", "between", "last", "not only one"];

impl Measured {
    // The spare half-ticks: the smallest over the spans of 2T less the closing delay and twice the skew.
    pub fn slack(&self, p: &Problem) -> u64 {
        self.closings.iter().map(|&closing| 2 * p.period as u64 - closing).min().expect("the source closes a span")
    }

    // By its name in TIGHTEST.
    pub fn tightest(&self) -> &'static str {
        let slowest = self.closings.iter().max().unwrap();
        let mut spans = (0..self.closings.len()).filter(|&at| self.closings[at] == *slowest);
        TIGHTEST[match (spans.next().unwrap(), spans.next()) {
            (_, Some(_)) => 3,
            (0, _) => 0,
            (at, _) if at + 1 == self.closings.len() => 2,
            _ => 1,
        }]
    }
}

// What the skew changes.
pub const BY_SKEW: [&str; 3] =
    ["none, a route without it", "more registers than without it", "no more than without it"];

// By its name in BY_SKEW: the registers of the route with the skew, None where there is none, and of the one without.
pub fn by_skew(with: Option<u32>, without: u32) -> &'static str {
    BY_SKEW[with.map_or(0, |with| if with > without { 1 } else { 2 })]
}

// The definition of a legal route, on a whole list of visits. None: not legal.
pub fn legal(p: &Problem, route: &[Visit]) -> Option<Measured> {
    let last = route.len().checked_sub(1)?;
    if last == 0 || route[0] != (p.sink, REGISTER) || route[last] != (p.source, REGISTER) {
        return None;
    }
    let mut load = p.register.c;
    let mut delay = 2 * p.register.setup as u64;
    let mut measured = Measured { closings: Vec::new(), greatest_load: load };
    if load > p.limit {
        return None;
    }
    for i in 1..route.len() {
        let (cell, code) = route[i];
        let wire = p.wire(route[i - 1].0, cell)?;
        delay += wire.r as u64 * (2 * load as u64 + wire.c as u64);
        load += wire.c;
        measured.greatest_load = measured.greatest_load.max(load);
        if load > p.limit {
            return None;
        }
        if i < last && !p.site(cell, code) {
            return None;
        }
        if code == REGISTER {
            let closing = delay + 2 * (p.register.r as u64 * load as u64 + p.register.k as u64) + 2 * p.skew as u64;
            if closing > 2 * p.period as u64 {
                return None;
            }
            measured.closings.push(closing);
            load = p.register.c;
            delay = 2 * p.register.setup as u64;
        } else if code != 0 {
            let b = p.buffers[code as usize - 1];
            delay += 2 * (b.r as u64 * load as u64 + b.k as u64);
            load = b.c;
        }
        if i < last {
            measured.greatest_load = measured.greatest_load.max(load);
            if load > p.limit {
                return None;
            }
        }
    }
    Some(measured)
}
