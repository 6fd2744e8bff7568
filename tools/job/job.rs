// A job's numbers under their names, and the ranges that documents 01 and 02 give them. A plan text may give two clocks, which
// no job has.

pub const LARGEST: u32 = 65_535; // of any number in a job

pub const REGISTER: [&str; 4] = ["R", "K", "C", "setup"];
pub const WIRE: [&str; 2] = ["R", "C"];
pub const BUFFER: [&str; 3] = ["R", "K", "C"];

pub const SIDE: u32 = 32; // width and height are 1 to this
pub const BUFFERS: usize = 6;
pub const PROGRAM_CELLS: u64 = 128; // the most that the route printer takes
pub const PROGRAM_VISITS: u32 = 1024; // the most that it prints

pub const BLOCKED: u32 = 1;
pub const TAP: u32 = 2;
pub const CUT_RIGHT: u32 = 4;
pub const CUT_BELOW: u32 = 8;
pub const MARKS: u32 = 15; // all four

pub const CODE_REGISTER: u32 = 7;
pub const CODE_FIFO: u32 = 8; // between two clocks

// The range of an element's number, by its name.
pub fn range(name: &str) -> (u32, u32) {
    match name {
        "R" => (0, 255),
        "K" => (0, 1_000),
        "C" => (0, 63),
        _ => (0, 30_000), // setup
    }
}

pub const PERIOD: (u32, u32) = (1, 30_000); // ticks
pub const SKEW: (u32, u32) = (0, 30_000); // ticks
pub const LIMIT: (u32, u32) = (0, 63);

// What a net between two clocks has besides.
#[derive(Default, Debug, PartialEq)]
pub struct Clocks {
    pub source_period: u32,
    pub fifo: Vec<u32>, // as REGISTER
}

#[derive(Default, Debug, PartialEq)]
pub struct Job {
    pub width: u32,
    pub height: u32,
    pub marks: Vec<u32>,
    pub register: Vec<u32>,   // as REGISTER names them
    pub horizontal: Vec<u32>, // as WIRE
    pub vertical: Vec<u32>,
    pub period: u32, // with two clocks the sink's
    pub skew: u32,
    pub limit: u32,
    pub source: u32,
    pub sink: u32,
    pub buffers: Vec<Vec<u32>>, // each as BUFFER
    pub clocks: Option<Clocks>,
}

impl Job {
    pub fn cells(&self) -> u64 {
        self.width as u64 * self.height as u64
    }

    pub fn has_mark(&self, cell: u32, mark: u32) -> bool {
        self.marks[cell as usize] & mark != 0
    }

    // The gate that closes a span and starts the next, by its code: the register, or with two clocks the FIFO.
    pub fn closing(&self, code: u32) -> Option<&[u32]> {
        match (code, &self.clocks) {
            (CODE_REGISTER, _) => Some(&self.register),
            (CODE_FIFO, Some(clocks)) => Some(&clocks.fifo),
            _ => None,
        }
    }

    // The period of a span that closes after so many FIFOs, counted from the sink.
    pub fn period_after(&self, fifos: usize) -> u32 {
        match &self.clocks {
            Some(clocks) if fifos > 0 => clocks.source_period,
            _ => self.period,
        }
    }

    // Whether width and height are within 1 to 32.
    pub fn sides_fit(&self) -> bool {
        (1..=SIDE).contains(&self.width) && (1..=SIDE).contains(&self.height)
    }

    // What is said of sides that do not fit.
    pub fn sides(&self) -> String {
        format!("the plan's width is {} and its height {}; each must be 1 to {SIDE}", self.width, self.height)
    }

    // A cell of the plan as messages show it.
    pub fn place(&self, cell: u32) -> String {
        format!("cell {cell} (row {}, column {})", cell / self.width, cell % self.width)
    }
}
