//! A route question as both sides get it, with the marks of document 01.

pub const BLOCKED: u8 = 1;
pub const TAP: u8 = 2;
pub const CUT_RIGHT: u8 = 4;
pub const CUT_BELOW: u8 = 8;

#[derive(Clone, Copy)]
pub struct Wire {
    pub r: u16,
    pub c: u16,
}

#[derive(Clone, Copy)]
pub struct Buffer {
    pub r: u16,
    pub k: u16,
    pub c: u16,
}

#[derive(Clone, Copy, Debug)]
pub struct Register {
    pub r: u16,
    pub k: u16,
    pub c: u16,
    pub setup: u16,
}

#[derive(Clone)]
pub struct Problem {
    pub width: usize,
    pub height: usize,
    pub marks: Vec<u8>,
    pub register: Register,
    pub horizontal: Wire,
    pub vertical: Wire,
    pub period: u16,
    pub skew: u16,
    pub limit: u16,
    pub buffers: Vec<Buffer>,
    pub source: usize,
    pub sink: usize,
}

/// What makes a problem a net between two clocks; the problem's own period is then the sink's.
#[derive(Clone, Copy, Debug)]
pub struct Crossing {
    pub source_period: u16,
    pub fifo: Register,
}

impl Problem {
    pub fn cells(&self) -> usize {
        self.width * self.height
    }

    /// Whether a register or FIFO may stand here, between the ends: a tap that is not blocked.
    #[inline(always)]
    pub fn takes_register(&self, cell: usize) -> bool {
        self.marks[cell] & (TAP | BLOCKED) == TAP
    }

    /// The same with all wires of the sink cut.
    pub fn sink_walled_off(&self) -> Problem {
        let mut p = self.clone();
        let marks = [CUT_BELOW, CUT_RIGHT, CUT_RIGHT, CUT_BELOW];
        for (joined, mark) in self.neighbours(self.sink).into_iter().zip(marks) {
            // the mark stands at the left or upper cell of the wire
            if let Some(cell) = joined {
                p.marks[cell.min(self.sink)] |= mark;
            }
        }
        p
    }

    /// The neighbours of a cell over uncut wires: up, left, right, down.
    pub fn neighbours(&self, cell: usize) -> [Option<usize>; 4] {
        let (w, row, column) = (self.width, cell / self.width, cell % self.width);
        [
            (row > 0 && self.marks[cell - w] & CUT_BELOW == 0).then(|| cell - w),
            (column > 0 && self.marks[cell - 1] & CUT_RIGHT == 0).then(|| cell - 1),
            (column + 1 < w && self.marks[cell] & CUT_RIGHT == 0).then_some(cell + 1),
            (row + 1 < self.height && self.marks[cell] & CUT_BELOW == 0).then_some(cell + w),
        ]
    }
}
