// Document 01's "Calls and what they leave", on the bytes themselves: for records, plans and journals of any contents.
// Each call lists all that is at fault, in its order; the first decides.

use crate::plan::{self, invalid_mark, Fault};

const USED: usize = 1_024; // bytes of the journal that a session uses
const MOST: u32 = 256; // the greatest depth

#[derive(Clone, Copy, Debug, Default, PartialEq)]
pub struct Record {
    pub width: u32,
    pub height: u32,
    pub depth: u32,
}

#[derive(Clone)]
pub struct Session {
    pub record: Record,
    pub plan: Vec<u8>,
    pub journal: Vec<u8>, // of which `lent` bytes are lent
    pub lent: usize,
}

impl Session {
    fn cells(&self) -> u32 {
        self.record.width * self.record.height
    }

    fn common_faults(&self) -> Vec<Fault> {
        let mut out = plan::faults(self.record.width, self.record.height, &self.plan);
        if self.lent < USED {
            out.push((9, "journal"));
        }
        if self.record.depth > MOST {
            out.push((10, "depth"));
        }
        out
    }

    // The newest entry, where the journal has it.
    pub fn newest(&self) -> Option<usize> {
        let depth = self.record.depth as usize;
        (0 < depth && 4 * depth <= self.lent.min(USED)).then(|| 4 * (depth - 1))
    }

    // Why the newest entry is corrupt: all that holds of the three.
    pub fn corrupt(&self) -> Vec<&'static str> {
        let Some(at) = self.newest() else { return Vec::new() };
        let [low, high, old, new] = [0, 1, 2, 3].map(|i| self.journal[at + i]);
        let cell = low as u32 + 256 * high as u32;
        let mut out = Vec::new();
        if cell >= self.cells() {
            return vec!["cell"];
        }
        if invalid_mark(self.record.width, self.record.height, cell, old) {
            out.push("old marks");
        }
        if self.plan.get(cell as usize).is_some_and(|&marks| marks != new) {
            out.push("new marks");
        }
        out
    }

    pub fn open(&mut self, width: u32, height: u32) -> Vec<Fault> {
        let mut out = plan::faults(width, height, &self.plan);
        if self.lent < USED {
            out.push((9, "journal"));
        }
        self.record = Record::default();
        if out.is_empty() {
            self.record = Record { width, height, depth: 0 };
            self.journal[..USED].fill(0);
        }
        out
    }

    pub fn set(&mut self, cell: u32, marks: u8) -> Vec<Fault> {
        let mut out = self.common_faults();
        if cell >= self.cells() {
            out.push((14, "cell"));
        }
        if invalid_mark(self.record.width, self.record.height, cell, marks) {
            out.push((3, "marks"));
        }
        if self.record.depth == MOST {
            out.push((11, "full"));
        }
        if out.is_empty() {
            let at = 4 * self.record.depth as usize;
            let old = self.plan[cell as usize];
            self.journal[at..at + 4].copy_from_slice(&[cell as u8, (cell >> 8) as u8, old, marks]);
            self.plan[cell as usize] = marks;
            self.record.depth += 1;
        }
        out
    }

    pub fn undo(&mut self) -> Vec<Fault> {
        let mut out = self.common_faults();
        if self.record.depth == 0 {
            out.push((12, "empty"));
        }
        if !self.corrupt().is_empty() {
            out.push((13, "corrupt"));
        }
        if out.is_empty() {
            let at = self.newest().expect("the journal has the newest entry");
            let cell = self.journal[at] as usize + 256 * self.journal[at + 1] as usize;
            self.plan[cell] = self.journal[at + 2];
            self.journal[at..at + 4].fill(0);
            self.record.depth -= 1;
        }
        out
    }
}

// The number that a call gives.
pub fn number(faults: &[Fault]) -> u32 {
    faults.first().map_or(0, |fault| fault.0)
}
