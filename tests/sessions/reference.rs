// Document 01's reference model of a session (its ledger): the opening plan and the standing moves. It is fed the opening and the calls, and
// sees no answer, no record, no journal and no later plan.

use crate::plan::invalid_mark;

const MOST: usize = 256; // moves that may stand
const USED: usize = 1_024; // bytes of the history

#[derive(Clone)]
pub struct Reference {
    pub width: u32,
    pub height: u32,
    pub opening: Vec<u8>,
    pub standing: Vec<(u32, u8)>, // cell, marks
}

impl Reference {
    // For an opening that answers 0.
    pub fn new(width: u32, height: u32, opening: &[u8]) -> Reference {
        Reference { width, height, opening: opening.to_vec(), standing: Vec::new() }
    }

    pub fn set(&mut self, cell: u32, marks: u8) -> u32 {
        if cell as usize >= self.opening.len() {
            return 14;
        }
        if invalid_mark(self.width, self.height, cell, marks) {
            return 3;
        }
        if self.standing.len() == MOST {
            return 11;
        }
        self.standing.push((cell, marks));
        0
    }

    pub fn undo(&mut self) -> u32 {
        match self.standing.pop() {
            None => 12,
            Some(_) => 0,
        }
    }

    pub fn depth(&self) -> u32 {
        self.standing.len() as u32
    }

    // The opening plan with the standing moves laid over it, and the history.
    pub fn state(&self) -> (Vec<u8>, Vec<u8>) {
        let mut plan = self.opening.clone();
        let mut history = Vec::with_capacity(USED);
        for &(cell, marks) in &self.standing {
            history.extend([cell as u8, (cell >> 8) as u8, plan[cell as usize], marks]);
            plan[cell as usize] = marks;
        }
        history.resize(USED, 0);
        (plan, history)
    }
}
