// The spans of a list of visits, by the arithmetic of documents 01 and 02, apart from the proved code. Delays are in
// half-ticks.

use crate::answer::{joined, wire, Visit};
use crate::job::{Job, CODE_FIFO};

pub const LOWEST: i64 = -1_000_000_000; // the largest miss that is told

pub struct Span {
    pub to: usize,    // place in the list of the register, FIFO or sink where it ends
    pub from: usize,  // and of the register, FIFO or source that drives it
    pub fifos: usize, // passed before its close: with two clocks 0 on the sink's side, 1 on the source's
    pub period: u32,  // T of its side
    pub delay: i64,   // at its close
    pub slack: i64,   // 2T less that and twice the skew, or LOWEST
}

// Load and delay since the end of a span.
struct Stage {
    load: i64,
    delay: i64,
}

impl Stage {
    // After a gate that starts a span, whose last numbers are C and setup.
    fn start(gate: &[u32]) -> Stage {
        Stage { load: gate[2] as i64, delay: 2 * gate[3] as i64 }
    }

    fn over(&self, wire: &[u32]) -> Stage {
        let (r, c) = (wire[0] as i64, wire[1] as i64);
        Stage { load: self.load + c, delay: self.delay + r * (2 * self.load + c) }
    }

    // The delay with that of a gate, whose first numbers are R and K.
    fn driven(&self, gate: &[u32]) -> i64 {
        self.delay + 2 * (gate[0] as i64 * self.load + gate[1] as i64)
    }
}

// The spans that the visits close, from the sink on; or where the visits leave the plan or its tables.
pub fn closed(job: &Job, visits: &[Visit]) -> Result<Vec<Span>, String> {
    if let Some(v) = visits.iter().find(|v| v.cell as u64 >= job.cells()) {
        return Err(format!("it visits cell {}, which is not in the plan", v.cell));
    }
    let mut spans = Vec::new();
    let (mut to, mut fifos) = (0, 0);
    let mut stage = Stage::start(&job.register);
    for (from, pair) in (1..).zip(visits.windows(2)) {
        let (before, Visit { cell, code }) = (pair[0].cell, pair[1]);
        let uncut = wire(job, before, cell).filter(|_| joined(job, before, cell));
        let (_, rightward) = uncut.ok_or_else(|| format!("no wire joins its cells {before} and {cell}"))?;
        stage = stage.over(if rightward { &job.horizontal } else { &job.vertical });
        if code == 0 {
            continue;
        }
        if let Some(gate) = job.closing(code) {
            let (period, delay) = (job.period_after(fifos), stage.driven(gate));
            let slack = (2 * period as i64 - 2 * job.skew as i64 - delay).max(LOWEST);
            spans.push(Span { to, from, fifos, period, delay, slack });
            (to, stage) = (from, Stage::start(gate));
            fifos += (code == CODE_FIFO) as usize;
            continue;
        }
        let found = job.buffers.get(code as usize - 1);
        let buffer = found.ok_or_else(|| format!("it has the gate code {code}"))?;
        stage = Stage { load: buffer[2] as i64, delay: stage.driven(buffer) };
    }
    Ok(spans)
}

// The smallest spare figure; without spans a number that none is.
pub fn least_slack(spans: &[Span]) -> i64 {
    spans.iter().map(|span| span.slack).fold(i64::MAX, i64::min)
}
