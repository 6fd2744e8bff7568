//! Route lists of a given length for the verdict, each with its problem and the verdict that it must get. Lengths are even.

use crate::judge::Fault;
use crate::plans::{self, FULL, Random};
use crate::problem::{Problem, Register, TAP, Wire};

/// A list of cell, code, cell, code, .. and what its verdict must be: accepted, or the first visit at fault.
pub struct Walk {
    pub problem: Problem,
    pub list: Vec<u16>,
    pub expected: Option<(usize, Fault)>,
}

/// The open plan, taps everywhere, with ends an odd number of steps apart.
fn open() -> Problem {
    let mut p = plans::open(FULL, 3000);
    p.sink -= 1;
    p
}

fn distance(p: &Problem, a: usize, b: usize) -> usize {
    (a / p.width).abs_diff(b / p.width) + (a % p.width).abs_diff(b % p.width)
}

/// `count` cells from the sink to the source of an uncut plan: `next` chooses among the neighbours, as long as the source
/// can still be reached.
fn cells(p: &Problem, count: usize, mut next: impl FnMut(usize, &[usize]) -> usize) -> Vec<usize> {
    let mut all = vec![p.sink];
    for left in (0..count - 1).rev() {
        let from = all[all.len() - 1];
        let near: Vec<usize> = p.neighbours(from).into_iter().flatten().collect();
        let chosen = next(from, &near);
        let nearer = *near.iter().min_by_key(|&&c| distance(p, c, p.source)).unwrap();
        all.push(if distance(p, chosen, p.source) <= left { chosen } else { nearer });
    }
    all
}

/// Cells back and forth along the rows, down to the last one and up again.
fn sweep(p: &Problem, count: usize) -> Vec<usize> {
    let mut up = true;
    cells(p, count, |from, near| {
        let (row, column) = (from / p.width, from % p.width);
        let at_end = column == if row % 2 == 0 { p.width - 1 } else { 0 };
        let at_start = column == if row % 2 == 0 { 0 } else { p.width - 1 };
        if up && row == 0 && at_start {
            up = false;
        }
        if !up && row == p.height - 1 && at_end {
            up = true;
        }
        let to = match (up, at_start, at_end) {
            (true, true, _) => from - p.width,
            (false, _, true) => from + p.width,
            _ if up == (row % 2 == 0) => from - 1,
            _ => from + 1,
        };
        if near.contains(&to) { to } else { near[0] }
    })
}

/// Cells and codes as words; the ends have code 7.
fn words(cells: &[usize], code: impl Fn(usize) -> u16) -> Vec<u16> {
    let last = cells.len() - 1;
    cells.iter().enumerate().flat_map(|(i, &c)| [c as u16, if i == 0 || i == last { 7 } else { code(i) }]).collect()
}

/// Back and forth over wires without resistance and load, no gate.
pub fn free(count: usize) -> Walk {
    let mut problem = open();
    (problem.horizontal, problem.vertical) = (Wire { r: 0, c: 0 }, Wire { r: 0, c: 0 });
    let list = words(&sweep(&problem, count), |_| 0);
    Walk { problem, list, expected: None }
}

/// Codes on these cells: a register now and then, buffers between, none at the ends' cells.
fn gated(problem: Problem, cells: &[usize], code: impl Fn(usize) -> u16) -> Walk {
    let end = |i: usize| cells[i] == problem.source || cells[i] == problem.sink;
    let list = words(cells, |i| if end(i) { 0 } else { code(i) });
    Walk { problem, list, expected: None }
}

/// The same cells with a register at every fourth visit and a buffer in between, the six in turn.
pub fn regular(count: usize) -> Walk {
    let problem = open();
    let cells = sweep(&problem, count);
    gated(problem, &cells, |i| match i % 4 {
        0 => 7,
        2 => (i / 4 % 6 + 1) as u16,
        _ => 0,
    })
}

/// Cells and codes at random: what no branch predictor learns. A register at one visit in four at least.
pub fn random(count: usize) -> Walk {
    let problem = open();
    let mut x = Random::new(1);
    let cells = cells(&problem, count, |_, near| near[x.below(near.len() as u64) as usize]);
    let codes: Vec<u16> = (0..count)
        .map(|i| if i % 4 == 0 || x.percent(10) { 7 } else { [0, 1 + x.below(6) as u16][x.below(2) as usize] })
        .collect();
    gated(problem, &cells, |i| codes[i])
}

/// The random list with no gate at its last visit.
pub fn bad_end(count: usize) -> Walk {
    let mut w = random(count);
    w.list[2 * count - 1] = 0;
    w.expected = Some((count - 1, Fault::Site));
    w
}

/// One span that passes 2^32 half-ticks, closed by a register where a sum of 32 bits has come round to almost 0; a
/// register at each visit after it. With such a sum the list would be legal.
pub fn overrun(count: usize) -> Walk {
    let mut problem = plans::open(FULL, 30000);
    (problem.width, problem.height, problem.marks) = (4, 1, vec![TAP; 4]);
    (problem.source, problem.sink) = (0, 3);
    problem.register = Register { r: 0, k: 0, c: 63, setup: 0 };
    problem.horizontal = Wire { r: 255, c: 0 };
    let (step, round) = (255 * 2 * 63, 1u64 << 32);
    let times = (count as u64 - 2) * step / round;
    let at = (times * round).div_ceil(step) as usize;
    assert!(times > 0 && at < count - 1 && at as u64 * step % round <= 60000, "no overrun in {count} visits");
    let cells: Vec<usize> = [3].into_iter().chain((1..count - 1).map(|i| 1 + i % 2)).chain([0]).collect();
    let list = words(&cells, |i| if i < at { 0 } else { 7 });
    Walk { problem, list, expected: Some((at, Fault::Period)) }
}
