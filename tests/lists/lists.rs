// Lists of visits: walks over the wires, and what is done to a list that is good.

use crate::judge::wire;
use crate::random::Random;
use crate::rules::{Problem, Visit};
use std::collections::VecDeque;

// The cells that an uncut wire joins to a cell.
fn neighbours(p: &Problem, cell: u32) -> Vec<u32> {
    let sides = [cell.checked_sub(p.width), cell.checked_sub(1), Some(cell + 1), Some(cell + p.width)];
    sides.into_iter().flatten().filter(|&to| to < p.cells() && wire(p, cell, to).is_ok()).collect()
}

// Steps from each cell to the source; none where no way leads there.
fn distances(p: &Problem) -> Vec<Option<usize>> {
    let mut out = vec![None; p.cells() as usize];
    let mut next = VecDeque::from([p.source]);
    out[p.source as usize] = Some(0);
    while let Some(cell) = next.pop_front() {
        for to in neighbours(p, cell) {
            if out[to as usize].is_none() {
                out[to as usize] = out[cell as usize].map(|steps| steps + 1);
                next.push_back(to);
            }
        }
    }
    out
}

// The codes that may stand on a cell between the ends.
fn codes(p: &Problem, cell: u32) -> Vec<u32> {
    let marks = p.marks[cell as usize];
    let mut out = vec![0];
    if cell == p.source || cell == p.sink {
        return out;
    }
    if marks & 1 == 0 {
        out.extend(1..=p.buffers.len() as u32);
    }
    if marks & 3 == 2 {
        out.push(7);
    }
    out
}

// One of them; a register, where it may stand, more often than a buffer.
fn gate(r: &mut Random, p: &Problem, cell: u32) -> u32 {
    let allowed = codes(p, cell);
    let last = allowed[allowed.len() - 1];
    if last == 7 && r.chance(40) {
        last
    } else {
        r.pick(&allowed)
    }
}

// How a walk goes.
pub struct Walk {
    pub visits: usize,    // at most
    pub wandering: usize, // visits before it heads for the source
    pub gates: u32,       // percent of the visits that get one, where one may stand
}

// From the sink to the source, where wires lead there.
pub fn walk(r: &mut Random, p: &Problem, how: &Walk) -> Vec<Visit> {
    let away = distances(p);
    let joined: Vec<Vec<u32>> = (0..p.cells()).map(|cell| neighbours(p, cell)).collect();
    let mut out = vec![(p.sink, 7)];
    let mut cell = p.sink;
    while out.len() < how.visits && !(cell == p.source && out.len() > how.wandering) {
        let next = &joined[cell as usize];
        if next.is_empty() {
            break;
        }
        let nearer: Vec<u32> = next.iter().copied().filter(|&to| away[to as usize] < away[cell as usize]).collect();
        // a long walk must be able to end at the source: then it turns in time
        let far = away[cell as usize].unwrap_or(0) + 1 >= how.visits - out.len();
        let heads = out.len() >= how.wandering || far;
        cell = if heads && !nearer.is_empty() && r.chance(90) { r.pick(&nearer) } else { r.pick(next) };
        out.push((cell, if r.chance(how.gates) { gate(r, p, cell) } else { 0 }));
    }
    if out.len() > 1 {
        out.last_mut().unwrap().1 = 7;
    }
    out
}

// A step back and forth again, after some visit but the last.
pub fn doubled_back(r: &mut Random, p: &Problem, list: &mut Vec<Visit>) {
    let at = r.below(list.len() as u32 - 1) as usize;
    let here = list[at].0;
    if here >= p.cells() {
        return;
    }
    let next = neighbours(p, here);
    if !next.is_empty() {
        let aside = r.pick(&next);
        let code = if r.chance(20) { gate(r, p, aside) } else { 0 };
        list.splice(at + 1..at + 1, [(aside, code), (here, 0)]);
    }
}

// Another way round between two visits, without more steps.
pub fn rounded(r: &mut Random, p: &Problem, list: &mut [Visit]) {
    let mut ways = Vec::new();
    for at in 1..list.len() - 1 {
        let (before, after) = (list[at - 1].0, list[at + 1].0);
        let between = neighbours(p, before).into_iter().filter(|&cell| neighbours(p, cell).contains(&after));
        ways.extend(between.filter(|&cell| cell != list[at].0).map(|cell| (at, cell)));
    }
    if !ways.is_empty() {
        let (at, cell) = r.pick(&ways);
        let code = if codes(p, cell).contains(&list[at].1) { list[at].1 } else { 0 };
        list[at] = (cell, code);
    }
}

fn other_cell(r: &mut Random, p: &Problem, cell: u32) -> u32 {
    let cells = p.cells();
    match r.below(8) {
        0 => cells,
        1 => r.pick(&[cells + 1, cells + p.width, 1_024, 65_535, 32_768 + cell % 32_768]),
        2 => p.source,
        3 => p.sink,
        4 => (cell + 1).min(65_535),
        5 => cell.saturating_sub(1),
        6 => (cell + p.width).min(65_535),
        _ => r.below(cells),
    }
}

fn other_code(r: &mut Random, p: &Problem) -> u32 {
    match r.below(8) {
        0 => p.buffers.len() as u32 + 1,
        1 => r.pick(&[8, 9, 15, 16, 255, 256, 65_535]),
        2 => r.within(8, 65_535),
        3 | 4 => 7,
        _ => r.below(7),
    }
}

// One change: a cell, a code, a swap, a cut, a visit twice or left out, a step back over an end, the number next to the
// cell before.
pub fn change(r: &mut Random, p: &Problem, list: &mut Vec<Visit>) {
    let n = list.len() as u32;
    let any = r.below(n);
    let at = r.pick(&[0, n - 1, n.max(2) - 2, any, any, any]) as usize;
    match r.below(13) {
        0..3 => list[at].0 = other_cell(r, p, list[at].0),
        3..7 => list[at].1 = other_code(r, p),
        7 => list.swap(at, r.below(n) as usize),
        8 => list.truncate(r.within(1, n) as usize),
        9 => {
            let code = r.pick(&[0, list[at].1]);
            list.insert(at, (list[at].0, code));
        }
        10 => {
            list.remove(at);
        }
        11 if at > 0 => list[at].0 = r.pick(&[list[at - 1].0 + 1, list[at - 1].0.max(1) - 1]).min(65_535),
        _ => over_an_end(r, p, list),
    }
}

// A step back over an end's cell, with any code there.
fn over_an_end(r: &mut Random, p: &Problem, list: &mut Vec<Visit>) {
    let Some(last) = list.len().checked_sub(1).filter(|&last| last > 0) else { return };
    let code = other_code(r, p);
    if r.chance(50) {
        list.splice(1..1, [(list[1].0, 0), (list[0].0, code)]);
    } else {
        list.splice(last..last, [(list[last].0, code), (list[last - 1].0, 0)]);
    }
}

pub fn words(list: &[Visit]) -> Vec<u32> {
    list.iter().flat_map(|visit| [visit.0, visit.1]).collect()
}

// A list of 0 to 3 words, or of an odd number.
pub fn wrong_length(r: &mut Random, words: &mut Vec<u32>) {
    if r.chance(50) {
        words.truncate(r.below(4) as usize);
    } else if words.len() % 2 == 0 && r.chance(50) {
        words.pop();
    } else if words.len() % 2 == 0 {
        words.push(r.below(8));
    }
}
