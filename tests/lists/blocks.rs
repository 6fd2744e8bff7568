// Questions on one plan with one set of tables: lists that are good, nearly good and not, and pairs of them.

use crate::asked::Asked;
use crate::judge::judge;
use crate::lists::{change, doubled_back, rounded, walk, words, wrong_length, Walk};
use crate::random::Random;
use crate::rules::{Problem, Visit};
use crate::search;
use crate::tuning::{spoil, tune};
use crate::{endless, make, misses};

const STATES: usize = 4_000; // the most that one search may follow
const LISTS: u32 = 16; // of a block
const PAIRS: u32 = 13;

pub struct Block {
    pub problem: Problem,
    pub asked: Vec<Asked>,
}

// A problem of the brute force's, and its best route where it has one.
type Drawn = (Problem, Option<Vec<Visit>>);

fn searched(r: &mut Random) -> Drawn {
    loop {
        if let Some((_, p)) = make::problem(r, STATES) {
            if let Ok(route) = search::best(&p, STATES) {
                return (p, route);
            }
        }
    }
}

// The problem on a plan of up to 32 by 32, its ends not far apart.
fn enlarged(r: &mut Random, p: &Problem) -> Drawn {
    let (width, height) = (r.pick(&[17, 31, 32, 32]), r.pick(&[17, 31, 32, 32]));
    let cell = |row: u32, column: u32| row * width + column;
    let (row, column) = (r.below(height - 8), r.below(width - 8));
    let marks = |r: &mut Random, at: u32| {
        let right = at % width + 1 < width && r.chance(5);
        let below = at / width + 1 < height && r.chance(5);
        r.below(4) | 4 * right as u32 | 8 * below as u32
    };
    let mut large = Problem { width, height, ..p.clone() };
    large.marks = (0..width * height).map(|at| marks(r, at)).collect();
    large.source = cell(row, column);
    large.sink = cell(row + r.within(1, 7), column + r.below(8));
    if r.chance(50) {
        std::mem::swap(&mut large.source, &mut large.sink);
    }
    (large, None)
}

fn short_walk(r: &mut Random, p: &Problem) -> Vec<Visit> {
    let wandering = r.pick(&[0, 0, 0, 3, 8]);
    let how = Walk { visits: 60, wandering, gates: r.pick(&[0, 20, 50, 90]) };
    walk(r, p, &how)
}

// A legal list, if some walks find one.
fn legal_walk(r: &mut Random, p: &Problem, route: &Option<Vec<Visit>>) -> Vec<Visit> {
    match route {
        Some(route) if r.chance(40) => route.clone(),
        _ => {
            let walks: Vec<_> = (0..6).map(|_| short_walk(r, p)).collect();
            let good = walks.iter().position(|list| list.len() > 1 && judge(p, list).is_ok());
            walks[good.unwrap_or(0)].clone()
        }
    }
}

fn list(r: &mut Random, p: &Problem, route: &Option<Vec<Visit>>) -> Vec<u32> {
    let mut list = if r.chance(25) { short_walk(r, p) } else { legal_walk(r, p, route) };
    if list.len() > 1 && r.chance(15) {
        doubled_back(r, p, &mut list);
    }
    for _ in 0..r.pick(&[0, 0, 1, 1, 1, 2]) {
        if !list.is_empty() {
            change(r, p, &mut list);
        }
    }
    let mut words = words(&list);
    if r.chance(3) {
        wrong_length(r, &mut words);
    }
    words
}

// A gate taken away or set: another rank, often still legal.
fn regated(r: &mut Random, p: &Problem, list: &mut [Visit]) {
    let inner = list.len() as u32 - 2;
    if inner == 0 {
        return;
    }
    let at = 1 + r.below(inner) as usize;
    let marks = p.marks.get(list[at].0 as usize).copied().unwrap_or(0);
    list[at].1 = match list[at].1 {
        0 if marks & 3 == 2 && r.chance(60) => 7,
        0 if !p.buffers.is_empty() => r.within(1, p.buffers.len() as u32),
        _ => 0,
    };
}

fn pair(r: &mut Random, p: &Problem, route: &Option<Vec<Visit>>) -> Asked {
    let mut a = legal_walk(r, p, route);
    let mut b = a.clone();
    if a.len() > 1 {
        match r.below(12) {
            0 => {}
            1..4 => regated(r, p, &mut b),
            4 => {
                regated(r, p, &mut b);
                regated(r, p, &mut b);
            }
            5 => doubled_back(r, p, &mut b),
            6 | 7 => rounded(r, p, &mut b),
            8 => {
                regated(r, p, &mut b);
                doubled_back(r, p, &mut a);
            }
            9 => b = legal_walk(r, p, route),
            10 => change(r, p, &mut b),
            _ => {
                change(r, p, &mut a);
                change(r, p, &mut b);
            }
        }
    }
    let (mut a, mut b) = (words(&a), words(&b));
    if r.chance(5) {
        wrong_length(r, &mut a);
        if r.chance(50) {
            wrong_length(r, &mut b);
        }
    }
    if r.chance(50) {
        std::mem::swap(&mut a, &mut b);
    }
    Asked::Better(a, b)
}

// Lists on a problem near its thresholds, which now and then are one list's own.
fn near(r: &mut Random, (p, route): &Drawn) -> Block {
    let (mut p, mut route) = (p.clone(), route.clone());
    if r.chance(50) {
        p.period = (p.period * r.pick(&[2, 4, 10])).min(30_000);
        p.limit = 63;
    }
    if r.chance(60) {
        let list = legal_walk(r, &p, &route);
        tune(r, &mut p, &list);
        route = Some(list);
    }
    let asked = (0..LISTS).map(|_| Asked::Judge(list(r, &p, &route))).collect();
    Block { problem: p, asked }
}

// Pairs on a problem with light wires and a long period, where many lists are legal.
fn paired(r: &mut Random, (p, route): &Drawn) -> Block {
    let (mut p, mut route) = (p.clone(), route.clone());
    for wire in [&mut p.horizontal, &mut p.vertical] {
        (wire.r, wire.c) = (wire.r % 3, wire.c % 3);
    }
    (p.period, p.limit) = (30_000, 63);
    if r.chance(30) {
        let list = legal_walk(r, &p, &route);
        tune(r, &mut p, &list);
        route = Some(list);
    }
    let asked = (0..PAIRS).map(|_| pair(r, &p, &route)).collect();
    Block { problem: p, asked }
}

// Refused questions, now and then with a list of wrong length too.
fn refused(r: &mut Random, (p, route): &Drawn) -> Vec<Block> {
    let one = |r: &mut Random| {
        let mut asked: Vec<Asked> = (0..2).map(|_| Asked::Judge(list(r, p, route))).collect();
        asked.push(pair(r, p, route));
        for question in &mut asked {
            if r.chance(40) {
                let (Asked::Judge(list) | Asked::Better(list, _)) = question;
                wrong_length(r, list);
            }
        }
        let mut problem = p.clone();
        spoil(r, &mut problem);
        Block { problem, asked }
    };
    (0..6).map(|_| one(r)).collect()
}

// The next blocks, all on one drawn problem.
pub fn draw(r: &mut Random) -> Vec<Block> {
    let mut drawn = searched(r);
    if r.chance(10) {
        drawn = enlarged(r, &drawn.0);
    }
    let mut out = vec![near(r, &drawn), near(r, &drawn), paired(r, &drawn)];
    if r.chance(25) {
        out.extend(refused(r, &drawn));
    }
    if r.chance(15) {
        out.push(endless::block(r));
    }
    if r.chance(30) {
        out.push(misses::block(r));
    }
    out
}
