// Plans with tables and a FIFO to ask about; the periods come later, but for the shapes that need theirs.

use crate::make::{self, any_ends, far_ends, scatter, sized, tables, turned, Density};
use crate::net::Net;
use crate::random::Random;
use crate::rules::{Buffer, Problem, Register, Wire, BLOCKED, TAP};

fn near(p: &Problem, a: u32, b: u32) -> u32 {
    (a / p.width).abs_diff(b / p.width) + (a % p.width).abs_diff(b % p.width)
}

// Now and then only some taps stay: those near one end, those next to an end, one, or none; some of them get both marks.
fn thin_taps(r: &mut Random, p: &mut Problem) {
    let taps: Vec<u32> = (0..p.cells()).filter(|&cell| p.marks[cell as usize] & TAP != 0).collect();
    let end = r.pick(&[p.source, p.sink]);
    let reach = r.within(1, 3);
    let one = if taps.is_empty() { 0 } else { r.pick(&taps) };
    let turn = r.below(40);
    for cell in taps {
        let stays = match turn {
            0..5 => near(p, cell, end) <= reach,
            5..8 => near(p, cell, p.source) == 1 || near(p, cell, p.sink) == 1,
            8 | 9 => cell == one,
            10 => false,
            _ => true,
        };
        if !stays {
            p.marks[cell as usize] &= !TAP;
        }
    }
    if r.chance(15) {
        let blocked = r.pick(&[10, 30, 60]);
        for marks in p.marks.iter_mut().filter(|marks| **marks & TAP != 0) {
            *marks |= if r.chance(blocked) { BLOCKED } else { 0 };
        }
    }
}

// One number of the register's changed a little.
fn changed(r: &mut Random, g: Register) -> Register {
    let mut f = g;
    let (number, most) = r.pick(&[(0, 255), (1, 1_000), (2, 63), (3, 30_000)]);
    let number = [&mut f.r, &mut f.k, &mut f.c, &mut f.setup].into_iter().nth(number).unwrap();
    *number = if r.chance(50) { number.saturating_sub(r.within(1, 3)) } else { (*number + r.within(1, 3)).min(most) };
    f
}

fn fifo(r: &mut Random, g: Register, kind: u32) -> Register {
    let small = |r: &mut Random| r.below(3);
    match r.below(20) {
        0..6 => g,
        6..11 => changed(r, g),
        11..15 => {
            let mut other = Problem::default();
            tables(r, &mut other, kind);
            other.register
        }
        15 | 16 => Register { r: small(r), k: small(r), c: small(r), setup: small(r) },
        17 => Register { k: r.pick(&[50, 200, 500, 999, 1_000]), ..changed(r, g) },
        18 => Register { r: r.pick(&[0, 0, 1, 40, 255]), ..g },
        _ => Register { setup: (g.setup + r.within(1, 30)).min(30_000), c: r.below(12), ..g },
    }
}

// A plan and tables of the brute force's.
fn usual(r: &mut Random) -> Net {
    let shape = r.pick(&[0, 0, 0, 1, 1, 2, 2, 2, 3, 3, 3, 4, 4, 5, 5, 6]);
    let mut p = make::plan(r, shape);
    if r.chance(90) {
        let more = r.pick(&[15, 30, 60, 100]);
        for marks in p.marks.iter_mut().filter(|_| r.chance(more)) {
            *marks = *marks & !BLOCKED | TAP;
        }
    }
    thin_taps(r, &mut p);
    let kind = if shape == 6 { r.pick(&[0, 0, 1, 4]) } else { r.pick(&[0, 0, 0, 1, 1, 2, 2, 3, 4]) };
    tables(r, &mut p, kind);
    p.limit = if r.chance(70) { 63 } else { r.within(p.register.c, 63) };
    Net { fifo: fifo(r, p.register, kind), problem: p, source_period: 0 }
}

// Constant loads: a span of so many steps takes so many ticks, and a few more or none. Small periods have many splits.
fn linear(r: &mut Random, p: &mut Problem) -> (Register, u32) {
    let each = r.pick(&[1, 1, 1, 2]);
    p.horizontal = Wire { r: each, c: 0 };
    p.vertical = Wire { r: r.pick(&[each, each, 0, 1]), c: 0 };
    p.register = Register { c: 1, ..Register::default() };
    if r.chance(40) {
        p.register = Register { r: r.below(2), k: r.below(3), c: 1, setup: r.below(2) };
    }
    p.limit = r.pick(&[63, 63, 2, 1]);
    let count = r.pick(&[0, 0, 0, 0, 1, 2]);
    p.buffers = (0..count).map(|_| Buffer { r: r.below(2), k: r.below(2), c: r.within(1, 2) }).collect();
    let fifo = match r.below(10) {
        0..5 => p.register,
        5..7 => changed(r, p.register),
        7 => {
            p.register.k = r.within(1, 3);
            Register { k: 0, ..p.register } // it closes longer spans
        }
        _ => Register { r: r.below(2), k: r.below(4), c: r.within(1, 2), setup: r.below(4) },
    };
    (fifo, each)
}

// The ticks that a register's span of so many steps takes.
fn ticks(p: &Problem, each: u32, steps: u32) -> u32 {
    let g = p.register;
    (g.setup + each * steps * g.c + g.r * g.c + g.k).max(1)
}

// Spans of so many steps on the source's side, and on the sink's.
const STEPS: [(u32, u32); 20] = [
    (1, 1), (2, 2), (3, 3), (1, 2), (2, 1), (2, 4), (4, 2), (3, 1), (1, 3), (6, 2),
    (2, 3), (3, 2), (3, 4), (4, 3), (2, 5), (5, 2), (3, 5), (5, 3), (5, 7), (7, 4),
];

fn chain(r: &mut Random, sides: (u32, u32)) -> Net {
    let mut p = turned(r, sides.0, sides.1);
    let d = Density { blocked: r.pick(&[0, 30, 100]), tap: r.pick(&[25, 70, 100, 100]), cut: r.pick(&[0, 0, 0, 4]) };
    scatter(r, &mut p, d);
    far_ends(r, &mut p);
    thin_taps(r, &mut p);
    let (fifo, each) = linear(r, &mut p);
    let (source, sink) = r.pick(&STEPS);
    let more = r.pick(&[0, 0, 0, 1]);
    let source_period = ticks(&p, each, source) + more;
    p.period = ticks(&p, each, sink) + more * r.below(2);
    Net { problem: p, source_period, fifo }
}

// A row of taps that k + 1 spans of s steps and one of k fill, and one of s and s + 1 of k: two splits of one latency.
fn tied(r: &mut Random) -> Net {
    let (s, k) = r.pick(&[(2, 3), (3, 2), (3, 4), (4, 3), (2, 5), (5, 2), (3, 5), (5, 3)]);
    let mut p = turned(r, s * k + s + k + 1, 1);
    p.marks.fill(TAP);
    far_ends(r, &mut p);
    let each = r.within(1, 2);
    (p.horizontal, p.vertical) = (Wire { r: each, c: 0 }, Wire { r: each, c: 0 });
    (p.register.c, p.limit, p.period) = (1, 1, each * k);
    Net { fifo: p.register, problem: p, source_period: each * s }
}

// Rows between which a step takes no time: with taps in all of them a split may need more steps than another.
fn rows(r: &mut Random) -> Net {
    let (n, m) = (r.within(5, 12), r.within(2, 3));
    let mut p = sized(n, m);
    let d = Density { blocked: 50, tap: r.pick(&[25, 40, 60]), cut: 0 };
    scatter(r, &mut p, d);
    far_ends(r, &mut p);
    let (fifo, each) = linear(r, &mut p);
    p.vertical = Wire { r: 0, c: 0 };
    let (source, sink) = r.pick(&STEPS[1..10]);
    p.period = ticks(&p, each, sink);
    Net { source_period: ticks(&p, each, source), problem: p, fifo }
}

// A row with taps at uneven distances: spans of many lengths.
fn uneven(r: &mut Random) -> Net {
    let length = r.within(8, 24);
    let mut p = turned(r, length, 1);
    let d = Density { blocked: 100, tap: r.pick(&[35, 50, 70]), cut: 0 };
    scatter(r, &mut p, d);
    far_ends(r, &mut p);
    let (fifo, _) = linear(r, &mut p);
    if r.chance(40) {
        (p.horizontal.c, p.vertical.c, p.limit) = (1, 1, 63);
    }
    Net { problem: p, source_period: 0, fifo }
}

// Few taps and heavy wires: buffers are needed, light ones and strong ones.
fn buffered(r: &mut Random) -> Net {
    let (n, m) = (r.within(5, 11), r.pick(&[1, 1, 1, 2]));
    let mut p = turned(r, n, m);
    let d = Density { blocked: r.pick(&[0, 0, 20]), tap: r.pick(&[15, 30, 60]), cut: 0 };
    scatter(r, &mut p, d);
    far_ends(r, &mut p);
    p.marks[r.below(n * m) as usize] |= TAP;
    let wire = |r: &mut Random| Wire { r: r.within(1, 4), c: r.within(1, 5) };
    (p.horizontal, p.vertical) = (wire(r), wire(r));
    p.register = Register { r: r.within(1, 4), k: r.below(5), c: r.within(1, 5), setup: r.below(4) };
    let count = r.within(2, 4);
    p.buffers = (0..count)
        .map(|_| {
            let c = r.below(6);
            Buffer { r: 1 + (6 - c) / 2, k: r.below(3), c }
        })
        .collect();
    p.limit = r.pick(&[63, 63, 63, 12, 8]);
    Net { fifo: fifo(r, p.register, 1), problem: p, source_period: 0 }
}

// A corridor with taps, and pockets below it; the FIFO is slow to close and to start, so that short spans about it may
// be the only ones: then a cell may get registers on both sides of it.
fn pocket(r: &mut Random) -> Net {
    let mut p = sized(r.within(3, 6), 2);
    for cell in 0..p.cells() {
        let (row, last) = (cell / p.width, cell % p.width + 1 == p.width);
        let tap = if r.chance(if row == 0 { 50 } else { 60 }) { TAP } else { BLOCKED };
        p.marks[cell as usize] = tap | if row == 1 && !last { 4 } else { 0 };
    }
    p.source = r.below(p.width);
    p.sink = (p.source + 1 + r.below(p.width - 1)) % p.width;
    p.register = Register { r: r.within(1, 2), k: r.below(3), c: r.within(1, 2), setup: r.below(2) };
    p.horizontal = Wire { r: r.within(1, 3), c: r.within(1, 3) };
    p.vertical = Wire { r: r.below(2), c: r.below(2) };
    p.limit = 63;
    // a register's span over so many steps
    let span = |p: &Problem, steps: u32| {
        let (mut load, mut delay) = (p.register.c, 2 * p.register.setup);
        for _ in 0..steps {
            delay += p.horizontal.r * (2 * load + p.horizontal.c);
            load += p.horizontal.c;
        }
        (delay + 2 * (p.register.r * load + p.register.k)).div_ceil(2)
    };
    let (source, sink) = (r.within(1, 3), r.within(1, 3));
    p.period = span(&p, sink) + r.below(2);
    let source_period = if r.chance(40) { p.period } else { span(&p, source) + r.below(2) };
    let less = |r: &mut Random, from: u32| from.saturating_sub(p.register.setup + p.register.k + 2 + r.below(8));
    let mut fifo = p.register;
    if r.chance(80) {
        fifo.k = less(r, p.period);
    }
    if r.chance(80) {
        fifo.setup = less(r, source_period);
    }
    Net { problem: p, source_period, fifo }
}

// One clock's longest routes: a register's place may be the FIFO's.
fn ratchet(r: &mut Random) -> Net {
    let p = make::ratchet(r);
    let (like, source_period) = (p.register, p.period + r.pick(&[0, 0, 0, 1, 2, p.period]));
    Net { fifo: if r.chance(70) { like } else { changed(r, like) }, problem: p, source_period }
}

// Up to 32 by 32, its ends not far apart.
fn large(r: &mut Random) -> Net {
    let sides = r.pick(&[(32, 32), (32, 32), (31, 32), (17, 19), (32, 9)]);
    let mut n = chain(r, sides);
    let p = &mut n.problem;
    any_ends(r, p);
    let (row, column) = (r.below(p.height - 6), r.below(p.width - 6));
    p.source = row * p.width + column;
    p.sink = (row + r.below(6)) * p.width + column + r.within(1, 6);
    if r.chance(50) {
        std::mem::swap(&mut p.source, &mut p.sink);
    }
    n
}

// A net; its periods are 0 where they are to be found.
pub fn draw(r: &mut Random) -> Net {
    match r.below(100) {
        0..28 => usual(r),
        28..30 => tied(r),
        30..38 => {
            let n = r.within(3, 14);
            chain(r, (n, 1))
        }
        38..50 => {
            let n = r.within(12, 32);
            chain(r, (n, 1))
        }
        50..58 => {
            let (n, m) = (r.within(3, 9), r.within(2, 4));
            chain(r, (n, m))
        }
        58..67 => rows(r),
        67..76 => uneven(r),
        76..85 => buffered(r),
        85..94 => pocket(r),
        94..97 => ratchet(r),
        _ => large(r),
    }
}
