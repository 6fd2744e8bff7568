// Plans with tables to ask about: the brute force's, and shapes that it seldom draws. Period and limit come later.

use crate::make::{self, any_ends, far_ends, scatter, sized, small_skew, tables, turned, Density};
use crate::random::Random;
use crate::rules::{Buffer, Problem, Register, Wire, BLOCKED, TAP};

const STATES: usize = 1_500; // the most that a search of the brute force's own drawing may follow

fn any_tables(r: &mut Random, p: &mut Problem) {
    let kind = r.pick(&[0, 0, 1, 1, 2, 3, 4]);
    tables(r, p, kind);
    p.limit = if r.chance(60) { 63 } else { r.below(64) };
}

// One row or one column.
fn line(r: &mut Random) -> Problem {
    let n = r.pick(&[2, 3, 5, 8, 13, 20, 31, 32, 32]);
    let mut p = turned(r, n, 1);
    let d = Density { blocked: r.pick(&[0, 30, 100]), tap: r.pick(&[0, 10, 40, 100]), cut: r.pick(&[0, 0, 2, 8]) };
    scatter(r, &mut p, d);
    far_ends(r, &mut p);
    any_tables(r, &mut p);
    p
}

// A tap on nearly every cell.
fn tapped(r: &mut Random) -> Problem {
    let mut p = sized(r.within(4, 9), r.within(4, 9));
    let d = Density { blocked: r.pick(&[0, 50, 100]), tap: r.pick(&[90, 100]), cut: r.pick(&[0, 10, 30]) };
    scatter(r, &mut p, d);
    any_ends(r, &mut p);
    any_tables(r, &mut p);
    p
}

// One or two columns of blocked cells between the ends, no cuts.
fn blocked_wall(r: &mut Random) -> Problem {
    let mut p = sized(r.within(3, 8), r.within(1, 6));
    let d = Density { blocked: r.pick(&[0, 20]), tap: r.pick(&[0, 30, 60]), cut: 0 };
    scatter(r, &mut p, d);
    let first = r.within(1, p.width - 2);
    let last = r.within(first, (first + 1).min(p.width - 2));
    for row in 0..p.height {
        for column in first..=last {
            let marks = &mut p.marks[(row * p.width + column) as usize];
            *marks = BLOCKED | r.pick(&[0, 0, TAP]);
        }
    }
    p.source = r.below(p.height) * p.width;
    p.sink = r.below(p.height) * p.width + p.width - 1;
    if r.chance(50) {
        std::mem::swap(&mut p.source, &mut p.sink);
    }
    any_tables(r, &mut p);
    p
}

// Heavy wires and few taps; one buffer is light, the others are not.
fn light_buffer(r: &mut Random) -> Problem {
    let (n, m) = (r.within(3, 12), r.within(1, 3));
    let mut p = turned(r, n, m);
    let d = Density { blocked: r.pick(&[0, 0, 20]), tap: r.pick(&[0, 0, 10]), cut: 0 };
    scatter(r, &mut p, d);
    far_ends(r, &mut p);
    let n = |r: &mut Random, most: u32| r.below(most + 1);
    let heavy = r.within(4, 20);
    p.register = Register { r: n(r, 9), k: n(r, 9), c: r.within(0, heavy), setup: n(r, 9) };
    p.horizontal = Wire { r: n(r, 9), c: r.within(2, 9) };
    p.vertical = Wire { r: n(r, 9), c: r.within(2, 9) };
    let count = r.within(1, 6);
    p.buffers = (0..count).map(|_| Buffer { r: n(r, 9), k: n(r, 9), c: r.within(heavy / 2, heavy) }).collect();
    p.buffers[r.below(count) as usize].c = r.below(3);
    p.limit = 63;
    p
}

// Wires of which some steps take most of the longest period.
fn slow(r: &mut Random) -> Problem {
    let (n, m) = (r.within(3, 12), r.within(1, 2));
    let mut p = turned(r, n, m);
    let d = Density { blocked: r.pick(&[50, 100]), tap: r.pick(&[0, 0, 0, 20]), cut: 0 };
    scatter(r, &mut p, d);
    far_ends(r, &mut p);
    tables(r, &mut p, 2);
    p.register.setup = 0;
    p.horizontal = Wire { r: r.within(100, 255), c: r.within(1, 6) };
    p.vertical = Wire { r: r.within(100, 255), c: r.within(1, 6) };
    p.limit = 63;
    p
}

// Up to 32 by 32, its ends not far apart.
fn large(r: &mut Random) -> Problem {
    let (width, height) = r.pick(&[(32, 32), (32, 32), (31, 32), (17, 19), (32, 9)]);
    let mut p = sized(width, height);
    let d = Density { blocked: r.pick(&[20, 80]), tap: r.pick(&[1, 5, 20]), cut: r.pick(&[5, 20, 40]) };
    scatter(r, &mut p, d);
    let (row, column) = (r.below(height - 4), r.below(width - 4));
    p.source = row * width + column;
    p.sink = (row + r.below(4)) * width + column + r.within(1, 4);
    if r.chance(50) {
        std::mem::swap(&mut p.source, &mut p.sink);
    }
    tables(r, &mut p, 1);
    for wire in [&mut p.horizontal, &mut p.vertical] {
        (wire.r, wire.c) = (wire.r.max(1), wire.c.max(3));
    }
    p.limit = r.within(10, 40);
    p
}

pub fn draw(r: &mut Random) -> Problem {
    let mut p = match r.below(100) {
        0..48 => loop {
            if let Some((_, p)) = make::problem(r, STATES) {
                return p;
            }
        },
        48..65 => line(r),
        65..75 => tapped(r),
        75..85 => blocked_wall(r),
        85..93 => light_buffer(r),
        93..97 => slow(r),
        _ => large(r),
    };
    p.skew = small_skew(r);
    p
}
