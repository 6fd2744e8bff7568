//! Small random nets between two clocks on which both sides must agree.

use crate::agree::small;
use crate::crossing::Sides;
use crate::plans::Random;
use crate::problem::{BLOCKED, Crossing, Problem, Register, TAP};

/// A small plan with more room for a FIFO and registers on both sides of it: six cells at least, and open taps
/// everywhere on every other plan.
fn roomy(x: &mut Random) -> Problem {
    let mut p = small(x);
    while p.cells() < 6 {
        p = small(x);
    }
    if x.percent(50) {
        p.marks.iter_mut().for_each(|m| *m = *m & !BLOCKED | TAP);
    }
    p
}

/// A second clock and a FIFO for a problem whose period becomes the sink's: like the register, a little unlike it, or from
/// the whole range; periods equal, one the double of the other, a little apart, or far apart.
fn clocks(x: &mut Random, p: &mut Problem) -> Crossing {
    let g = p.register;
    let mut near = |v: u16, most: u16| (v + x.below(4) as u16).saturating_sub(x.below(3) as u16).min(most);
    let close = Register { r: near(g.r, 255), k: near(g.k, 1000), c: near(g.c, 63), setup: near(g.setup, 30000) };
    let whole = Register {
        r: x.below(256) as u16,
        k: x.below(1001) as u16,
        c: x.below(64) as u16,
        setup: x.below(30001) as u16,
    };
    let fifo = match x.below(10) {
        0..4 => g,
        4..9 => close,
        _ => whole,
    };
    let t = p.period as u64;
    let source_period = match x.below(8) {
        0 | 1 => t,
        2 | 3 => 2 * t,
        4 => (t / 2).max(1),
        5 => t + 1 + x.below(t / 4 + 3),
        6 => t - x.below(t / 4 + 1),
        _ => t * (1 + x.below(5)) + x.below(t),
    };
    let source_period = source_period.clamp(1, 30000) as u16;
    if x.percent(30) {
        return Crossing { source_period: std::mem::replace(&mut p.period, source_period), fifo };
    }
    Crossing { source_period, fifo }
}

/// How often each came: no route, no register, registers on one side or on both, more than two of them; a route with a
/// skew, and none with one.
#[derive(Default, Debug)]
struct Seen {
    none: u64,
    no_register: u64,
    source_side: u64,
    sink_side: u64,
    both_sides: u64,
    more_than_two: u64,
    route_with_skew: u64,
    none_with_skew: u64,
}

/// Whether both agree on all of them, and ours passes all checks of `Sides::answer`.
pub fn run(count: u64, seed: u64) -> bool {
    let mut sides = Sides::new();
    let mut x = Random::new(seed);
    let mut seen = Seen::default();
    for i in 0..count {
        let mut p = roomy(&mut x);
        let crossing = clocks(&mut x, &mut p);
        let a = match sides.answer(&p, &crossing) {
            Ok(a) => a,
            Err(wrong) => {
                println!("net {i} of seed {seed}: {wrong}");
                return false;
            }
        };
        let (source, sink) = (a.source_registers, a.sink_registers);
        *match (a.number, source, sink) {
            (7, ..) => &mut seen.none,
            (_, 0, 0) => &mut seen.no_register,
            (_, _, 0) => &mut seen.source_side,
            (_, 0, _) => &mut seen.sink_side,
            _ => &mut seen.both_sides,
        } += 1;
        seen.more_than_two += (source + sink > 2) as u64;
        if p.skew > 0 {
            *if a.number == 7 { &mut seen.none_with_skew } else { &mut seen.route_with_skew } += 1;
        }
        if i % 10000 == 9999 {
            eprintln!("net {} of {count}", i + 1);
        }
    }
    println!("{count} small nets between two clocks, seed {seed}: all agree; {seen:?}");
    true
}
