//! Small random plans on which both sides must agree.

use crate::judge::{Legal, judge};
use crate::ours::{self, Answer, Ours};
use crate::peer::{Plain, Tuned};
use crate::plans::Random;
use crate::problem::{BLOCKED, Buffer, CUT_BELOW, CUT_RIGHT, Problem, Register, TAP, Wire};

/// A skew, none for half of them, and the period with it: mostly as much longer, so that spans close as without one; now
/// and then the skew is about the period.
fn skewed(x: &mut Random, period: u16) -> (u16, u16) {
    let more = match x.below(20) {
        0..10 => 0,
        10..16 => 1 + x.below(4),
        16..18 => x.below(30001),
        _ => return ((period as u64 + x.below(4)).saturating_sub(2).min(30000) as u16, period),
    };
    let skew = more.min(30000 - period as u64) as u16;
    (skew, period + skew)
}

/// Narrow strips, small squares, and long strips with few taps; small numbers, sometimes zeros, sometimes the whole range.
pub fn small(x: &mut Random) -> Problem {
    let (width, height) = match x.below(4) {
        0 => (2 + x.below(11) as usize, 1),
        1 => (2, 1 + x.below(8) as usize),
        2 => (2 + x.below(4) as usize, 2 + x.below(4) as usize),
        _ => (4 + x.below(11) as usize, 1 + x.below(5) as usize),
    };
    let n = width * height;
    let taps = [12, 50, 100][x.below(3) as usize];
    let (blocked, cuts) = ([0, 30, 80][x.below(3) as usize], [0, 0, 8, 25][x.below(4) as usize]);
    let mut marks: Vec<u8> = (0..n)
        .map(|cell| {
            let mut m = 0;
            for (mark, percent, fits) in [
                (BLOCKED, blocked, true),
                (TAP, taps, true),
                (CUT_RIGHT, cuts, cell % width + 1 < width),
                (CUT_BELOW, cuts, cell / width + 1 < height),
            ] {
                if x.percent(percent) && fits {
                    m |= mark;
                }
            }
            m
        })
        .collect();
    // a blocked tap takes no gate; most plans have none
    if x.percent(75) {
        marks.iter_mut().filter(|m| **m & TAP != 0).for_each(|m| *m &= !BLOCKED);
    }
    let wide = x.percent(10);
    let mut number = |small: u64, whole: u64| if wide { x.below(whole + 1) as u16 } else { x.below(small + 1) as u16 };
    let register = Register {
        r: number(3, 255),
        k: number(4, 1000),
        c: number(3, 63),
        setup: number(3, 30000) / if wide { 4 } else { 1 },
    };
    let horizontal = Wire { r: number(3, 255), c: number(3, 63) };
    let vertical = Wire { r: number(3, 255), c: number(3, 63) };
    let buffers: Vec<Buffer> =
        (0..number(6, 6)).map(|_| Buffer { r: number(4, 255), k: number(5, 1000), c: number(4, 63) }).collect();
    // what one step takes from register to register, in ticks; the period is a little less than it, or up to some times it
    let (load, c) = (register.c as u64, horizontal.c as u64);
    let one = register.setup as u64
        + (horizontal.r as u64 * (2 * load + c)).div_ceil(2)
        + register.r as u64 * (load + c)
        + register.k as u64;
    let times = [1, 2, 5][x.below(3) as usize];
    let period = (one * 19 / 20 + 1 + x.below(one * times + 3)).clamp(1, 30000) as u16;
    let (skew, period) = skewed(x, period);
    let limit = if x.percent(70) { 63 } else { 4 + x.below(28) as u16 };
    let source = if x.percent(60) { 0 } else { x.below(n as u64) as usize };
    let sink = if source == 0 && x.percent(80) { n - 1 } else { (source + 1 + x.below(n as u64 - 1) as usize) % n };
    Problem { width, height, marks, register, horizontal, vertical, period, skew, limit, buffers, source, sink }
}

/// Whether the written route is legal and has the answer's registers and spare half-ticks.
fn written_right(a: &Ours, p: &Problem, answer: Answer) -> bool {
    let told = Legal { registers: answer.registers, slack: answer.slack as u64 };
    answer.number == 7 || judge(p, a.written(answer.steps)) == Ok(told)
}

/// Whether both agree on all of them. Of ours the written route is checked by the rules of documents 01 and 02 as well,
/// that the same figures come with no visits lent and by the search alone, and that the scratch words used end as zeros.
pub fn run(count: u64, seed: u64) -> bool {
    let (mut a, mut b, mut c) = (Ours::new(), Plain::new(), Tuned::new());
    let mut x = Random::new(seed);
    let (mut none, mut by_registers, mut with_skew) = (0u64, [0u64; 6], [0u64; 2]);
    for i in 0..count {
        let p = small(&mut x);
        let used = 256 * p.cells();
        a.scratch[..used + 1].fill(9);
        a.load(&p);
        let answer = a.route(&p);
        if a.scratch[..used].iter().any(|&w| w != 0) || a.scratch[used] != 9 {
            println!("plan {i} of seed {seed}: scratch words not left as they should be");
            return false;
        }
        let (got, peer, tuned) = (ours::registers(answer), b.route(&p), c.route(&p));
        if got != peer || got != tuned {
            println!("plan {i} of seed {seed}: ours {got:?}, peer {peer:?}, tuned {tuned:?}");
            return false;
        }
        if !written_right(&a, &p, answer) {
            println!("plan {i} of seed {seed}: {answer:?}, and the route written is another");
            return false;
        }
        let no_room = a.no_room(&p);
        if no_room != ours::without_room(answer) {
            println!("plan {i} of seed {seed}: {answer:?}, with no visits lent {no_room:?}");
            return false;
        }
        let search = a.search(&p);
        if search != ours::searched(answer) || a.scratch[used] != 9 {
            println!(
                "plan {i} of seed {seed}: {answer:?}, by the search alone {search:?}, or a word not its own is written"
            );
            return false;
        }
        match got {
            None => none += 1,
            Some(k) => by_registers[k.min(5) as usize] += 1,
        }
        if p.skew > 0 {
            with_skew[got.is_some() as usize] += 1;
        }
        if i % 10000 == 9999 {
            eprintln!("plan {} of {count}", i + 1);
        }
    }
    println!(
        "{count} small plans, seed {seed}: all agree; none on {none}, 0, 1, 2, 3, 4, more registers on {by_registers:?}; \
         with a skew {} routes, {} none",
        with_skew[1], with_skew[0]
    );
    true
}
