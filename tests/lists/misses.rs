// Lists of over 15,000 visits that miss the period by about 1,000,000,000 half-ticks, the largest miss that is told.

use crate::asked::Asked;
use crate::blocks::Block;
use crate::lists::words;
use crate::random::Random;
use crate::rules::{legal, Buffer, Problem, Register, Visit, Wire, REGISTER};
use crate::tuning::NO_PERIOD;

const SETUPS: u64 = 60_000; // half-ticks that a setup may add

// Cells 0 and 1, the sink below cell 0, the source to the right of cell 1. Only the wire up from the sink is a load.
fn problem(r: &mut Random) -> Problem {
    let any = r.within(1, 30_000);
    Problem {
        width: 3,
        height: 2,
        marks: vec![2, 2, 0, 0, 0, 0],
        register: Register { r: r.below(256), k: r.below(1_001), c: r.within(0, 62), setup: 0 },
        horizontal: Wire { r: r.within(252, 255), c: 0 },
        vertical: Wire { r: 1, c: 1 },
        period: r.pick(&[1, 30_000, any]),
        skew: r.pick(&[0, 0, any, 30_000]),
        limit: 63,
        source: 2,
        sink: 3,
        buffers: vec![Buffer { r: r.within(252, 255), k: r.within(950, 1_000), c: r.within(62, 63) }],
        ..Problem::default()
    }
}

// From the sink to cells 0 and 1 by turns, each time with a buffer, then to the source; an even number of buffers.
fn driven(buffers: usize) -> Vec<Visit> {
    let between = (0..buffers as u32).map(|at| (at % 2, 1));
    [(3, REGISTER)].into_iter().chain(between).chain([(2, REGISTER)]).collect()
}

// The delay at which the first span closes, with twice the skew.
fn closing(p: &Problem, list: &[Visit]) -> u64 {
    let unbounded = Problem { period: NO_PERIOD, ..p.clone() };
    legal(&unbounded, list).expect("only the period is missed").closings[0]
}

// The list misses the period by just so much: with fewer gates, by another wire up from the sink, by the setup.
fn tune(p: &mut Problem, list: &mut [Visit], miss: u64) {
    let wanted = miss + 2 * p.period as u64;
    let mut at = 2;
    let mut shorten = |p: &Problem, list: &mut [Visit]| {
        while closing(p, list) > wanted {
            list[at].1 = 0;
            at += 1;
        }
    };
    shorten(p, list);
    if (wanted - closing(p, list)) % 2 == 1 {
        p.vertical.r = 2; // an odd delay more, which may be too much
        shorten(p, list);
    }
    p.register.setup = ((wanted - closing(p, list)) / 2) as u32;
}

pub fn block(r: &mut Random) -> Block {
    let (less, more) = (r.within(1_000_000, 999_999_999), r.within(1_000_000_000, 1_020_000_000));
    let about = r.within(999_999_998, 1_000_000_002);
    let miss = r.pick(&[about, about, about, about, less, more]) as u64;
    let mut p = problem(r);
    let (two, four) = (closing(&p, &driven(2)), closing(&p, &driven(4)));
    let pairs = (miss + 2 * p.period as u64).saturating_sub(two + SETUPS).div_ceil(four - two);
    let mut list = driven(2 + 2 * pairs as usize);
    if r.chance(30) {
        let last = list.len() - 2;
        list[last].1 = REGISTER; // closes the span before the source
    }
    tune(&mut p, &mut list, miss);
    Block { problem: p, asked: vec![Asked::Judge(words(&list))] }
}
