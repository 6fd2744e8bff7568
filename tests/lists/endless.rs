// Long lists: back and forth over wires that cost nothing, or time alone.

use crate::asked::Asked;
use crate::blocks::Block;
use crate::lists::{change, doubled_back, walk, words, Walk};
use crate::random::Random;
use crate::rules::{Buffer, Problem, Register, Wire};
use crate::tuning::tune;

const VISITS: usize = 4_096; // the most of such a list; a script's may have four times as many

fn problem(r: &mut Random) -> Problem {
    let (width, height) = r.pick(&[(2, 1), (1, 2), (3, 1), (2, 2), (3, 2)]);
    let cells = width * height;
    let slow = |r: &mut Random| Wire { r: r.pick(&[0, 0, 1, 2, 255]), c: 0 };
    let heavy = r.chance(25);
    let any = |r: &mut Random, most: u32| if heavy { most } else { r.below(2) };
    let sink = r.below(cells);
    Problem {
        width,
        height,
        marks: (0..cells).map(|_| r.pick(&[0, 0, 1, 2, 3])).collect(),
        register: Register { r: any(r, 255), k: any(r, 1_000), c: any(r, 63), setup: any(r, 9) },
        horizontal: slow(r),
        vertical: slow(r),
        period: 30_000,
        skew: r.pick(&[0, 0, 1, 29_000]),
        limit: 63,
        source: (sink + 1 + r.below(cells - 1)) % cells,
        sink,
        buffers: (0..r.below(3)).map(|_| Buffer { r: any(r, 255), k: any(r, 1_000), c: any(r, 63) }).collect(),
        ..Problem::default()
    }
}

// A list that may lack two visits to the longest such one.
pub fn block(r: &mut Random) -> Block {
    let mut p = problem(r);
    let visits = r.pick(&[VISITS, VISITS, VISITS - 1, 3_000, 1_500]);
    let how = Walk { visits, wandering: visits - 6, gates: r.pick(&[0, 0, 1, 30]) };
    let list = walk(r, &p, &how);
    if r.chance(50) {
        tune(r, &mut p, &list);
    }
    let (mut wrong, mut longer) = (list.clone(), list.clone());
    change(r, &p, &mut wrong);
    doubled_back(r, &p, &mut longer);
    wrong.truncate(VISITS);
    longer.truncate(VISITS);
    let mut asked = vec![Asked::Judge(words(&list)), Asked::Judge(words(&wrong)), Asked::Judge(words(&longer))];
    asked.push(match r.below(3) {
        0 => Asked::Better(words(&longer), words(&list)),
        1 => Asked::Better(words(&list), words(&longer)),
        _ => Asked::Better(words(&wrong), words(&list)),
    });
    Block { problem: p, asked }
}
