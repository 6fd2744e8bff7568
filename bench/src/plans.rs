//! The plans of the benchmark. All are fixed: the random ones have fixed seeds.

use crate::problem::{BLOCKED, Buffer, CUT_BELOW, CUT_RIGHT, Problem, Register, TAP, Wire};

/// A small generator (xorshift64*), the same on every machine.
pub struct Random(u64);

impl Random {
    pub fn new(seed: u64) -> Random {
        Random(seed.wrapping_mul(0x9e37_79b9_7f4a_7c15) | 1)
    }

    pub fn next(&mut self) -> u64 {
        self.0 ^= self.0 >> 12;
        self.0 ^= self.0 << 25;
        self.0 ^= self.0 >> 27;
        self.0.wrapping_mul(0x2545_f491_4f6c_dd1d) >> 16
    }

    /// Below n.
    pub fn below(&mut self, n: u64) -> u64 {
        self.next() % n
    }

    pub fn percent(&mut self, p: u64) -> bool {
        self.below(100) < p
    }
}

/// From small to large; fewer are taken evenly spread.
const BUFFERS: [Buffer; 6] = [
    Buffer { r: 6, k: 1, c: 1 },
    Buffer { r: 5, k: 2, c: 2 },
    Buffer { r: 4, k: 3, c: 3 },
    Buffer { r: 3, k: 4, c: 4 },
    Buffer { r: 2, k: 5, c: 5 },
    Buffer { r: 1, k: 6, c: 6 },
];

/// How large and how rich: side of the plan, buffers, load limit.
#[derive(Clone, Copy, PartialEq)]
pub struct Size {
    pub side: usize,
    pub buffers: usize,
    pub limit: u16,
}

pub const FULL: Size = Size { side: 32, buffers: 6, limit: 63 };

fn problem(size: Size, period: u16, marks: Vec<u8>, source: usize, sink: usize) -> Problem {
    let take: &[usize] = match size.buffers {
        1 => &[2],
        3 => &[0, 2, 4],
        _ => &[0, 1, 2, 3, 4, 5],
    };
    Problem {
        width: size.side,
        height: size.side,
        marks,
        register: Register { r: 1, k: 2, c: 1, setup: 1 },
        horizontal: Wire { r: 2, c: 3 },
        vertical: Wire { r: 3, c: 2 },
        period,
        skew: 0,
        limit: size.limit,
        buffers: take.iter().map(|&i| BUFFERS[i]).collect(),
        source,
        sink,
    }
}

/// Taps everywhere, nothing blocked, no cut, corner to corner.
pub fn open(size: Size, period: u16) -> Problem {
    let n = size.side * size.side;
    problem(size, period, vec![TAP; n], 0, n - 1)
}

/// Blocked cells, taps and cuts at random, corner to corner. No tap is blocked.
pub fn random(size: Size, period: u16, cuts: u64, seed: u64) -> Problem {
    let (side, n) = (size.side, size.side * size.side);
    let mut random = Random::new(seed);
    let marks = (0..n)
        .map(|cell| {
            let mut m = 0;
            for (mark, percent, fits) in [
                (BLOCKED, 30, true),
                (TAP, 8, true),
                (CUT_RIGHT, cuts, cell % side + 1 < side),
                (CUT_BELOW, cuts, cell / side + 1 < side),
            ] {
                if random.percent(percent) && fits {
                    m |= mark;
                }
            }
            if m & TAP != 0 { m & !BLOCKED } else { m }
        })
        .collect();
    problem(size, period, marks, 0, n - 1)
}

/// One path through all cells, row by row, taps everywhere, from its first cell to its last.
pub fn serpentine(size: Size, period: u16) -> Problem {
    let (side, n) = (size.side, size.side * size.side);
    let marks = (0..n)
        .map(|cell| {
            let (row, column) = (cell / side, cell % side);
            let turn = if row % 2 == 0 { side - 1 } else { 0 };
            if row + 1 < side && column != turn { TAP | CUT_BELOW } else { TAP }
        })
        .collect();
    let last = if side % 2 == 0 { n - side } else { n - 1 };
    problem(size, period, marks, 0, last)
}

/// The serpentine with the wire next to one end cut: every label is found, and no route.
pub fn broken_serpentine(size: Size, period: u16, at_sink: bool) -> Problem {
    let mut p = serpentine(size, period);
    if at_sink {
        p.marks[p.sink] |= CUT_RIGHT;
    } else {
        p.marks[p.source] |= CUT_RIGHT;
    }
    p
}

/// A spine in the top row, and each column a tooth. The teeth's tips have the marks `tip`, all other cells `rest`. The ends
/// are those of the spine.
fn comb(size: Size, period: u16, rest: u8, tip: u8) -> Problem {
    let (side, n) = (size.side, size.side * size.side);
    let depth = (size.limit as usize / 5).min(side - 1);
    let marks = (0..n)
        .map(|cell| {
            let (row, column) = (cell / side, cell % side);
            let mut m = if row == depth { tip } else { rest };
            if row > 0 && column + 1 < side {
                m |= CUT_RIGHT;
            }
            if row >= depth && row + 1 < side {
                m |= CUT_BELOW;
            }
            m
        })
        .collect();
    problem(size, period, marks, 0, side - 1)
}

/// The dead ends hold the only buffer sites; there is no tap.
pub fn buffer_comb(size: Size, period: u16) -> Problem {
    comb(size, period, BLOCKED, 0)
}

/// The dead ends hold the only taps; buffers may stand everywhere.
pub fn tap_comb(size: Size, period: u16) -> Problem {
    comb(size, period, 0, TAP)
}

/// The comb of buffer sites with heavy steps along the spine and light ones in the teeth: from tip to next tip is within
/// the load limit and further is not, so the route goes down every tooth.
pub fn long_comb(size: Size, period: u16) -> Problem {
    let mut p = buffer_comb(size, period);
    p.horizontal = Wire { r: 1, c: size.limit * 3 / 8 };
    p.vertical = Wire { r: 1, c: 1 };
    p
}

/// What the ladders differ in.
#[derive(Clone, Copy)]
pub struct Ladder {
    /// of load, and what a step down weighs
    pub limit: u16,
    /// the register's resistance
    pub register: u16,
    /// the load of the buffer without resistance
    pub strongest: u16,
}

pub const LADDER_16: Ladder = Ladder { limit: 16, register: 0, strongest: 8 };
pub const LADDER_8: Ladder = Ladder { limit: 8, register: 16, strongest: 7 };
pub const LADDER_63: Ladder = Ladder { limit: 63, ..LADDER_8 };

/// Pairs of columns: buffer sites on the left, blocked cells on the right, rungs between them, one way on to the next pair,
/// at the bottom and at the top in turn. Each step down a column weighs as much as the load limit, so that a buffer of no
/// load must stand before it, and each chain of buffers that is two steps longer is a little cheaper.
pub fn ladder(of: Ladder, side: usize, period: u16) -> Problem {
    let end = |pair: usize| if pair % 2 == 0 { 0 } else { side - 1 };
    let marks = (0..side * side)
        .map(|cell| {
            let (row, column) = (cell / side, cell % side);
            match column % 2 {
                0 if row + 1 < side => CUT_BELOW,
                0 => 0,
                _ if column + 1 < side && row != end(column / 2) => BLOCKED | CUT_RIGHT,
                _ => BLOCKED,
            }
        })
        .collect();
    let source = end((side - 1) / 2) * side + side - 1;
    let mut p = problem(Size { side, buffers: 6, limit: of.limit }, period, marks, source, (side - 1) * side + 1);
    p.register = Register { r: of.register, k: 0, c: 8, setup: 0 };
    p.horizontal = Wire { r: 0, c: 0 };
    p.vertical = Wire { r: 0, c: of.limit };
    p.buffers = [(0, of.strongest), (1, 4), (3, 2), (7, 1), (15, 0)].map(|(r, c)| Buffer { r, k: 0, c }).to_vec();
    p
}

/// Taps everywhere, and wires that weigh and do not delay: a span comes far at once and must be driven often to close. The
/// tables are those of a plan that a hill climb found, slow for a search by delay.
pub fn heavy_register(period: u16) -> Problem {
    let mut p = open(FULL, period);
    (p.source, p.sink) = (758, 4);
    p.register = Register { r: 165, k: 190, c: 7, setup: 49 };
    (p.horizontal, p.vertical) = (Wire { r: 0, c: 4 }, Wire { r: 0, c: 1 });
    p.buffers = [(0, 382, 63), (1, 0, 6), (62, 0, 0), (3, 4, 4), (2, 5, 5), (1, 977, 3)]
        .map(|(r, k, c)| Buffer { r, k, c })
        .to_vec();
    p
}
