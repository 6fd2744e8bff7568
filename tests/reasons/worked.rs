// Jobs with known lines, worked out by hand from documents 01 and 02: the reference must give them, and so must the
// program.

use crate::rules::{Buffer, Problem, Register, Wire};

pub struct Case {
    pub name: &'static str,
    pub problem: Problem,
    pub told: &'static str, // the line without the depth
}

fn strip(period: u32) -> Problem {
    let wire = Wire { r: 2, c: 3 };
    Problem {
        width: 3,
        height: 1,
        marks: vec![0, 2, 0],
        register: Register { r: 1, k: 2, c: 1, setup: 1 },
        horizontal: wire,
        vertical: wire,
        period,
        skew: 0,
        limit: 63,
        source: 0,
        sink: 2,
        ..Problem::default()
    }
}

fn limited(limit: u32) -> Problem {
    Problem { limit, ..strip(26) }
}

fn buffered(period: u32) -> Problem {
    Problem { buffers: vec![Buffer { r: 1, k: 1, c: 1 }], ..strip(period) }
}

fn marked(marks: &[u32], p: Problem) -> Problem {
    Problem { marks: marks.to_vec(), ..p }
}

fn setup(setup: u32, p: Problem) -> Problem {
    Problem { register: Register { setup, ..p.register }, ..p }
}

fn two_rows(period: u32) -> Problem {
    Problem { height: 2, marks: vec![0, 1, 0, 0, 2, 0], vertical: Wire { r: 0, c: 0 }, ..strip(period) }
}

// Two cells; the one step takes an odd half-tick, nothing else takes time.
fn step(setup: u32, period: u32) -> Problem {
    let register = Register { setup, ..Register::default() };
    let horizontal = Wire { r: 1, c: 1 };
    Problem { width: 2, height: 1, marks: vec![0, 0], register, horizontal, limit: 1, period, sink: 1, ..strip(1) }
}

// The same, and the step takes no time either.
fn still(period: u32) -> Problem {
    Problem { horizontal: Wire { r: 0, c: 1 }, ..step(0, period) }
}

fn skewed(skew: u32, p: Problem) -> Problem {
    Problem { skew, ..p }
}

// The tables of bench's `heavy_register` on fewer cells: the pass by delay gives up, searches answer. A span is best of four
// steps, at 1,494 half-ticks where all are vertical: 98, then buffers 2, 4 and 3 with 16, 50 and 620 at loads 8, 7 and 5,
// then 710 at load 1. A horizontal step is best the first, with 22 at load 11: 1,500.
fn heavy_register(skew: u32, period: u32) -> Problem {
    let buffers = [(0, 382, 63), (1, 0, 6), (62, 0, 0), (3, 4, 4), (2, 5, 5), (1, 977, 3)];
    Problem {
        width: 16,
        height: 16,
        marks: vec![2; 256],
        register: Register { r: 165, k: 190, c: 7, setup: 49 },
        horizontal: Wire { r: 0, c: 4 },
        vertical: Wire { r: 0, c: 1 },
        period,
        skew,
        sink: 0,
        source: 255,
        buffers: buffers.map(|(r, k, c)| Buffer { r, k, c }).to_vec(),
        ..strip(period)
    }
}

// Spans of 24 half-ticks, or of 52 with no tap; the period told is longer by the skew.
fn with_skew() -> Vec<(&'static str, Problem, &'static str)> {
    let exists = "19 zeroed 768";
    vec![
        ("R1, skew 1", skewed(1, strip(26)), exists),
        ("R3, skew 1", skewed(1, strip(12)), "0 period 13 zeroed 768"),
        ("R4, skew 1", skewed(1, strip(11)), "0 period 13 zeroed 768"),
        ("R3, skew T", skewed(12, strip(12)), "0 period 24 zeroed 768"),
        ("R3, skew above T", skewed(13, strip(12)), "0 period 25 zeroed 768"),
        ("skew 1,000 at T 1", skewed(1_000, strip(1)), "0 period 1012 zeroed 768"),
        ("R11, skew 1", skewed(1, marked(&[0, 1, 0], strip(26))), "0 period 27 zeroed 768"),
        ("skew 14 and no more", skewed(14, strip(26)), exists),
        ("skew 15", skewed(15, strip(26)), "0 period 27 zeroed 768"),
        ("skew 29,988", skewed(29_988, strip(26)), "0 period 30000 zeroed 768"),
        ("skew 29,988 at T 29,999", skewed(29_988, strip(29_999)), "0 period 30000 zeroed 768"),
        ("skew 29,988 at T 30,000", skewed(29_988, strip(30_000)), exists),
        ("skew 29,989", skewed(29_989, strip(26)), "0 short zeroed 768"),
        ("skew 29,989 at T 30,000", skewed(29_989, strip(30_000)), "0 short zeroed 768"),
        ("skew 30,000", skewed(30_000, strip(26)), "0 short zeroed 768"),
        ("skew and setup", skewed(29_900, setup(89, strip(26))), "0 period 30000 zeroed 768"),
        ("skew and setup, a tick more", skewed(29_900, setup(90, strip(26))), "0 short zeroed 768"),
        ("skew 30,000, the load limit too low", skewed(30_000, limited(3)), "0 load zeroed 768"),
        ("skew 30,000, a wire cut", skewed(30_000, marked(&[4, 2, 0], strip(26))), "0 walled zeroed 768"),
        ("skew above T, the load limit too low", skewed(27, limited(3)), "0 load zeroed 768"),
        ("skew above T, a wire cut", skewed(27, marked(&[4, 2, 0], strip(26))), "0 walled zeroed 768"),
        ("one half-tick, skew 1 at T 1", skewed(1, step(0, 1)), "0 period 2 zeroed 512"),
        ("one half-tick, skew 1 at T 2", skewed(1, step(0, 2)), "19 zeroed 512"),
        ("one half-tick, skew 29,999", skewed(29_999, step(0, 1)), "0 period 30000 zeroed 512"),
        ("one half-tick, skew 30,000", skewed(30_000, step(0, 1)), "0 short zeroed 512"),
        ("no delay, skew 7", skewed(7, still(1)), "0 period 7 zeroed 512"),
        ("no delay, skew T", skewed(7, still(7)), "19 zeroed 512"),
        ("no delay, skew 30,000", skewed(30_000, still(1)), "0 period 30000 zeroed 512"),
        ("no delay, T and skew 30,000", skewed(30_000, still(30_000)), "19 zeroed 512"),
        ("750 ticks by searches", heavy_register(0, 1), "0 period 750 zeroed 65536"),
        ("the same, skew 250", heavy_register(250, 1), "0 period 1000 zeroed 65536"),
        ("the same, skew 29,250", heavy_register(29_250, 1), "0 period 30000 zeroed 65536"),
        ("the same, skew 29,251", heavy_register(29_251, 1), "0 short zeroed 65536"),
        ("the same, T 999 and skew 250", heavy_register(250, 999), "0 period 1000 zeroed 65536"),
        ("the same, T 1,000 and skew 250", heavy_register(250, 1_000), "19 zeroed 65536"),
        ("skew 30,001", skewed(30_001, strip(11)), "4 fault 2 zeroed 0"),
        ("skew 65,535 and L 64", skewed(65_535, limited(64)), "4 fault 2 zeroed 0"),
        ("T 0 and skew 30,001", skewed(30_001, strip(0)), "4 fault 1 zeroed 0"),
        ("L 64", limited(64), "4 fault 3 zeroed 0"),
    ]
}

pub fn cases() -> Vec<Case> {
    let exists = "19 zeroed 768";
    let list = vec![
        ("R1", strip(26), exists),
        ("R2", strip(25), exists),
        ("R3", strip(12), exists),
        ("R4", strip(11), "0 period 12 zeroed 768"),
        ("R5", limited(7), exists),
        ("R6", limited(6), exists),
        ("R7", limited(3), "0 load zeroed 768"),
        ("R8", buffered(22), exists),
        ("R9", buffered(21), exists),
        ("R10", buffered(26), exists),
        ("R11: the whole strip closes at 52", marked(&[0, 1, 0], strip(25)), "0 period 26 zeroed 768"),
        ("R12: no gate, the whole strip closes at 52", marked(&[0, 3, 0], buffered(22)), "0 period 26 zeroed 768"),
        ("R13", two_rows(12), "19 zeroed 1536"),
        ("R13 a tick shorter", two_rows(11), "0 period 12 zeroed 1536"),
        ("R13, both marks on the tap", marked(&[0, 1, 0, 0, 3, 0], two_rows(12)), "0 period 26 zeroed 1536"),
        ("R6, both marks on the tap", marked(&[0, 3, 0], limited(6)), "0 load zeroed 768"),
        ("R3, both marks on the ends' cells", marked(&[3, 2, 3], strip(12)), exists),
        ("R4, both marks on the ends' cells", marked(&[3, 2, 3], strip(11)), "0 period 12 zeroed 768"),
        ("R11 with a buffer, and no tap", marked(&[0, 0, 0], buffered(21)), "0 period 22 zeroed 768"),
        ("R4 at T 1", strip(1), "0 period 12 zeroed 768"),
        ("R7 at T 1: load comes first", Problem { period: 1, ..limited(3) }, "0 load zeroed 768"),
        ("load 4 just fits", limited(4), exists),
        ("C(reg) 1 above L 0", limited(0), "0 load zeroed 768"),
        ("the wire from 0 cut", marked(&[4, 2, 0], strip(11)), "0 walled zeroed 768"),
        ("the wire from 1 cut, and C(reg) above L", marked(&[0, 6, 0], limited(0)), "0 walled zeroed 768"),
        ("blocked cells only", marked(&[1, 1, 1], strip(11)), "0 period 26 zeroed 768"),
        ("setup 29,989: a span closes at 60,000", setup(29_989, strip(11)), "0 period 30000 zeroed 768"),
        ("the same at T 29,999", setup(29_989, strip(29_999)), "0 period 30000 zeroed 768"),
        ("the same at T 30,000", setup(29_989, strip(30_000)), exists),
        ("setup 29,990: 60,002 is over 60,000", setup(29_990, strip(30_000)), "0 short zeroed 768"),
        ("setup 30,000, the load limit too low", setup(30_000, limited(3)), "0 load zeroed 768"),
        ("setup 12 above T 11: a span closes at 46", setup(12, strip(11)), "0 period 23 zeroed 768"),
        ("one half-tick", step(0, 1), "19 zeroed 512"),
        ("eleven half-ticks", step(5, 5), "0 period 6 zeroed 512"),
        ("59,999 half-ticks", step(29_999, 29_999), "0 period 30000 zeroed 512"),
        ("60,001 half-ticks", step(30_000, 30_000), "0 short zeroed 512"),
        ("width 0", Problem { width: 0, ..strip(11) }, "1 zeroed 0"),
        ("two rows of one byte too few", Problem { height: 2, ..strip(11) }, "2 zeroed 0"),
        ("a 4 in the last column", marked(&[0, 2, 4], strip(11)), "3 zeroed 0"),
        ("T 0", strip(0), "4 fault 1 zeroed 0"),
        ("T 30,001", strip(30_001), "4 fault 1 zeroed 0"),
        ("setup 30,001", setup(30_001, strip(11)), "4 fault 6 zeroed 0"),
        ("equal ends", Problem { source: 2, ..strip(11) }, "5 zeroed 0"),
        ("equal ends and T 0", Problem { source: 2, ..strip(0) }, "4 fault 1 zeroed 0"),
    ];
    list.into_iter().chain(with_skew()).map(|(name, problem, told)| Case { name, problem, told }).collect()
}
