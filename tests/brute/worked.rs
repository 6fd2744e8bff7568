// Document 01's worked routes, R1 to R13, and the jobs that it names beside them, with their whole texts; the spare
// half-ticks by C-12 of document 02, the skew by C-16, cells with both marks by C-17.

use crate::cases::{case, Case};
use crate::job;
use crate::rules::{Buffer, Problem, Register, Wire};

fn strip(period: u32) -> Problem {
    let wire = Wire { r: 2, c: 3 };
    Problem {
        width: 3,
        height: 1,
        marks: vec![0, 2, 0],
        register: Register { r: 1, k: 2, c: 1, setup: 1 },
        horizontal: wire,
        vertical: wire,
        period,
        skew: 0,
        limit: 63,
        source: 0,
        sink: 2,
        ..Problem::default()
    }
}

fn limited(limit: u32) -> Problem {
    Problem { limit, ..strip(26) }
}

fn buffered(period: u32) -> Problem {
    Problem { buffers: vec![Buffer { r: 1, k: 1, c: 1 }], ..strip(period) }
}

fn marked(marks: &[u32], p: Problem) -> Problem {
    Problem { marks: marks.to_vec(), ..p }
}

fn two_rows(marks: [u32; 6]) -> Problem {
    marked(&marks, Problem { height: 2, vertical: Wire { r: 0, c: 0 }, ..strip(12) })
}

const R13: [u32; 6] = [0, 1, 0, 0, 2, 0];
const OVER_4: &str = "route 1 4 24 0\n2 7\n1 0\n4 7\n1 0\n0 7\n";

fn skewed(skew: u32, p: Problem) -> Problem {
    Problem { skew, ..p }
}

// Spans of 19 half-ticks over one step, of 36 over two.
fn odd(period: u32) -> Problem {
    Problem { horizontal: Wire { r: 1, c: 3 }, ..strip(period) }
}

// Nothing takes time.
fn timeless(period: u32) -> Problem {
    let (register, wire) = (Register { c: 1, ..Register::default() }, Wire { r: 0, c: 3 });
    Problem { register, horizontal: wire, ..strip(period) }
}

// The strip's route with this code in the middle.
fn through(figures: &str, code: u32) -> String {
    format!("route {figures}\n2 7\n1 {code}\n0 7\n")
}

// The strip's spans close at 24 half-ticks over one step and at 52 over two, with B between at 44.
fn with_skew() -> Vec<(&'static str, Problem, String)> {
    let none = || "none\n".to_string();
    vec![
        ("R1, skew 1", skewed(1, strip(26)), through("1 2 52 26", 7)),
        ("R1, skew 1, a tick more", skewed(1, strip(27)), through("0 2 27 0", 0)),
        ("R3, skew 1", skewed(1, strip(12)), none()),
        ("R3, skew 1, a tick more", skewed(1, strip(13)), through("1 2 26 0", 7)),
        ("R8, skew 1", skewed(1, buffered(22)), through("1 2 44 18", 7)),
        ("R8, skew 1, a tick more", skewed(1, buffered(23)), through("0 2 23 0", 1)),
        ("R13, skew 1", skewed(1, two_rows(R13)), none()),
        ("R2, skew 13", skewed(13, strip(25)), through("1 2 50 0", 7)),
        ("R2, skew 14", skewed(14, strip(25)), none()),
        ("skew T", skewed(26, strip(26)), none()),
        ("skew above T", skewed(27, strip(26)), none()),
        ("a half-tick to spare", skewed(1, odd(11)), through("1 2 22 1", 7)),
        ("a half-tick too much", skewed(1, odd(10)), none()),
        ("no delay, skew T", skewed(26, timeless(26)), through("0 2 26 0", 0)),
        ("no delay, skew T - 1", skewed(25, timeless(26)), through("0 2 26 2", 0)),
        ("no delay, skew T + 1", skewed(27, timeless(26)), none()),
        ("no delay, T and skew 30,000", skewed(30_000, timeless(30_000)), through("0 2 30000 0", 0)),
        ("T 30,000, 52 left", skewed(29_974, strip(30_000)), through("0 2 30000 0", 0)),
        ("T 30,000, 50 left", skewed(29_975, strip(30_000)), through("1 2 60000 26", 7)),
        ("T 30,000, 24 left", skewed(29_988, strip(30_000)), through("1 2 60000 0", 7)),
        ("T 30,000, 22 left", skewed(29_989, strip(30_000)), none()),
        ("T and skew 30,000", skewed(30_000, strip(30_000)), none()),
        ("T 1, skew 30,000", skewed(30_000, strip(1)), none()),
        ("skew 30,001", skewed(30_001, strip(26)), "refused 4\n".to_string()),
    ]
}

// Both marks on a cell, with the text of before C-17.
fn with_both_marks() -> Vec<(&'static str, Problem, String, String)> {
    let none = || "none\n".to_string();
    let one = || through("1 2 50 26", 7);
    let five = |marks: &[u32]| marked(marks, Problem { width: 5, sink: 4, ..strip(26) });
    let same = |name, p, text: String| (name, p, text.clone(), text);
    vec![
        ("R12", marked(&[0, 3, 0], buffered(22)), through("1 2 44 20", 7), none()),
        ("R2, on the register's cell", marked(&[0, 3, 0], strip(25)), one(), none()),
        ("on the register's cell, a tap below", two_rows([0, 3, 0, 0, 2, 0]), through("1 2 24 0", 7), OVER_4.to_string()),
        ("R13, on the register's cell", two_rows([0, 1, 0, 0, 3, 0]), OVER_4.to_string(), none()),
        same("elsewhere, the tap below", two_rows([0, 2, 0, 0, 3, 0]), through("1 2 24 0", 7)),
        same("R1, on the cell between", marked(&[0, 3, 0], strip(26)), through("0 2 26 0", 0)),
        same("R10, on the cell between", marked(&[0, 3, 0], buffered(26)), through("0 2 26 0", 0)),
        same(
            "on two cells passed, a register between",
            five(&[0, 3, 2, 3, 0]),
            "route 1 4 52 0\n4 7\n3 0\n2 7\n1 0\n0 7\n".to_string(),
        ),
        same("R2, on the sink's cell", marked(&[0, 2, 3], strip(25)), one()),
        same("R2, on the source's cell", marked(&[3, 2, 0], strip(25)), one()),
        same("R2, on both ends' cells", marked(&[3, 2, 3], strip(25)), one()),
        same("R4, on all cells", marked(&[3, 3, 3], strip(11)), none()),
    ]
}

pub fn cases() -> Vec<Case> {
    let none = || "none\n".to_string();
    let problems = vec![
        ("R1", strip(26), through("0 2 26 0", 0)),
        ("R2", strip(25), through("1 2 50 26", 7)),
        ("R3", strip(12), through("1 2 24 0", 7)),
        ("R4", strip(11), none()),
        ("R5", limited(7), through("0 2 26 0", 0)),
        ("R6", limited(6), through("1 2 52 28", 7)),
        ("R7", limited(3), none()),
        ("R8", buffered(22), through("0 2 22 0", 1)),
        ("R9", buffered(21), through("1 2 42 18", 7)),
        ("R10", buffered(26), through("0 2 26 0", 0)),
        ("R11", marked(&[0, 1, 0], strip(25)), none()),
        ("R13", two_rows(R13), OVER_4.to_string()),
        ("equal ends", Problem { source: 2, ..strip(25) }, "refused 5\n".to_string()),
    ];
    let problems = problems.into_iter().chain(with_skew());
    let mut jobs: Vec<_> = problems.map(|(name, p, text)| (name, job::write(&job::numbers(&p)), text)).collect();
    jobs.push(("empty job", vec![], "refused 15\n".to_string()));
    let printed = vec![3, 1, 0, 2, 0, 1, 2, 1, 1, 2, 3, 2, 3, 25, 0, 63, 0, 2, 0];
    jobs.push(("document 01's job", printed, through("1 2 50 26", 7)));
    let before = vec![3, 1, 0, 2, 0, 1, 2, 1, 1, 2, 3, 2, 3, 25, 63, 0, 2, 0];
    jobs.push(("document 01's job without its skew", before, "refused 15\n".to_string()));
    let mut out: Vec<Case> = jobs.into_iter().map(|(name, bytes, text)| case(name, bytes, &text)).collect();
    for (name, p, before, text) in with_both_marks() {
        out.push(Case { before, ..case(name, job::write(&job::numbers(&p)), &text) });
    }
    out
}
