// Nets with known lines, worked out by hand from documents 01 and 02: the brute force must give them, and so must the
// program.
//
// The strip's tables: a register's span of one step closes at 2 + 10 + 12 = 24 half-ticks, one of two steps at
// 2 + 10 + 22 + 18 = 52, one of three at 2 + 10 + 22 + 34 + 24 = 92. So 12 ticks allow one step, 26 two, 46 three.

use crate::jobs::Job;
use crate::net::Net;
use crate::rules::{Buffer, Problem, Register, Wire};

pub struct Case {
    pub name: &'static str,
    pub job: Job,
    pub told: String,   // the line without the depth
    pub before: String, // that of before C-17
}

pub fn case(name: &'static str, job: Job, told: &str) -> Case {
    Case { name, job, told: told.to_string(), before: told.to_string() }
}

const LIKE: Register = Register { r: 1, k: 2, c: 1, setup: 1 };

// A strip with document 01's tables, from its last cell to its first; the FIFO is like the register.
pub fn strip(marks: &[u32], source_period: u32, period: u32) -> Net {
    let wire = Wire { r: 2, c: 3 };
    let problem = Problem {
        width: marks.len() as u32,
        height: 1,
        marks: marks.to_vec(),
        register: LIKE,
        horizontal: wire,
        vertical: wire,
        period,
        skew: 0,
        limit: 63,
        source: 0,
        sink: marks.len() as u32 - 1,
        ..Problem::default()
    };
    Net { problem, source_period, fifo: LIKE }
}

pub const FIVE: [u32; 5] = [0, 2, 2, 2, 0];
const SIX: [u32; 6] = [0, 2, 2, 2, 2, 0];
const THREE: [u32; 3] = [0, 2, 0];

fn five_with(source_period: u32) -> Net {
    strip(&FIVE, source_period, 26)
}

pub fn five() -> Net {
    five_with(12)
}

fn with(fifo: Register, n: Net) -> Net {
    Net { fifo, ..n }
}

fn limited(limit: u32, n: Net) -> Net {
    Net { problem: Problem { limit, ..n.problem }, ..n }
}

fn skewed(skew: u32, n: Net) -> Net {
    Net { problem: Problem { skew, ..n.problem }, ..n }
}

// Nothing takes time.
fn timeless(n: Net) -> Net {
    let (gate, wire) = (Register { c: 1, ..Register::default() }, Wire { r: 0, c: 3 });
    Net { fifo: gate, problem: Problem { register: gate, horizontal: wire, ..n.problem }, ..n }
}

// R13's two rows: vertical wires cost nothing.
fn two_rows(marks: [u32; 6], period: u32) -> Net {
    let mut n = strip(&marks, period, period);
    (n.problem.width, n.problem.height, n.problem.sink) = (3, 2, 2);
    n.problem.vertical = Wire { r: 0, c: 0 };
    n
}

// One tap in the middle, and B of document 01.
fn buffered(source_period: u32, period: u32) -> Net {
    let mut n = strip(&[0, 0, 2, 0, 0], source_period, period);
    n.problem.buffers = vec![Buffer { r: 1, k: 1, c: 1 }];
    n
}

// Both ends on one side of the only tap: the route turns back over the sink's cell.
fn behind(source_period: u32, period: u32) -> Net {
    let mut n = strip(&[0, 0, 2], source_period, period);
    n.problem.sink = 1;
    n
}

fn none(cells: u32) -> String {
    format!("7 figures 0 0 0 0 0 visits zeroed {}", 512 * cells)
}

fn answered(cells: u32, figures: &str, visits: &str) -> String {
    format!("0 figures {figures} visits {visits} zeroed {}", 512 * cells)
}

fn through(figures: &str) -> String {
    answered(3, figures, "2 7 1 8 0 7")
}

// Both marks on a cell, with the line of before C-17.
fn with_both_marks() -> Vec<Case> {
    let changed = |name, net, before: String, told: String| Case { before, ..case(name, Job::ample(net), &told) };
    let same = |name, net, told: String| case(name, Job::ample(net), &told);
    let of_five = || answered(5, "1 0 4 50 0", "4 7 3 0 2 8 1 7 0 7");
    let straight = || answered(6, "0 0 2 24 0", "2 7 1 8 0 7");
    let around = || answered(6, "0 0 4 24 0", "2 7 1 0 4 8 1 0 0 7");
    vec![
        changed("on the FIFO's only site", strip(&[0, 3, 0], 12, 12), through("0 0 2 24 0"), none(3)),
        changed(
            "on the FIFO's cell",
            strip(&[0, 2, 3, 2, 0], 12, 26),
            of_five(),
            answered(5, "0 1 4 64 0", "4 7 3 7 2 0 1 8 0 7"),
        ),
        changed("on the register's cell", strip(&[0, 3, 2, 2, 0], 12, 26), of_five(), none(5)),
        changed("on the FIFO's cell, a tap below", two_rows([0, 3, 0, 0, 2, 0], 12), straight(), around()),
        same("elsewhere, the tap below", two_rows([0, 2, 0, 0, 3, 0], 12), straight()),
        same("on a cell passed", strip(&[0, 2, 2, 3, 0], 12, 26), of_five()),
        same("on the sink's cell", strip(&[0, 2, 3], 12, 12), through("0 0 2 24 0")),
        same("on the source's cell", strip(&[3, 2, 0], 12, 12), through("0 0 2 24 0")),
        same("on both ends' cells alone", strip(&[3, 0, 3], 26, 26), none(3)),
    ]
}

pub fn cases() -> Vec<Case> {
    // one step to the FIFO: 12 + 2(2·4 + 2) = 32
    let strong = Register { r: 2, ..LIKE };
    // two steps to the FIFO: 34
    let quick = Register { r: 0, k: 0, ..LIKE };
    // one step from the FIFO: 4 + 10 + 12 = 26
    let late = Register { setup: 2, ..LIKE };
    // one step from the FIFO: 2 + 22 + 18 = 42, with load 7
    let heavy = Register { c: 4, ..LIKE };
    // nothing but the vertical step to it: 2 + 22 = 24; from it: 18 + 6 = 24
    let slow = Register { k: 10, setup: 9, ..LIKE };
    let five_cells = |figures: &str, visits: &str| answered(5, figures, visits);
    let six_cells = |figures: &str, visits: &str| answered(6, figures, visits);
    let list = vec![
        ("26 + 2·12; 2·26 + 12 and 26 + 3·12 are more", five(), five_cells("1 0 4 50 0", "4 7 3 0 2 8 1 7 0 7")),
        ("the periods exchanged", strip(&FIVE, 26, 12), five_cells("0 1 4 50 0", "4 7 3 7 2 8 1 0 0 7")),
        // three splits
        ("12 and 12: 7 is written before 8", strip(&FIVE, 12, 12), five_cells("0 2 4 48 0", "4 7 3 7 2 7 1 8 0 7")),
        ("26 and 26", strip(&FIVE, 26, 26), five_cells("0 0 4 52 0", "4 7 3 0 2 8 1 0 0 7")),
        ("11 for the source", strip(&FIVE, 11, 26), none(5)),
        ("11 for the sink", strip(&FIVE, 26, 11), none(5)),
        ("46 and 12: 12 + 46", strip(&FIVE, 46, 12), five_cells("0 0 4 58 0", "4 7 3 8 2 0 1 0 0 7")),
        // two splits, 7 is written before 8
        ("2·26 + 13 = 26 + 3·13", strip(&SIX, 13, 26), six_cells("0 1 5 65 0", "5 7 4 0 3 7 2 0 1 8 0 7")),
        ("3·13 + 26 = 13 + 2·26", strip(&SIX, 26, 13), six_cells("0 2 5 65 0", "5 7 4 7 3 7 2 8 1 0 0 7")),
        // two splits: the quick FIFO alone closes two steps, 0 is written before 7
        ("a quick FIFO", with(quick, strip(&FIVE, 17, 17)), five_cells("1 0 4 51 0", "4 7 3 0 2 8 1 7 0 7")),
        ("a tick less", with(quick, strip(&FIVE, 16, 16)), five_cells("0 2 4 64 8", "4 7 3 7 2 7 1 8 0 7")),
        ("one tap: no register", strip(&THREE, 12, 12), through("0 0 2 24 0")),
        ("spare by each span's own period: 28 - 24", strip(&THREE, 14, 20), through("0 0 2 34 4")),
        ("spare by each span's own period: 26 - 24", strip(&THREE, 20, 13), through("0 0 2 33 2")),
        ("the FIFO closes by its own figures", with(strong, strip(&THREE, 12, 16)), through("0 0 2 28 0")),
        ("and against the sink's period", with(strong, strip(&THREE, 16, 15)), none(3)),
        ("the span from the FIFO is the source's", with(late, strip(&THREE, 13, 12)), through("0 0 2 25 0")),
        ("a tick less for it", with(late, strip(&THREE, 12, 13)), none(3)),
        ("a heavy FIFO: 42 at the source", with(heavy, strip(&THREE, 21, 12)), through("0 0 2 33 0")),
        ("a tick less for it", with(heavy, strip(&THREE, 20, 12)), none(3)),
        ("load 7 at the source", limited(7, with(heavy, strip(&THREE, 21, 12))), through("0 0 2 33 0")),
        ("limit 6", limited(6, with(heavy, strip(&THREE, 21, 12))), none(3)),
        ("a FIFO above the limit", limited(6, with(Register { c: 7, ..LIKE }, strip(&THREE, 60, 60))), none(3)),
        ("setup 13 above 12", with(Register { setup: 13, ..LIKE }, strip(&THREE, 12, 60)), none(3)),
        ("no tap", strip(&[0, 0, 0], 26, 26), none(3)),
        ("taps on the ends alone", strip(&[2, 0, 2], 26, 26), none(3)),
        ("neighbours with nothing between", strip(&[2, 2], 26, 26), none(2)),
        (
            "the FIFO behind the sink",
            behind(26, 12),
            answered(3, "0 0 3 38 0", "1 7 2 8 1 0 0 7"),
        ),
        ("a tick less for the source", behind(25, 12), none(3)),
        ("a wire cut, and no second way", strip(&[0, 6, 2, 2, 0], 46, 46), none(5)),
        ("R13's plan with a FIFO", two_rows([0, 1, 0, 0, 2, 0], 12), six_cells("0 0 4 24 0", "2 7 1 0 4 8 1 0 0 7")),
        ("a tick less", two_rows([0, 1, 0, 0, 2, 0], 11), none(6)),
        (
            "registers on both sides of the FIFO on one cell",
            with(slow, two_rows([0, 2, 0, 0, 2, 0], 12)),
            six_cells("1 1 4 48 0", "2 7 1 7 4 8 1 7 0 7"),
        ),
        ("R8's buffer on both sides", buffered(22, 22), five_cells("0 0 4 44 0", "4 7 3 1 2 8 1 1 0 7")),
        ("R8's buffer on the sink's side", buffered(26, 22), five_cells("0 0 4 48 0", "4 7 3 1 2 8 1 0 0 7")),
        // twice the skew on each side
        ("skew 1: as 12 and 26", skewed(1, strip(&FIVE, 13, 27)), five_cells("1 0 4 53 0", "4 7 3 0 2 8 1 7 0 7")),
        ("skew 1: 26 allows one step", skewed(1, five_with(13)), five_cells("2 0 4 65 0", "4 7 3 8 2 7 1 7 0 7")),
        ("skew 1: 12 for the source allows none", skewed(1, five()), none(5)),
        ("skew 1: 12 for the sink allows none", skewed(1, strip(&FIVE, 26, 12)), none(5)),
        ("skew 1, spare by each span's own period", skewed(1, strip(&THREE, 14, 20)), through("0 0 2 34 2")),
        ("skew 8 and no more", skewed(8, strip(&THREE, 20, 21)), through("0 0 2 41 0")),
        ("skew 9, the source too short", skewed(9, strip(&THREE, 20, 21)), none(3)),
        ("skew 9, the sink too short", skewed(9, strip(&THREE, 21, 20)), none(3)),
        ("skew 1, the FIFO by its own figures", skewed(1, with(strong, strip(&THREE, 13, 17))), through("0 0 2 30 0")),
        ("skew 1, the span from the FIFO", skewed(1, with(late, strip(&THREE, 14, 13))), through("0 0 2 27 0")),
        ("skew 1, a tick less for it", skewed(1, with(late, strip(&THREE, 13, 13))), none(3)),
        ("no delay, the skew is both periods", skewed(26, timeless(strip(&THREE, 26, 26))), through("0 0 2 52 0")),
        ("no delay, the skew above the source's", skewed(26, timeless(strip(&THREE, 25, 26))), none(3)),
        ("no delay, the skew above the sink's", skewed(26, timeless(strip(&THREE, 26, 25))), none(3)),
        ("no delay, all 30,000", skewed(30_000, timeless(strip(&THREE, 30_000, 30_000))), through("0 0 2 60000 0")),
        ("30,000 less 12", skewed(29_988, strip(&THREE, 30_000, 30_000)), through("0 0 2 60000 0")),
        ("30,000 less 11", skewed(29_989, strip(&THREE, 30_000, 30_000)), none(3)),
    ];
    let cases = list.into_iter().map(|(name, net, told)| case(name, Job::ample(net), &told));
    cases.chain(with_both_marks()).collect()
}
