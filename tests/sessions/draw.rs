// Random numbers for commands: mostly such as the calls take, some that they refuse.

use crate::calls::Session;
use crate::crossed;
use crate::plan::{invalid_mark, BELOW, RIGHT};
use crate::question::{self, Question, Tables, SCRATCH};
use crate::random::Random;
use crate::script::Command;

pub fn sides(r: &mut Random, large: bool) -> (u32, u32) {
    if large {
        let any = (r.within(9, 32), r.within(9, 32));
        return r.pick(&[any, any, any, (32, 32), (32, 31), (17, 32)]);
    }
    match r.below(10) {
        0 => r.pick(&[(1, 1), (1, 2), (2, 1), (1, 32), (32, 1)]),
        1..3 => (r.within(2, 14), r.within(1, 2)),
        3 => (r.within(1, 2), r.within(2, 14)),
        4..8 => (r.within(2, 4), r.within(2, 4)),
        _ => (r.within(3, 8), r.within(3, 8)),
    }
}

pub fn bad_sides(r: &mut Random, w: u32, h: u32) -> (u32, u32) {
    let bad = r.pick(&[0, 33, 33, 34, 255, 256, 65_535]);
    r.pick(&[(bad, h), (w, bad), (bad, bad), (bad, 0), (0, h)])
}

// Marks that may stand at the cell.
fn marks(r: &mut Random, w: u32, h: u32, cell: u32) -> u8 {
    let mut m = 0;
    for (mark, percent) in [(1, 30), (2, 65), (RIGHT, 12), (BELOW, 12)] {
        if r.chance(percent) && !invalid_mark(w, h, cell, mark) {
            m |= mark;
        }
    }
    m
}

pub fn plan(r: &mut Random, w: u32, h: u32) -> Vec<u8> {
    let bare = r.chance(30);
    (0..w * h).map(|cell| if bare { r.pick(&[0, 0, 2]) } else { marks(r, w, h, cell) }).collect()
}

// Marks that may not stand at the cell.
fn stray_marks(r: &mut Random, w: u32, h: u32, cell: u32) -> u8 {
    let any = r.within(16, 255) as u8;
    let cuts = r.pick(&[RIGHT, BELOW]) | r.below(4) as u8;
    let m = r.pick(&[16, any, cuts, cuts, cuts, 16 + cuts]);
    if invalid_mark(w, h, cell, m) {
        m
    } else {
        any
    }
}

// A plan with an invalid mark or of another length, or both.
pub fn bad_plan(r: &mut Random, (w, h): (u32, u32), good: &[u8]) -> Vec<u8> {
    let mut plan = good.to_vec();
    if r.chance(60) && !plan.is_empty() {
        let (column, row, any) = (r.below(w), r.below(h), r.below(w * h));
        let cell = r.pick(&[w * h - 1, w * row + w - 1, w * (h - 1) + column, any]);
        let cell = cell.min(plan.len() as u32 - 1);
        plan[cell as usize] = stray_marks(r, w, h, cell);
    }
    if r.chance(50) {
        let n = r.pick(&[0, plan.len().saturating_sub(1), plan.len() + 1, plan.len() + w as usize]);
        plan.resize(n.min(1_100), r.pick(&[0, 2, 16]));
    }
    plan
}

// A move's cell and marks.
pub fn set(r: &mut Random, w: u32, h: u32, plan: &[u8]) -> (u32, u32) {
    let cells = w * h;
    let mut cell = r.below(cells);
    let mut m = marks(r, w, h, cell);
    match r.below(100) {
        0..6 => cell = r.pick(&[cells, cells + 1, cell + 256, cell + 1_024, cell + 32_768, 65_535]),
        6..20 => m = plan.get(cell as usize).map_or(m, |&there| there),
        20..26 => m = stray_marks(r, w, h, cell),
        26..29 => {
            cell = w * r.within(1, h) - 1;
            m = marks(r, w, h, cell) | RIGHT;
        }
        29..32 => {
            cell = w * (h - 1) + r.below(w);
            m = marks(r, w, h, cell) | BELOW;
        }
        32 => (cell, m) = (r.pick(&[cells, 65_535]), r.within(16, 255) as u8),
        33..36 => cell = cells - 1,
        _ => {}
    }
    (cell, m as u32)
}

// A move that changes one mark on a route, valid or not.
pub fn set_on(r: &mut Random, path: &[u32], plan: &[u8]) -> (u32, u32) {
    let cell = r.pick(path);
    let there = plan.get(cell as usize).map_or(0, |&marks| marks as u32);
    (cell, (there ^ r.pick(&[1, 2, 2, 4, 8])) & 255)
}

// None for a good share, small ones, and now and then one about the period, or the largest.
fn skew(r: &mut Random, period: u32) -> u32 {
    let near = (period + r.below(3) - 1).min(30_000);
    let small = r.within(1, 4);
    match r.below(20) {
        0..10 => 0,
        10..17 => small,
        17 => r.below(period),
        18 => near,
        _ => r.pick(&[near, near, 30_000]),
    }
}

// Small numbers; now and then numbers of the whole range.
pub fn tables(r: &mut Random) -> Tables {
    let wide = r.chance(6);
    let n = |r: &mut Random, small: u32, most: u32| if wide { r.below(most + 1) } else { r.below(small + 1) };
    let register = [n(r, 3, 255), n(r, 3, 1_000), n(r, 3, 63), n(r, 2, 3_000)];
    let wires = [n(r, 3, 255), n(r, 3, 15), n(r, 3, 255), n(r, 3, 15)];
    let tight = r.within(4, 20);
    let period = if wide { r.within(1, 30_000) } else { r.pick(&[tight, tight, tight, 26, 40, 60]) };
    let skew = skew(r, period);
    let limit = if r.chance(60) { 63 } else { r.within(3, 20) };
    let mut numbers = [0; 11];
    numbers[..4].copy_from_slice(&register);
    numbers[4..8].copy_from_slice(&wires);
    numbers[8..].copy_from_slice(&[period, skew, limit]);
    let count = r.pick(&[0, 0, 1, 1, 2, 3, 6]);
    let buffers = (0..count).map(|_| [n(r, 2, 255), n(r, 2, 1_000), n(r, 2, 63)]).collect();
    Tables { numbers, buffers }
}

// One number outside its range, or two.
pub fn spoilt(r: &mut Random, good: &Tables) -> Tables {
    const MOST: [u32; 11] = [255, 1_000, 63, 30_000, 255, 63, 255, 63, 30_000, 30_000, 63];
    let mut t = good.clone();
    for _ in 0..r.pick(&[1, 1, 1, 2]) {
        let more = r.pick(&[1, 1, 2, 256, 1_000]);
        if r.chance(50) {
            let at = r.below(11) as usize;
            t.numbers[at] = match at {
                8 if r.chance(50) => 0,
                9 if r.chance(30) => 65_535,
                _ => MOST[at] + more,
            };
        } else {
            if r.chance(60) {
                t.buffers.resize(r.pick(&[6, 6, 6, 7, 7, 8, 20]), [1, 1, 1]);
            }
            if !t.buffers.is_empty() {
                let at = r.below(t.buffers.len() as u32) as usize;
                let (field, most) = r.pick(&[(0, 255), (1, 1_000), (2, 63)]);
                t.buffers[at][field] = most + more;
            }
        }
    }
    t
}

// The source's period and a FIFO for tables: about the sink's period, about the register.
pub fn clocks(r: &mut Random, t: &Tables) -> [u32; 5] {
    let (n, sink) = (&t.numbers, t.numbers[8]);
    let near = (sink + r.below(5)).saturating_sub(2);
    let source = r.pick(&[sink, sink, 2 * sink, sink.div_ceil(2), near, near, 3 * sink]).clamp(1, 30_000);
    let small = [r.below(4), r.below(4), r.below(4), r.below(3)];
    let [a, b, c, d] = r.pick(&[[n[0], n[1], n[2], n[3]], [n[0], n[1], n[2], n[3]], small]);
    [source, a, b, c, d]
}

// One number outside its range, or two.
pub fn spoilt_clocks(r: &mut Random, good: [u32; 5]) -> [u32; 5] {
    const BEYOND: [(usize, u32); 8] =
        [(0, 0), (0, 30_001), (0, 65_535), (1, 256), (2, 1_001), (3, 64), (4, 30_001), (4, 65_535)];
    let mut list = good;
    for _ in 0..r.pick(&[1, 1, 2]) {
        let (at, number) = r.pick(&BEYOND);
        list[at] = number;
    }
    list
}

// How many scratch words are lent: about as many as a question needs, or all.
pub fn scratch(r: &mut Random, q: &Question) -> u32 {
    let need = r.pick(&[question::EACH, crossed::EACH]) * (q.width * q.height).min(1_024);
    let any = r.below(need + 1);
    r.pick(&[need, need, need.saturating_sub(1), need.saturating_sub(1), need + 1, any, 0, 1, SCRATCH]).min(SCRATCH)
}

// Sides and ends of a question; on a large plan the ends are near each other.
pub fn question(r: &mut Random, (w, h): (u32, u32), large: bool) -> Question {
    let cells = w * h;
    let source = r.below(cells);
    let near = r.pick(&[1, 1, 2, w, w, w + 1, 2 * w, cells - 1, cells - w]);
    let on = if large && r.chance(90) { near } else { 1 + r.below(cells.max(2) - 1) };
    let sink = (source + on) % cells;
    let mut q = Question { width: w, height: h, source, sink, room: 2_048 };
    match r.below(100) {
        0..3 => (q.width, q.height) = bad_sides(r, w, h),
        3..6 => (q.width, q.height) = r.pick(&[(w + 1, h), (w, h + 1), (cells, 1)]),
        6..9 => (q.width, q.height) = (h, w),
        9..12 => q.source = r.pick(&[cells, cells + 1, 65_535]),
        12..15 => q.sink = r.pick(&[cells, cells + 1, 65_535]),
        15..17 => q.sink = q.source,
        17 => {
            (q.width, q.height) = bad_sides(r, w, h);
            q.sink = q.source;
        }
        18 => {
            q.width += 1;
            q.sink = 65_535;
        }
        _ => {}
    }
    q
}

// Something put where the calls do not expect it: a byte, the depth, the journal's length or the plan.
pub fn tampering(r: &mut Random, (w, h): (u32, u32), s: &Session) -> Command {
    let lent = s.lent as u32;
    match r.below(20) {
        0..9 => match s.newest() {
            Some(at) => entry_byte(r, (w, h), s, at),
            None => Command::Depth(r.within(1, 256)),
        },
        9 if lent > 0 => Command::Byte(r.below(lent), r.below(256)),
        10 if lent > 1_024 => Command::Byte(r.within(1_024, lent - 1), r.below(256)),
        9..14 => {
            let (d, any) = (s.record.depth, r.within(0, 256));
            let depth = r.pick(&[0, 1, 255, 256, 256, 257, 258, 65_535, any, d + 1, d.saturating_sub(1)]);
            Command::Depth(depth.min(65_535))
        }
        14..17 => Command::Journal(r.pick(&[0, 4, 1_000, 1_023, 1_023, 1_023, 1_024, 1_025, 1_100])),
        17 => Command::Plan(plan(r, w, h)),
        _ => Command::Plan(bad_plan(r, (w, h), &s.plan)),
    }
}

// A byte of the newest entry.
fn entry_byte(r: &mut Random, (w, h): (u32, u32), s: &Session, at: usize) -> Command {
    let cell = (s.journal[at] as u32 + 256 * s.journal[at + 1] as u32).min(w * h - 1);
    let place = r.pick(&[0, 1, 2, 2, 2, 3]);
    let value = match place {
        0 if r.chance(50) => (w * h) as u8,
        0 => r.below(256) as u8,
        1 => r.pick(&[1, 2, 4, 128, 255]),
        _ if r.chance(50) => stray_marks(r, w, h, cell),
        _ => marks(r, w, h, cell),
    };
    Command::Byte(at as u32 + place, value as u32)
}

const NO_COMMAND: &str = "this word is no command";
const NO_NUMBER: &str = "a number is missing";
const TOO_LARGE: &str = "a number is too large";

// Commands that are wrong at their last word, and what is said of them.
pub const BAD: [(&str, &str); 38] = [
    ("jump", NO_COMMAND),
    ("Move", NO_COMMAND),
    ("moves", NO_COMMAND),
    ("mov", NO_COMMAND),
    ("move 3 undo", NO_NUMBER),
    ("move 1 -1", NO_NUMBER),
    ("move 0 256", TOO_LARGE),
    ("move 65536", TOO_LARGE),
    ("open 3 3x", NO_NUMBER),
    ("depth 100000", TOO_LARGE),
    ("depth 99999999999999999999", TOO_LARGE),
    ("byte 1100", TOO_LARGE),
    ("journal 1101", TOO_LARGE),
    ("plan 1101", TOO_LARGE),
    ("plan 3 0 0 256", TOO_LARGE),
    ("plan 3 0 0 show", NO_NUMBER),
    ("buffers 21", TOO_LARGE),
    ("buffers 1 2 3 show", NO_NUMBER),
    ("buffers 7 1 1 1 1 1 1 1 1 1 1 1 1 1 1 1 1 1 1 1 1 show", NO_NUMBER),
    ("tables 1 1 1 1 1 1 1 1 1 show", NO_NUMBER),
    ("tables 1 1 1 1 1 1 1 1 1 1 show", NO_NUMBER),
    ("tables 1 1 1 1 1 1 1 1 1 65536", TOO_LARGE),
    ("scratch 524289", TOO_LARGE),
    ("scratch 1000000", TOO_LARGE),
    ("scratch show", NO_NUMBER),
    ("route 1 1 0 0 2049", TOO_LARGE),
    ("reasons", NO_COMMAND),
    ("reason 3 1 0 show", NO_NUMBER),
    ("reason 3 1 0 65536", TOO_LARGE),
    ("clock", NO_COMMAND),
    ("clocks 1 1 1 1 show", NO_NUMBER),
    ("clocks 65536", TOO_LARGE),
    ("clocks 1 1 1 1 65536", TOO_LARGE),
    ("crossings", NO_COMMAND),
    ("cross", NO_COMMAND),
    ("crossing 3 1 0 2 show", NO_NUMBER),
    ("crossing 1 1 0 0 2049", TOO_LARGE),
    ("crossing 3 1 0 65536", TOO_LARGE),
];

pub fn bad_command(r: &mut Random) -> Command {
    let (text, reason) = r.pick(&BAD);
    Command::Bad(text, reason)
}
