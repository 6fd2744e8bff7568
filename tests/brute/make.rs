// Random jobs: plans of many shapes, tables of several ranges, T, L and the skew near the thresholds, then faults and
// damage.

use crate::job;
use crate::random::Random;
use crate::rules::{legal, registers, Buffer, Problem, Register, Wire, BLOCKED, CUT_BELOW, CUT_RIGHT, TAP};
use crate::search;

pub const SHAPES: [&str; 8] = ["1xN", "2xN", "up to 5x5", "sparse taps", "dead ends", "crossings", "large", "ratchets"];
const RATCHET: usize = 7;

#[derive(Clone, Copy)]
pub struct Density {
    pub blocked: u32,
    pub tap: u32,
    pub cut: u32,
}

fn density(r: &mut Random) -> Density {
    Density {
        blocked: r.pick(&[0, 20, 50, 80, 100]),
        tap: r.pick(&[0, 15, 40, 70, 100, 100, 100]),
        cut: r.pick(&[0, 0, 10, 30]),
    }
}

// One cell's marks; so many percent of the taps on blocked cells stay blocked. The wires out of the plan are not cut.
fn marks(r: &mut Random, p: &Problem, cell: u32, d: Density, both: u32) -> u32 {
    let mut marks = 0;
    if r.chance(d.blocked) {
        marks |= BLOCKED;
    }
    if r.chance(d.tap) {
        marks = if r.chance(both) { marks | TAP } else { TAP };
    }
    if cell % p.width + 1 < p.width && r.chance(d.cut) {
        marks |= CUT_RIGHT;
    }
    if cell / p.width + 1 < p.height && r.chance(d.cut) {
        marks |= CUT_BELOW;
    }
    marks
}

pub fn sized(width: u32, height: u32) -> Problem {
    Problem { width, height, marks: vec![0; (width * height) as usize], ..Problem::default() }
}

pub fn turned(r: &mut Random, a: u32, b: u32) -> Problem {
    if r.chance(50) {
        sized(a, b)
    } else {
        sized(b, a)
    }
}

pub fn scatter(r: &mut Random, p: &mut Problem, d: Density) {
    let both = r.pick(&[0, 0, 0, 0, 0, 0, 30, 60]);
    for cell in 0..p.cells() {
        p.marks[cell as usize] = marks(r, p, cell, d, both);
    }
}

pub fn any_ends(r: &mut Random, p: &mut Problem) {
    p.source = r.below(p.cells());
    p.sink = (p.source + 1 + r.below(p.cells() - 1)) % p.cells();
}

// The ends in the first and the last column (or row, where the plan is taller than wide).
pub fn far_ends(r: &mut Random, p: &mut Problem) {
    if p.width >= p.height {
        p.source = r.below(p.height) * p.width;
        p.sink = r.below(p.height) * p.width + p.width - 1;
    } else {
        p.source = r.below(p.width);
        p.sink = (p.height - 1) * p.width + r.below(p.width);
    }
    if p.source == p.sink {
        any_ends(r, p);
    }
    if r.chance(50) {
        std::mem::swap(&mut p.source, &mut p.sink);
    }
}

// A corridor without sites in row 0; taps and open cells only in the rows below, which are cut into dead ends.
fn dead_ends(r: &mut Random) -> Problem {
    let height = r.within(2, 3);
    let mut p = sized(r.within(3, 9), height);
    let sites = r.pick(&[30, 60, 100]);
    let side_cuts = r.pick(&[0, 70, 100]);
    for cell in 0..p.cells() {
        let row = cell / p.width;
        let mut m = BLOCKED;
        if row > 0 && r.chance(sites) {
            m = r.pick(&[0, TAP, TAP, BLOCKED | TAP]);
        }
        if row > 0 && cell % p.width + 1 < p.width && r.chance(side_cuts) {
            m |= CUT_RIGHT;
        }
        p.marks[cell as usize] = m;
    }
    p.source = r.below(p.width);
    p.sink = (p.source + 1 + r.below(p.width - 1)) % p.width;
    p
}

// A wall of cuts with a gap, and the ends on its two sides.
fn crossing(r: &mut Random) -> Problem {
    let mut p = sized(r.within(3, 8), r.within(2, 6));
    let d = Density { cut: 0, ..density(r) };
    scatter(r, &mut p, d);
    let wall = r.below(p.width - 1);
    let gap = r.below(p.height);
    for row in 0..p.height {
        if row != gap {
            p.marks[(row * p.width + wall) as usize] |= CUT_RIGHT;
        }
    }
    p.source = r.below(p.height) * p.width;
    p.sink = r.below(p.height) * p.width + p.width - 1;
    if r.chance(50) {
        std::mem::swap(&mut p.source, &mut p.sink);
    }
    p
}

// Taps in the top row, each on a way of its own down to a row of open cells; on the next way, at the other end of that
// row, the one horizontal step stands a row lower. It adds load, vertical steps cost delay in proportion to the load, and
// the open cells take the load away. So each tap is dearer to reach and cheaper to leave than the one before it: from
// each only the next can be reached, and each time the row is walked. Then something may be changed.
pub fn ratchet(r: &mut Random) -> Problem {
    let n = r.within(4, 8); // spans
    let mut p = sized(n + 3, n + 2);
    let (w, bottom) = (p.width, n + 1);
    let at = |row: u32, column: u32| row * w + column;
    let foot = |way: u32| way / 2 + if way % 2 == 0 { 0 } else { n / 2 + 2 }; // a column
    let top = |way: u32| at(0, foot(way) + 1);
    let mut lines: Vec<Vec<u32>> = vec![(0..w).map(|c| at(bottom, c)).collect()]; // chains of joined cells
    for way in 0..=n {
        let (upper, lower) = ((0..=way).map(|row| at(row, foot(way) + 1)), (way..=bottom).map(|row| at(row, foot(way))));
        lines.push(upper.chain(lower).collect());
    }
    let joined = |a: u32, b: u32| lines.iter().any(|line| line.windows(2).any(|pair| pair == [a, b] || pair == [b, a]));
    let taps: Vec<u32> = (1..n).map(top).collect();
    for cell in 0..p.cells() {
        let mut m = if taps.contains(&cell) { TAP } else { BLOCKED };
        if cell / w == bottom {
            m = 0;
        }
        if cell % w + 1 < w && !joined(cell, cell + 1) {
            m |= CUT_RIGHT;
        }
        if cell / w < bottom && !joined(cell, cell + w) {
            m |= CUT_BELOW;
        }
        p.marks[cell as usize] = m;
    }
    (p.sink, p.source) = (top(0), top(n));
    let (load, steep) = (r.within(1, 3), r.within(1, 3));
    p.register = Register { r: r.below(steep), k: r.below(3), c: 0, setup: r.below(3) };
    p.horizontal = Wire { r: 0, c: load };
    p.vertical = Wire { r: steep, c: 0 };
    p.buffers = vec![Buffer::default()];
    p.period = load * (steep * (n + 2) + p.register.r) + p.register.k + p.register.setup;
    p.limit = r.pick(&[load, 2 * load, 3 * load, 63]);
    match r.below(8) {
        0 => p.period += r.below(4),
        1 => p.period -= r.below(4),
        2 => p.marks[r.below(w * bottom) as usize] ^= r.pick(&[BLOCKED, TAP, CUT_BELOW]),
        3 => std::mem::swap(&mut p.source, &mut p.sink),
        4 => p.marks[r.pick(&taps) as usize] |= BLOCKED,
        _ => {}
    }
    p
}

pub fn plan(r: &mut Random, shape: usize) -> Problem {
    let d = density(r);
    match shape {
        0 => {
            let n = r.within(2, 14);
            let mut p = turned(r, n, 1);
            scatter(r, &mut p, Density { cut: d.cut / 10, ..d });
            far_ends(r, &mut p);
            p
        }
        1 => {
            let n = r.within(1, 9);
            let mut p = turned(r, n, 2);
            scatter(r, &mut p, d);
            any_ends(r, &mut p);
            p
        }
        2 => {
            let mut p = sized(r.within(2, 5), r.within(2, 5));
            scatter(r, &mut p, d);
            any_ends(r, &mut p);
            p
        }
        3 => {
            let (n, m) = (r.within(7, 14), r.within(1, 5));
            let mut p = turned(r, n, m);
            let sparse = Density { tap: r.within(8, 30), cut: d.cut / 3, blocked: r.pick(&[60, 90, 100]) };
            scatter(r, &mut p, sparse);
            far_ends(r, &mut p);
            p
        }
        4 => dead_ends(r),
        5 => crossing(r),
        _ => {
            let (w, h) = r.pick(&[(16, 8), (8, 16), (32, 4), (4, 32), (11, 11), (12, 10), (25, 5)]);
            let mut p = sized(w, h);
            scatter(r, &mut p, d);
            if r.chance(50) {
                any_ends(r, &mut p);
            } else {
                far_ends(r, &mut p);
            }
            p
        }
    }
}

// A number of one of the kinds: small, middling, the whole range, or its ends.
fn number(r: &mut Random, kind: u32, range: u32) -> u32 {
    if r.chance(12) {
        return 0;
    }
    match kind {
        0 => r.within(0, 3.min(range)),
        1 => r.within(0, 12.min(range)),
        2 => r.within(0, range),
        _ => r.pick(&[0, 1, range - 1, range, range / 2]),
    }
}

pub fn tables(r: &mut Random, p: &mut Problem, kind: u32) {
    let n = |r: &mut Random, range: u32| {
        let kind = if kind == 4 { r.below(3) } else { kind };
        number(r, kind, range)
    };
    p.register = Register { r: n(r, 255), k: n(r, 1_000), c: n(r, 63), setup: n(r, 30_000) };
    if r.chance(if kind >= 2 { 80 } else { 20 }) {
        p.register.setup = r.below(10); // a large setup leaves little to plan
    }
    p.horizontal = Wire { r: n(r, 255), c: n(r, 63) };
    p.vertical = if r.chance(30) { p.horizontal } else { Wire { r: n(r, 255), c: n(r, 63) } };
    if r.chance(15) {
        p.vertical = Wire { r: 0, c: 0 };
    }
    if kind >= 2 && r.chance(60) {
        // Light wires, so that a route may be long.
        p.horizontal.c %= 8;
        p.vertical.c %= 8;
    }
    let count = r.pick(&[0, 0, 0, 0, 1, 1, 1, 2, 2, 3, 4, 5, 6]);
    for _ in 0..count {
        let b = match p.buffers.last() {
            Some(&b) if r.chance(15) => b,
            _ => Buffer { r: n(r, 255), k: n(r, 1_000), c: n(r, 63) },
        };
        p.buffers.push(b);
    }
    if r.chance(60) {
        for b in &mut p.buffers {
            // A cheap buffer is used; a light one drives weakly, so that two kinds may serve one route.
            b.c %= 6;
            b.r = 1 + (b.r % 4) + (6 - b.c) / 2;
            b.k %= 5;
        }
    }
}

// The least period with which this route stays legal.
fn least_period(closings: &[u64]) -> u32 {
    closings.iter().max().map_or(1, |&most| (most.div_ceil(2) as u32).max(1))
}

// How far T and L are taken down.
enum Goal {
    Turns(u32),     // from threshold to threshold, so many times
    Registers(u32), // until the best route has so many registers
    Tightest,       // the last that has a route
    JustNone,       // the first that has none
}

fn goal(r: &mut Random) -> Goal {
    match r.below(100) {
        0..20 => Goal::Turns(r.below(5)),
        20..62 => Goal::Registers(r.within(1, 6)),
        62..74 => Goal::Registers(r.within(5, 12)),
        74..82 => Goal::Tightest,
        _ => Goal::JustNone,
    }
}

// What became of a drawn problem.
enum Drawn {
    Fits,
    NoRoute,  // not with the longest period
    TooLarge, // its search would follow too many states
}

const LONGEST: u32 = 30_000; // ticks

// A skew before T is chosen: a good share has none.
pub fn small_skew(r: &mut Random) -> u32 {
    let (some, more) = (r.within(1, 4), r.within(1, 40));
    r.pick(&[0, 0, 0, 0, 0, some, some, some, more])
}

// A skew about T, or the largest.
pub fn near_skew(r: &mut Random, period: u32) -> u32 {
    r.pick(&[period - 1, period, period, period + 1, period + 2, LONGEST]).min(LONGEST)
}

// More skew and a longer T by one number of ticks: every span keeps its spare figure.
fn shift(r: &mut Random, p: &mut Problem) {
    let most = LONGEST - p.period.max(p.skew);
    let (any, little) = (r.below(most + 1), r.below(most.min(100) + 1));
    let by = r.pick(&[any, little, most]);
    p.period += by;
    p.skew += by;
}

// Nothing but buffers takes time: a span may close with all of T taken by the skew.
fn timeless(p: &mut Problem) {
    p.register = Register { c: p.register.c, ..Register::default() };
    (p.horizontal.r, p.vertical.r) = (0, 0);
}

// The skew after T is chosen.
fn set_skew(r: &mut Random, p: &mut Problem) {
    match r.below(100) {
        0..15 => shift(r, p),
        15..18 => p.skew = near_skew(r, p.period),
        18..24 => {
            timeless(p);
            p.skew = near_skew(r, p.period);
        }
        _ => {}
    }
}

// T and L: first some with which there is a route, then down from threshold to threshold.
fn tighten(r: &mut Random, p: &mut Problem, most: usize) -> Drawn {
    p.limit = if r.chance(70) { 63 } else { r.within(p.register.c, 63) };
    p.period = r.within(1, 40);
    let mut best = search::best(p, most);
    while let Ok(None) = best {
        if p.period == LONGEST {
            return Drawn::NoRoute;
        }
        p.period = (p.period * r.within(2, 4)).min(LONGEST);
        best = search::best(p, most);
    }
    let goal = goal(r);
    let mut turns = 0;
    while let Ok(Some(route)) = &best {
        let measured = legal(p, route).expect("the search's route is legal");
        let least = least_period(&measured.closings);
        let reached = match goal {
            Goal::Turns(n) => turns == n,
            Goal::Registers(k) => registers(route) >= k,
            _ => false,
        };
        let before = (p.period, p.limit);
        if r.chance(12) && measured.greatest_load > 0 {
            p.limit = measured.greatest_load - 1;
        } else {
            let jump = if turns < 12 { r.within(1, 1 + least / 10) } else { 1 };
            p.period = least.saturating_sub(jump).max(1);
        }
        turns += 1;
        if !reached && (p.period, p.limit) != before {
            best = search::best(p, most);
        }
        let stays = matches!(goal, Goal::JustNone) || r.chance(10);
        if reached || (p.period, p.limit) == before || (matches!(best, Ok(None)) && !stays) {
            (p.period, p.limit) = before;
            if r.chance(40) {
                p.period = least; // just met
            }
            if r.chance(20) {
                p.limit = measured.greatest_load;
            }
            return Drawn::Fits;
        }
    }
    if best.is_ok() {
        Drawn::Fits
    } else {
        Drawn::TooLarge
    }
}

// A tap that the best route passes, with a register or without, gets both marks.
fn block_tap(r: &mut Random, p: &mut Problem, most: usize) {
    let route = search::best(p, most).ok().flatten().unwrap_or_default();
    let taps: Vec<u32> = route.iter().map(|visit| visit.0).filter(|&cell| p.marks[cell as usize] & TAP != 0).collect();
    if !taps.is_empty() {
        p.marks[r.pick(&taps) as usize] |= BLOCKED;
    }
}

pub struct Job {
    pub shape: usize,
    pub damaged: bool,
    pub bytes: Vec<u8>,
}

// A problem within all ranges, with its shape. None: its search would follow too many states.
pub fn problem(r: &mut Random, most: usize) -> Option<(usize, Problem)> {
    let (shape, mut p) = tightened(r, most)?;
    set_skew(r, &mut p);
    if r.chance(12) {
        block_tap(r, &mut p, most);
    }
    Some((shape, p))
}

fn tightened(r: &mut Random, most: usize) -> Option<(usize, Problem)> {
    loop {
        let shape = r.pick(&[0, 0, 0, 1, 1, 2, 2, 2, 3, 3, 3, 4, 4, 5, 6, RATCHET]);
        if shape == RATCHET {
            return Some((shape, ratchet(r)));
        }
        let mut p = plan(r, shape);
        let kind = if shape == 6 { r.pick(&[0, 0, 1, 4]) } else { r.pick(&[0, 0, 0, 1, 1, 2, 2, 3, 4]) };
        tables(r, &mut p, kind);
        p.skew = small_skew(r);
        match tighten(r, &mut p, most) {
            Drawn::TooLarge => return None,
            Drawn::NoRoute if r.chance(85) => continue, // a few are enough
            _ => return Some((shape, p)),
        }
    }
}

// One number set outside its range.
fn spoil(r: &mut Random, p: &Problem, list: &mut [u32]) {
    let cells = p.marks.len();
    let tables = 2 + cells;
    let above = |r: &mut Random, most: u32| match r.below(3) {
        0 => most + 1,
        1 => r.within(most + 1, 65_535),
        _ => r.pick(&[most + 1, 65_535, 128, 16_384]).max(most + 1),
    };
    match r.below(15) {
        0 => list[0] = r.pick(&[0, 33, 65_535]),
        1 => list[1] = r.pick(&[0, 33, 65_535]),
        2 => (list[0], list[1]) = r.pick(&[(13, 10), (32, 32), (43, 3), (129, 1), (5, 26), (32, 5)]),
        3 => list[2 + r.below(cells as u32) as usize] = above(r, 15),
        4 => {
            let row = r.below(p.height);
            list[2 + (row * p.width + p.width - 1) as usize] |= CUT_RIGHT;
        }
        5 => {
            let column = r.below(p.width);
            list[2 + ((p.height - 1) * p.width + column) as usize] |= CUT_BELOW;
        }
        6 => {
            let (place, most) = r.pick(&[(0, 255), (1, 1_000), (2, 63), (3, 30_000)]);
            list[tables + place] = above(r, most);
        }
        7 => {
            let (place, most) = r.pick(&[(4, 255), (5, 63), (6, 255), (7, 63)]);
            list[tables + place] = above(r, most);
        }
        8 => list[tables + 8] = if r.chance(30) { 0 } else { above(r, 30_000) },
        9 => list[tables + 9] = above(r, 30_000),
        10 => list[tables + 10] = above(r, 63),
        11..=13 => {
            let end = r.below(2) as usize;
            list[tables + 11 + end] = if r.chance(40) { list[tables + 12 - end] } else { above(r, cells as u32 - 1) };
        }
        _ => {
            if p.buffers.is_empty() || r.chance(30) {
                list[tables + 13] = above(r, 6);
            } else {
                let place = r.below(p.buffers.len() as u32) as usize;
                let (field, most) = r.pick(&[(0, 255), (1, 1_000), (2, 63)]);
                list[tables + 14 + 3 * place + field] = above(r, most);
            }
        }
    }
}

// One number written in a form that is no number of a job.
fn misspell(r: &mut Random, list: &[u32]) -> Vec<u8> {
    let at = r.below(list.len() as u32) as usize;
    let mut out = job::write(&list[..at]);
    match r.below(4) {
        0 => {
            // a last byte of zero
            let mut bytes = job::encode(list[at]);
            *bytes.last_mut().unwrap() |= 128;
            out.extend(bytes);
            out.push(0);
        }
        1 => out.extend([r.next() as u8 | 128, r.next() as u8 | 128, r.next() as u8 | 128, r.below(4) as u8]),
        2 => out.extend(job::encode(if r.chance(50) { 65_536 } else { r.within(65_536, 2_097_151) })),
        _ => {
            let zero = r.pick(&[2, 3]);
            out.extend(&[128, 128, 128][..zero - 1]);
            out.push(0);
        }
    }
    out.extend(job::write(&list[at + 1..]));
    out
}

fn damage(r: &mut Random, bytes: &mut Vec<u8>) {
    let n = bytes.len() as u32;
    match r.below(8) {
        0 | 1 => {
            for _ in 0..r.within(1, 3) {
                let at = r.below(n) as usize;
                bytes[at] ^= 1 << r.below(8);
            }
        }
        2 => {
            let at = r.below(n) as usize;
            bytes[at] = r.next() as u8;
        }
        3 => bytes.truncate(r.below(n) as usize),
        4 => {
            let more = r.pick(&[1, 1, 2, 5, 300]);
            for _ in 0..more {
                let byte = r.next() as u8;
                bytes.push(if r.chance(30) { 0 } else { byte });
            }
        }
        5 => {
            bytes.remove(r.below(n) as usize);
        }
        6 => {
            let at = r.below(n + 1) as usize;
            bytes.insert(at, r.next() as u8);
        }
        _ => {
            let cells = r.below(30) as u8;
            *bytes = (0..r.below(60)).map(|_| r.next() as u8).collect();
            if bytes.len() > 2 && r.chance(80) {
                bytes[0] = cells; // past the first test, now and then
                bytes[1] = 1;
            }
        }
    }
}

// The next job. None: its search would follow too many states.
pub fn job(r: &mut Random, most: usize) -> Option<Job> {
    let (shape, p) = problem(r, most)?;
    let mut list = job::numbers(&p);
    let turn = r.below(100);
    let mut damaged = true;
    let bytes = match turn {
        0..8 => {
            for _ in 0..r.pick(&[1, 1, 1, 2, 3]) {
                spoil(r, &p, &mut list);
            }
            let mut bytes = job::write(&list);
            if r.chance(20) {
                damage(r, &mut bytes);
            }
            bytes
        }
        8..11 => misspell(r, &list),
        11..18 => {
            let mut bytes = job::write(&list);
            damage(r, &mut bytes);
            bytes
        }
        _ => {
            damaged = false;
            job::write(&list)
        }
    };
    Some(Job { shape, damaged, bytes })
}
