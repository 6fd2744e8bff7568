// Plans and tables changed under a list, so that it just keeps the rules or just breaks one; and questions to be refused.

use crate::random::Random;
use crate::rules::{legal, Buffer, Measured, Problem, Visit, Wire};

// Longer than any list's delay.
pub const NO_PERIOD: u32 = 1 << 30;

// What the list comes to with the longest period and the highest limit.
fn unbounded(p: &Problem, list: &[Visit]) -> Option<Measured> {
    legal(&Problem { period: NO_PERIOD, limit: 63, ..p.clone() }, list)
}

fn slowest(measured: &Measured) -> u64 {
    *measured.closings.iter().max().unwrap()
}

// The period or the limit that the list just meets, or one less, or any period that it misses; the skew with which it
// just meets its period, or one more; or a wire cut, or a site taken away.
pub fn tune(r: &mut Random, p: &mut Problem, list: &[Visit]) {
    if r.chance(40) {
        make_odd(p, list);
    }
    let Some(measured) = unbounded(p, list) else { return };
    let least = slowest(&measured).div_ceil(2).max(1) as u32;
    let heaviest = list.iter().map(|visit| driven(p, visit.1)).max().unwrap();
    match r.below(22) {
        0 | 1 if least <= 30_000 => p.period = least,
        2 | 3 if 1 < least && least <= 30_001 => p.period = least - 1,
        4 if 1 < least => p.period = r.within(1, (least - 1).min(30_000)),
        5 => p.limit = measured.greatest_load,
        6 | 7 => p.limit = measured.greatest_load.saturating_sub(1),
        8 => p.limit = p.register.c.saturating_sub(r.below(2)),
        9 | 10 if heaviest > p.register.c => p.limit = heaviest - 1,
        11 | 12 => cut(r, p, list),
        15..19 => skew(r, p, slowest(&measured) - 2 * p.skew as u64),
        _ => resite(r, p, list),
    }
}

// The slowest span closes with this delay, the skew not in it.
fn skew(r: &mut Random, p: &mut Problem, closing: u64) {
    if closing > 2 * p.period as u64 {
        p.period = r.within(closing.div_ceil(2).min(30_000) as u32, 30_000);
    }
    let left = (2 * p.period as u64).saturating_sub(closing) as u32 / 2;
    let more = (left + r.within(1, 3)).min(30_000);
    let any = r.below(left + 1);
    p.skew = r.pick(&[left, left, more, more, left.saturating_sub(1), any, 30_000]);
}

// Another wire, with which the slowest span closes at an odd number of half-ticks, if one of four does that.
fn make_odd(p: &mut Problem, list: &[Visit]) {
    let (h, v) = (p.horizontal, p.vertical);
    let wires = [
        (Wire { r: h.r ^ 1, ..h }, v),
        (Wire { r: h.r | 1, c: h.c | 1 }, v),
        (h, Wire { r: v.r ^ 1, ..v }),
        (h, Wire { r: v.r | 1, c: v.c | 1 }),
    ];
    let with = |(horizontal, vertical)| Problem { horizontal, vertical, ..p.clone() };
    let odd = |other: &Problem| unbounded(other, list).is_some_and(|measured| slowest(&measured) % 2 == 1);
    if let Some(other) = wires.map(with).into_iter().find(odd) {
        *p = other;
    }
}

// The load that a buffer is itself.
fn driven(p: &Problem, code: u32) -> u32 {
    p.buffers.get((code as usize).wrapping_sub(1)).map_or(0, |b| b.c)
}

// One of the wires that the list goes over.
fn cut(r: &mut Random, p: &mut Problem, list: &[Visit]) {
    let steps = list.len() as u32 - 1;
    let at = if r.chance(50) { steps - 1 } else { r.below(steps) } as usize;
    let (low, high) = (list[at].0.min(list[at + 1].0), list[at].0.max(list[at + 1].0));
    p.marks[low as usize] |= if low / p.width == high / p.width { 4 } else { 8 };
}

// A cell with a gate gets other marks.
fn resite(r: &mut Random, p: &mut Problem, list: &[Visit]) {
    let gates: Vec<&Visit> = list[1..list.len() - 1].iter().filter(|visit| visit.1 != 0).collect();
    if !gates.is_empty() {
        let marks = &mut p.marks[r.pick(&gates).0 as usize];
        *marks = (*marks & 12) | r.pick(&[0, 1, 2, 3, 3]);
    }
}

fn spoil_table(r: &mut Random, p: &mut Problem) {
    match r.below(13) {
        0 => p.period = r.pick(&[0, 30_001, 65_535]),
        1 => p.limit = r.pick(&[64, 65_535]),
        2 => p.horizontal.r = r.pick(&[256, 65_535]),
        3 => p.vertical.c = r.pick(&[64, 65_535]),
        4 => {
            let g = &mut p.register;
            let number = r.pick(&[(256, 0), (1_001, 1), (64, 2), (30_001, 3)]);
            *[&mut g.r, &mut g.k, &mut g.c, &mut g.setup][number.1] = number.0;
        }
        5 => p.buffers.resize(r.pick(&[7, 8, 20]), Buffer::default()),
        place @ 6..12 => {
            let place = place as usize - 6;
            p.buffers.resize(p.buffers.len().max(place + 1), Buffer::default());
            let b = &mut p.buffers[place];
            let number = r.pick(&[(256, 0), (1_001, 1), (64, 2)]);
            *[&mut b.r, &mut b.k, &mut b.c][number.1] = number.0;
        }
        _ => p.skew = r.pick(&[30_001, 30_001, 65_535]),
    }
}

fn spoil_marks(r: &mut Random, p: &mut Problem) {
    let (w, h) = (p.width as usize, p.height as usize);
    let cell = r.below(p.cells()) as usize;
    match r.below(3) {
        0 => p.marks[cell] = r.pick(&[16, 17, 128, 255]),
        1 => p.marks[cell / w * w + w - 1] |= 4,
        _ => p.marks[(h - 1) * w + cell % w] |= 8,
    }
}

// One to three reasons to refuse.
pub fn spoil(r: &mut Random, p: &mut Problem) {
    let reasons = r.pick(&[1, 1, 2, 2, 3]);
    let mut chosen: Vec<u32> = (0..reasons).map(|_| r.below(7)).collect();
    chosen.sort();
    for reason in chosen {
        let end = if r.chance(50) { &mut p.source } else { &mut p.sink };
        match reason {
            0 => *end = r.pick(&[p.width * p.height, 65_535]),
            1..4 => spoil_table(r, p),
            4 => spoil_marks(r, p),
            5 if r.chance(50) => p.marks.push(0),
            5 => drop(p.marks.pop()),
            _ if r.chance(50) => p.width = r.pick(&[0, 33, 65_535]),
            _ => p.height = r.pick(&[0, 33, 65_535]),
        }
    }
    if r.chance(15) {
        p.sink = p.source;
    }
}
