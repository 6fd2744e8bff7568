// Nets about their thresholds: a FIFO quicker than the register over one wire and slower over the other, the periods taken
// down from one to the next, the FIFO strained, all delays shifted, the skew about the periods.

use crate::best;
use crate::make::{near_skew, small_skew};
use crate::net::{legal, Net};
use crate::plans;
use crate::random::Random;
use crate::rules::{Register, Visit};
use crate::search::TooLarge;

const LONGEST: u32 = 30_000; // ticks

// The source's period by the sink's.
const RATIOS: [(u32, u32); 18] = [
    (1, 1), (1, 1), (1, 1), (1, 1), (2, 1), (2, 1), (1, 2), (1, 2), (3, 1),
    (1, 3), (4, 1), (1, 5), (2, 3), (3, 2), (3, 4), (5, 3), (2, 5), (7, 6),
];

type Route = Option<Vec<Visit>>;

// The least periods with which a route stays legal: the source's, then the sink's.
fn least(n: &Net, route: &[Visit]) -> [u32; 2] {
    let measured = legal(n, route).expect("the search's route is legal");
    [1, 0].map(|side| {
        let closings = measured.spans.iter().filter(|span| span.fifos == side).map(|span| span.closing);
        (closings.max().unwrap().div_ceil(2) as u32).max(1)
    })
}

fn set(n: &mut Net, ratio: (u32, u32), base: u32) {
    (n.source_period, n.problem.period) = (ratio.0 * base, ratio.1 * base);
}

// Both periods in a ratio: first some with which there is a route, then down from threshold to threshold.
fn in_ratio(r: &mut Random, n: &mut Net, most: usize) -> Result<Route, TooLarge> {
    let ratio = r.pick(&RATIOS);
    let longest = LONGEST / ratio.0.max(ratio.1);
    let mut base = r.within(1, 30);
    set(n, ratio, base);
    let mut route = best::best(n, most)?;
    while route.is_none() && base < longest {
        base = (base * r.within(2, 4)).min(longest);
        set(n, ratio, base);
        route = best::best(n, most)?;
    }
    let turns = r.pick(&[0, 1, 2, 3, 4, 6, 20]);
    for turn in 0..=turns {
        let Some(found) = &route else { break };
        let [source, sink] = least(n, found);
        let just = source.div_ceil(ratio.0).max(sink.div_ceil(ratio.1));
        let last = turn == turns;
        if last || just == 1 {
            set(n, ratio, if r.chance(50) { just } else { base });
            break;
        }
        let jump = if turn < 6 { r.within(1, 1 + just / 10) } else { 1 };
        set(n, ratio, just - jump.min(just - 1));
        let next = best::best(n, most)?;
        if next.is_none() && r.chance(70) {
            set(n, ratio, just); // it stays legal
            break;
        }
        (route, base) = (next, n.source_period / ratio.0);
    }
    Ok(route)
}

// One of the periods taken to what the route needs, one less, or a little more.
fn one_by_one(r: &mut Random, n: &mut Net, mut route: Route, most: usize) -> Result<(), TooLarge> {
    for _ in 0..r.within(1, 3) {
        let Some(found) = &route else { break };
        let (before, needed) = (n.clone(), least(n, found));
        let side = r.below(2) as usize;
        let period = (needed[side] + r.pick(&[0, 1, 1, 2, 3])).saturating_sub(r.pick(&[0, 1, 2])).clamp(1, LONGEST);
        *[&mut n.source_period, &mut n.problem.period][side] = period;
        let next = best::best(n, most)?;
        if next.is_none() && r.chance(70) {
            *n = before;
            break;
        }
        route = next;
    }
    Ok(())
}

// The FIFO, or the limit, just within or just beyond what can be legal.
fn strain(r: &mut Random, n: &mut Net, route: Option<&[Visit]>) {
    let limit = n.problem.limit;
    match r.below(12) {
        0 => n.fifo.c = limit,
        1 => n.fifo.c = (limit + 1).min(63),
        2 => n.fifo.setup = n.source_period.saturating_sub(r.below(8)),
        3 => n.fifo.setup = (n.source_period + r.pick(&[1, 1, 50])).min(LONGEST),
        4 => n.fifo.k = r.pick(&[1_000, n.problem.period.min(1_000)]),
        5 => (n.fifo.k, n.fifo.r) = (n.problem.period.saturating_sub(r.below(9)).min(1_000), r.below(2)),
        6 => n.fifo = n.problem.register,
        _ => {
            if let Some(measured) = route.and_then(|route| legal(n, route)) {
                n.problem.limit = measured.greatest_load.saturating_sub(r.below(2));
            }
        }
    }
}

// Later setups and longer periods by one number of ticks: every span keeps its spare figure.
fn shift(r: &mut Random, n: &mut Net) {
    let setups = n.fifo.setup.max(n.problem.register.setup);
    let most = LONGEST - setups.max(n.source_period).max(n.problem.period);
    let any = r.below(most + 1);
    let by = r.pick(&[any, most, most, most]);
    for number in [&mut n.source_period, &mut n.problem.period, &mut n.fifo.setup, &mut n.problem.register.setup] {
        *number += by;
    }
}

// More skew and longer periods by one number of ticks: every span keeps its spare figure here, too.
fn shift_skew(r: &mut Random, n: &mut Net) {
    let most = LONGEST - n.problem.skew.max(n.source_period).max(n.problem.period);
    let (any, little) = (r.below(most + 1), r.below(most.min(30) + 1));
    let by = r.pick(&[any, little, little, most]);
    for number in [&mut n.source_period, &mut n.problem.period, &mut n.problem.skew] {
        *number += by;
    }
}

// Nothing but buffers takes time: a span may close with all of its period taken by the skew.
fn timeless(n: &mut Net) {
    let p = &mut n.problem;
    for gate in [&mut p.register, &mut n.fifo] {
        *gate = Register { c: gate.c, ..Register::default() };
    }
    (p.horizontal.r, p.vertical.r) = (0, 0);
}

// The skew about one of the periods.
fn set_skew(r: &mut Random, n: &mut Net) {
    let period = r.pick(&[n.source_period, n.problem.period]);
    match r.below(100) {
        0..25 => shift_skew(r, n),
        25..30 => n.problem.skew = near_skew(r, period),
        30..36 => {
            timeless(n);
            n.problem.skew = near_skew(r, n.source_period.min(n.problem.period));
        }
        _ => {}
    }
}

// One wire lighter than the other, and a FIFO whose delay crosses the register's at a load between theirs.
fn cross_lines(r: &mut Random, n: &mut Net) {
    let p = &mut n.problem;
    let (mut light, mut heavy) = (&mut p.horizontal, &mut p.vertical);
    if r.chance(50) {
        std::mem::swap(&mut light, &mut heavy);
    }
    light.c = r.below(3);
    heavy.c = light.c + r.within(2, 6);
    p.limit = p.limit.max(2 * heavy.c + 4).min(63);
    let (at, by, g) = (r.within(light.c + 1, heavy.c), r.within(1, 4), p.register);
    let steep = Register { r: (g.r + by).min(255), c: r.below(2), ..g };
    let flat = Register { k: (g.k + by * at).min(1_000), c: r.below(2), ..g };
    (p.register, n.fifo) = if r.chance(50) { (steep, flat) } else { (flat, steep) };
}

// The next net. None: a search would follow too many states.
pub fn draw(r: &mut Random, most: usize) -> Option<Net> {
    let mut n = plans::draw(r);
    if n.source_period == 0 {
        n.problem.skew = small_skew(r);
        if r.chance(10) {
            cross_lines(r, &mut n);
        }
        let route = in_ratio(r, &mut n, most).ok()?;
        if r.chance(40) {
            one_by_one(r, &mut n, route, most).ok()?;
        }
    } else if r.chance(10) {
        n.problem.period += r.below(3);
    }
    if r.chance(12) {
        let route = best::best(&n, most).ok()?;
        strain(r, &mut n, route.as_deref());
    }
    if r.chance(20) {
        shift(r, &mut n);
    }
    set_skew(r, &mut n);
    if r.chance(10) {
        std::mem::swap(&mut n.problem.source, &mut n.problem.sink);
    }
    Some(n)
}
