// The verdict on a list of visits, from document 01's "Legal routes" and document 02's C-11, C-12, C-16 and C-17: visit by
// visit, test by test. It has no rule from tests/brute/rules.rs, whose `legal` it is compared with.

use crate::rules::{Problem, Visit, Wire};

// Why a visit is at fault; several causes make one fault.
#[derive(Clone, Copy, Debug, PartialEq)]
pub enum Cause {
    Outside,
    NotTheSink,
    NotTheSource,
    SameCell,
    NoNeighbour,
    CutWire,
    EndCode,
    NoCode,   // 8 and more
    NoBuffer, // 1 to 6, and the tables have fewer
    BufferOnEnd,
    RegisterOnEnd,
    NoTap,
    BlockedTap, // under a register
    Blocked,    // under a buffer
    LoadBefore, // its gate
    LoadAfter,
    Period(u128), // missed by so many half-ticks
}

impl Cause {
    pub fn fault(self) -> &'static str {
        match self {
            Cause::Outside | Cause::NotTheSink | Cause::NotTheSource => "cell",
            Cause::SameCell | Cause::NoNeighbour | Cause::CutWire => "wire",
            Cause::LoadBefore | Cause::LoadAfter => "load",
            Cause::Period(_) => "period",
            _ => "site",
        }
    }
}

type Tested<T> = Result<T, Cause>;

fn test(holds: bool, cause: Cause) -> Tested<()> {
    if holds {
        Ok(())
    } else {
        Err(cause)
    }
}

// The wire from a cell to the next, both in the plan. Its cut stands with the upper or left cell of the two.
pub fn wire(p: &Problem, from: u32, to: u32) -> Tested<Wire> {
    test(from != to, Cause::SameCell)?;
    let ((row, column), (row2, column2)) = ((from / p.width, from % p.width), (to / p.width, to % p.width));
    let (wire, cut) = match (row.abs_diff(row2), column.abs_diff(column2)) {
        (0, 1) => (p.horizontal, 4),
        (1, 0) => (p.vertical, 8),
        _ => return Err(Cause::NoNeighbour),
    };
    test(p.marks[from.min(to) as usize] & cut == 0, Cause::CutWire)?;
    Ok(wire)
}

// Whether the code may stand at the visit.
fn site(p: &Problem, cell: u32, code: u32, last: bool) -> Tested<()> {
    if last {
        return test(code == 7, Cause::EndCode);
    }
    let (marks, end) = (p.marks[cell as usize], cell == p.source || cell == p.sink);
    match code {
        0 => Ok(()),
        7 => test(!end, Cause::RegisterOnEnd)
            .and(test(marks & 2 == 2, Cause::NoTap))
            .and(test(marks & 1 == 0, Cause::BlockedTap)),
        8.. => Err(Cause::NoCode),
        _ => test(code as usize <= p.buffers.len(), Cause::NoBuffer)
            .and(test(!end, Cause::BufferOnEnd))
            .and(test(marks & 1 == 0, Cause::Blocked)),
    }
}

// Load and delay (half-ticks) of the span so far, and the smallest spare figure of those before it.
#[derive(Clone, Copy)]
struct Span {
    load: u128,
    delay: u128,
    slack: u128,
}

fn fresh(p: &Problem, slack: u128) -> Span {
    Span { load: p.register.c.into(), delay: 2 * p.register.setup as u128, slack }
}

fn first(p: &Problem, (cell, code): Visit) -> Tested<Span> {
    test(cell < p.cells(), Cause::Outside)?;
    test(cell == p.sink, Cause::NotTheSink)?;
    test(code == 7, Cause::EndCode)?;
    test(p.register.c <= p.limit, Cause::LoadAfter)?;
    Ok(fresh(p, u128::MAX))
}

fn next(p: &Problem, span: Span, from: u32, (cell, code): Visit, last: bool) -> Tested<Span> {
    test(cell < p.cells(), Cause::Outside)?;
    test(!last || cell == p.source, Cause::NotTheSource)?;
    let wire = wire(p, from, cell)?;
    site(p, cell, code, last)?;
    let delay = span.delay + wire.r as u128 * (2 * span.load + wire.c as u128);
    let load = span.load + wire.c as u128;
    let limit = p.limit as u128;
    test(load <= limit, Cause::LoadBefore)?;
    let through = |r: u32, k: u32| delay + 2 * (r as u128 * load + k as u128);
    match code {
        0 => Ok(Span { load, delay, ..span }),
        7 => {
            let (closing, allowed) = (through(p.register.r, p.register.k), 2 * p.period as u128);
            let needed = closing + 2 * p.skew as u128;
            test(needed <= allowed, Cause::Period(needed.saturating_sub(allowed)))?;
            Ok(fresh(p, span.slack.min(allowed - needed)))
        }
        _ => {
            let b = p.buffers[code as usize - 1];
            test(b.c as u128 <= limit, Cause::LoadAfter)?;
            Ok(Span { load: b.c.into(), delay: through(b.r, b.k), ..span })
        }
    }
}

// The spare half-ticks, or the first visit at fault, and why. The question has passed refusals 1 to 5, the list has two
// visits or more.
pub fn judge(p: &Problem, visits: &[Visit]) -> Result<u128, (usize, Cause)> {
    let last = visits.len() - 1;
    let mut span = first(p, visits[0]).map_err(|cause| (0, cause))?;
    for at in 1..=last {
        span = next(p, span, visits[at - 1].0, visits[at], at == last).map_err(|cause| (at, cause))?;
    }
    Ok(span.slack)
}
