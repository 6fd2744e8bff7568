// The answer of before C-17 beside the answer of now, both with ample room: it changes exactly where the old route has a
// register or a FIFO, between its ends, on a cell with both marks.

use crate::rules::{Problem, Visit, REGISTER};

// The best route and its figures, where there is one.
pub type Best<'a> = Option<(&'a [Visit], Vec<u64>)>;

pub const CLASSES: [&str; 9] = [
    "another route",
    "another route, the same figures",
    "none, a route before",
    "the same route, both marks somewhere",
    "on a cell passed with code 0",
    "on the sink's cell",
    "on the source's cell",
    "on an end's cell alone",
    "none, nor before, both marks somewhere",
];

// Which of the classes hold. The error tells that the answer changes, or stays, against the rule.
pub fn classes(p: &Problem, before: &Best, now: &Best) -> Result<[bool; 9], String> {
    let old: &[Visit] = before.as_ref().map_or(&[], |best| best.0);
    let inner = &old[old.len().min(1)..old.len().max(1) - 1];
    let displaced = inner.iter().any(|&(cell, code)| code >= REGISTER && p.has_both_marks(cell));
    let changed = before != now;
    if changed != displaced {
        return Err(format!("C-17 does not tell this change: {p:?}\nbefore {before:?}\nnow {now:?}"));
    }
    let same = before.is_some() && !changed;
    let figures = |best: &Best| best.as_ref().map(|best| best.1.clone());
    let ends = [p.sink, p.source].map(|end| p.has_both_marks(end));
    let marked = (0..p.cells()).any(|cell| p.has_both_marks(cell));
    let between = (0..p.cells()).any(|cell| p.has_both_marks(cell) && !p.is_end(cell));
    let passed = inner.iter().any(|&(cell, code)| code == 0 && p.has_both_marks(cell) && !p.is_end(cell));
    Ok([
        changed && now.is_some(),
        changed && figures(before) == figures(now),
        changed && now.is_none(),
        same && marked,
        same && passed,
        same && ends[0],
        same && ends[1],
        same && marked && !between,
        before.is_none() && marked,
    ])
}
