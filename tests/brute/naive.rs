// A check of the search: every list of visits up to some length, tested whole and ranked by the definition.

use crate::rules::{legal, registers, Problem, Visit, REGISTER};
use crate::search;

type Rank = (u32, usize, Vec<Visit>);

fn rank(route: &[Visit]) -> Rank {
    (registers(route), route.len() - 1, route.to_vec())
}

// Extends the list by every cell and code; only lists whose cells are joined are kept.
fn extend(p: &Problem, list: &mut Vec<Visit>, most: usize, best: &mut Option<Rank>, tried: &mut u64) {
    *tried += 1;
    if list.len() > 1 && list[list.len() - 1].1 == REGISTER && legal(p, list).is_some() {
        let new = rank(list);
        if best.as_ref().is_none_or(|old| new < *old) {
            *best = Some(new);
        }
    }
    if list.len() == most {
        return;
    }
    let here = list[list.len() - 1].0;
    for cell in 0..p.cells() {
        if p.wire(here, cell).is_none() {
            continue;
        }
        for code in (0..=p.buffers.len() as u32).chain([REGISTER]) {
            list.push((cell, code));
            extend(p, list, most, best, tried);
            list.pop();
        }
    }
}

// Does the search agree with the best of all lists of at most `most` visits? Gives the number of lists tried.
pub fn agrees(p: &Problem, most: usize) -> Result<u64, String> {
    let mut naive = None;
    let mut tried = 0;
    extend(p, &mut vec![(p.sink, REGISTER)], most, &mut naive, &mut tried);
    let found = search::best(p, usize::MAX).expect("no bound was set");
    let same = match (&found, &naive) {
        (None, None) => true,
        (None, Some(_)) => false,
        (Some(route), _) if route.len() <= most => naive == Some(rank(route)),
        // The best route is too long to be enumerated: it must rank before all that were.
        (Some(route), Some(other)) => rank(route) < *other,
        (Some(_), None) => true,
    };
    if same {
        Ok(tried)
    } else {
        Err(format!("{p:?}\nsearch {found:?}\nenumeration {naive:?}"))
    }
}
