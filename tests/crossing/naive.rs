// A check of the search: every list of visits up to some length, tested whole and ranked by the definition.

use crate::best;
use crate::net::{legal, Net, FIFO};
use crate::rules::{Visit, REGISTER};

type Rank = (u64, u32, Vec<Visit>); // latency, steps, the list

#[derive(Default)]
struct Tried {
    lists: u64,
    best: Option<Rank>,
    splits: Vec<u32>, // the sink registers of lists with the best's latency
    short: Vec<u32>,  // and with its steps
}

impl Tried {
    fn rank(&mut self, n: &Net, list: &[Visit]) {
        let figures = n.figures(list);
        let new = (figures.latency, figures.steps, list.to_vec());
        let old = self.best.as_ref().map(|old| (old.0, old.1));
        if old.is_none_or(|old| new.0 < old.0) {
            self.splits.clear();
        }
        if old.is_none_or(|old| (new.0, new.1) < old) {
            self.short.clear();
        }
        if old.is_none_or(|old| new.0 <= old.0) {
            self.splits.push(figures.sink_registers);
        }
        if old.is_none_or(|old| (new.0, new.1) <= old) {
            self.short.push(figures.sink_registers);
        }
        if self.best.as_ref().is_none_or(|old| new < *old) {
            self.best = Some(new);
        }
    }

    // Extends the list by every cell and code; only lists whose cells are joined are kept.
    fn extend(&mut self, n: &Net, list: &mut Vec<Visit>, most: usize) {
        self.lists += 1;
        if list[list.len() - 1].1 == REGISTER && legal(n, list).is_some() {
            self.rank(n, list);
        }
        if list.len() == most {
            return;
        }
        let here = list[list.len() - 1].0;
        for cell in (0..n.problem.cells()).filter(|&cell| n.problem.wire(here, cell).is_some()) {
            for code in (0..=n.problem.buffers.len() as u32).chain([REGISTER, FIFO]) {
                list.push((cell, code));
                self.extend(n, list, most);
                list.pop();
            }
        }
    }
}

fn sorted(mut list: Vec<u32>) -> Vec<u32> {
    list.sort();
    list.dedup();
    list
}

pub struct Agreed {
    pub lists: u64,
    pub route: bool,
    pub tie: bool, // two splits with the best's latency and steps
}

// Does the search agree with the best of all lists of at most `most` visits? The splits, too.
pub fn agrees(n: &Net, most: usize) -> Result<Agreed, String> {
    let mut tried = Tried::default();
    tried.extend(n, &mut vec![(n.problem.sink, REGISTER)], most);
    let found = best::search(n, usize::MAX).expect("no bound was set");
    let route = found.as_ref().map(|found| found.route());
    let rank = route.as_ref().map(|route| (n.figures(route).latency, route.len() as u32 - 1, route.clone()));
    let enumerated = route.as_ref().is_some_and(|route| route.len() <= most);
    let (splits, short) = (sorted(tried.splits), sorted(tried.short));
    let same = match (&found, &tried.best) {
        (None, naive) => naive.is_none(),
        (Some(found), naive) if enumerated => {
            let all = found.splits(false);
            *naive == rank && found.splits(true) == short && splits.iter().all(|k| all.contains(k))
        }
        // The best route is too long to be enumerated: it must rank before all that were.
        (Some(_), naive) => naive.is_none() || rank < *naive,
    };
    let labelled = found.iter().all(|found| {
        let figures = n.figures(route.as_ref().unwrap());
        (found.latency() as u64, found.steps()) == (figures.latency, figures.steps)
    });
    if same && labelled {
        Ok(Agreed { lists: tried.lists, route: route.is_some(), tie: enumerated && short.len() > 1 })
    } else {
        Err(format!("{n:?}\nsearch {rank:?}\nenumeration {:?} {splits:?} {short:?}", tried.best))
    }
}
