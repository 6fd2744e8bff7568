// The question for a route between two clocks: document 01's refusals in their order, then the answer of the search.

use crate::net::{Figures, Net};
use crate::plan::Fault;
use crate::question::{faults_by, scratch_fault, told, words};
use crate::rules::Visit;
use crate::search::TooLarge;

pub const EACH: u32 = 512; // scratch words that are needed for a cell

#[derive(Debug)]
pub enum Crossed {
    Refused(Vec<Fault>, Option<String>), // with the place of refusal 4
    None,
    NoRoom(Vec<Visit>, Figures),
    Found(Vec<Visit>, Figures),
}

impl Crossed {
    // The answer, so many scratch and visit words lent; `best` gives the best route.
    pub fn of<F>(n: &Net, lent: u32, room: u32, best: F) -> Result<Crossed, TooLarge>
    where
        F: FnOnce() -> Result<Option<Vec<Visit>>, TooLarge>,
    {
        let place = n.fault();
        let mut faults = faults_by(&n.problem, place.is_some());
        faults.extend(scratch_fault(&n.problem, lent, EACH));
        if !faults.is_empty() {
            return Ok(Crossed::Refused(faults, place));
        }
        let Some(route) = best()? else { return Ok(Crossed::None) };
        let figures = n.figures(&route);
        let fits = 2 * route.len() <= room as usize;
        Ok(if fits { Crossed::Found(route, figures) } else { Crossed::NoRoom(route, figures) })
    }

    pub fn number(&self) -> u32 {
        match self {
            Crossed::Refused(faults, _) => faults[0].0,
            Crossed::None => 7,
            Crossed::NoRoom(..) => 8,
            Crossed::Found(..) => 0,
        }
    }

    pub fn fault(&self) -> Option<String> {
        match self {
            Crossed::Refused(faults, place) if faults[0].0 == 4 => place.clone(),
            _ => None,
        }
    }

    // The best route, whether it was filled in or not.
    pub fn route(&self) -> Option<(&[Visit], &Figures)> {
        match self {
            Crossed::Found(route, figures) | Crossed::NoRoom(route, figures) => Some((route, figures)),
            _ => None,
        }
    }

    // The scratch words that are zero afterwards.
    pub fn zeroed(&self, n: &Net) -> u32 {
        if let Crossed::Refused(..) = self {
            0
        } else {
            EACH * n.problem.cells()
        }
    }

    // The visit words that are filled.
    pub fn filled(&self) -> Vec<u32> {
        match self {
            Crossed::Found(route, _) => words(route),
            _ => Vec::new(),
        }
    }

    // What the program prints after the depth.
    pub fn text(&self, n: &Net) -> String {
        let figures = self.route().map_or([0; 5], |(_, figures)| figures.numbers());
        told(self.fault(), &figures, &self.filled(), self.zeroed(n))
    }
}
