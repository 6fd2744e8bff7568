// The question why there is no route: a route's refusals 1 to 6, then 19 where there is one, else the reason.

use crate::plan::Fault;
use crate::question::{faults_with, place};
use crate::rules::{self, Problem};
use crate::search::TooLarge;
use crate::why::{chain, fits, period_for, slowest};

pub const LONGEST: u32 = 30_000; // ticks

const EVENTS: usize = 400_000; // the most that one question may follow

#[derive(Clone, Copy, Debug, PartialEq)]
pub enum Reason {
    Walled,
    Load,
    Period(u32),
    Short,
}

#[derive(Debug)]
pub enum Explained {
    Refused(Vec<Fault>, Option<rules::Fault>),
    RouteExists,
    Because(Reason),
}

// A reason, or None where a route exists; and the least delay that the slowest span has to be allowed.
fn reason(p: &Problem) -> Result<(Option<Reason>, Option<u64>), TooLarge> {
    if !chain(p) {
        return Ok((Some(Reason::Walled), None));
    }
    let slowest = slowest(p, EVENTS)?;
    assert_eq!(fits(p), slowest.is_some(), "the flood and the slowest span differ: {p:?}");
    let reason = slowest.map_or(Some(Reason::Load), |slowest| match period_for(slowest) {
        t if t <= p.period as u64 => None,
        t if t <= LONGEST as u64 => Some(Reason::Period(t as u32)),
        _ => Some(Reason::Short),
    });
    Ok((reason, slowest))
}

impl Explained {
    // The answer, `scratch` words lent; where a route fits, also the least delay that its slowest span has to be allowed.
    pub fn of(p: &Problem, scratch: u32) -> Result<(Explained, Option<u64>), TooLarge> {
        let faults = faults_with(p, scratch);
        if !faults.is_empty() {
            return Ok((Explained::Refused(faults, p.fault()), None));
        }
        let (reason, slowest) = reason(p)?;
        Ok((reason.map_or(Explained::RouteExists, Explained::Because), slowest))
    }

    pub fn number(&self) -> u32 {
        match self {
            Explained::Refused(faults, _) => faults[0].0,
            Explained::RouteExists => 19,
            Explained::Because(_) => 0,
        }
    }

    pub fn fault(&self) -> Option<String> {
        match self {
            Explained::Refused(faults, Some(fault)) if faults[0].0 == 4 => Some(place(*fault)),
            _ => None,
        }
    }

    // The scratch words that are zero afterwards.
    pub fn zeroed(&self, p: &Problem) -> u32 {
        if let Explained::Refused(..) = self {
            0
        } else {
            256 * p.cells()
        }
    }

    // What the program prints after the depth.
    pub fn text(&self, p: &Problem) -> String {
        let told = match self {
            Explained::Because(Reason::Walled) => "walled ".to_string(),
            Explained::Because(Reason::Load) => "load ".to_string(),
            Explained::Because(Reason::Period(t)) => format!("period {t} "),
            Explained::Because(Reason::Short) => "short ".to_string(),
            other => other.fault().map_or(String::new(), |place| format!("fault {place} ")),
        };
        format!("{told}zeroed {}", self.zeroed(p))
    }
}
