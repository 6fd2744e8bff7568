// The answer seen from both sides by the brute force's search of routes: a route at the period told and none one tick
// below it; none at the given period and none at the longest where another reason is told.

use crate::explained::{Explained, Reason, LONGEST};
use crate::rules::{Problem, Visit};
use crate::search;

// What the searches said that followed few enough states.
pub struct Seen {
    pub route: Option<Vec<Visit>>, // at the period told
    pub none_below: bool,          // one tick below it
    pub none_given: bool,          // at the given period
    pub none_longest: bool,        // at the longest
}

// The search at a period must say what is expected of it. Its route; None where it would follow too many states.
fn searched(p: &Problem, period: u32, routed: bool, states: usize) -> Result<Option<Option<Vec<Visit>>>, String> {
    let at = Problem { period, ..p.clone() };
    match search::best(&at, states) {
        Err(_) => Ok(None),
        Ok(route) if route.is_some() == routed => Ok(Some(route)),
        Ok(route) => Err(format!("the search at period {period} gives {route:?}")),
    }
}

// Whether the searches agree with the answer to a question that is not refused.
pub fn seen(p: &Problem, answer: &Explained, states: usize) -> Result<Seen, String> {
    let route = |period| searched(p, period, true, states).map(Option::flatten);
    let none = |period| searched(p, period, false, states).map(|said| said.is_some());
    let mut seen = Seen { route: None, none_below: false, none_given: false, none_longest: false };
    match answer {
        Explained::Refused(..) => {}
        Explained::RouteExists => seen.route = route(p.period)?,
        Explained::Because(Reason::Period(t)) => {
            seen.route = route(*t)?;
            seen.none_below = none(t - 1)?;
            seen.none_given = if t - 1 == p.period { seen.none_below } else { none(p.period)? };
        }
        Explained::Because(_) => {
            seen.none_given = none(p.period)?;
            seen.none_longest = none(LONGEST)?;
        }
    }
    Ok(seen)
}
