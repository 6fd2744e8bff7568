// The two questions: their refusals in order, then the answer, as the session player prints it.

use crate::comparison::{compare, Choice};
use crate::judge::{judge, Cause};
use crate::mix::Mix;
use crate::plan::Fault;
use crate::question;
use crate::rules::{legal, Measured, Problem, Visit};
use crate::tuning::NO_PERIOD;

const FLOOR: u128 = 1_000_000_000; // half-ticks; no larger miss is told

pub enum Asked {
    Judge(Vec<u32>),
    Better(Vec<u32>, Vec<u32>),
}

fn visits(words: &[u32]) -> Vec<Visit> {
    words.chunks(2).map(|pair| (pair[0], pair[1])).collect()
}

fn joined(words: &[u32]) -> String {
    words.iter().map(|word| format!(" {word}")).collect()
}

// 17: odd, or under two visits.
fn misfit(words: &[u32]) -> bool {
    words.len() % 2 == 1 || words.len() < 4
}

impl Asked {
    fn name(&self) -> &'static str {
        match self {
            Asked::Judge(_) => "judge",
            Asked::Better(..) => "better",
        }
    }

    pub fn command(&self, p: &Problem) -> String {
        let head = format!("{} {} {} {} {}", self.name(), p.width, p.height, p.source, p.sink);
        match self {
            Asked::Judge(list) => format!("{head} {}{}", list.len(), joined(list)),
            Asked::Better(a, b) => format!("{head} {}{} {}{}", a.len(), joined(a), b.len(), joined(b)),
        }
    }

    // All that is at fault with the question itself, in order.
    fn faults(&self, p: &Problem) -> Vec<Fault> {
        let mut out = question::faults(p);
        let lists = match self {
            Asked::Judge(list) => misfit(list),
            Asked::Better(a, b) => misfit(a) || misfit(b),
        };
        if lists {
            out.push((17, "list"));
        }
        out
    }

    // The line that is printed, the session's depth given.
    pub fn line(&self, p: &Problem, depth: u32, mix: &mut Mix) -> String {
        let name = self.name();
        match self {
            Asked::Judge(_) => mix.lists += 1,
            Asked::Better(..) => mix.pairs += 1,
        }
        let line = |number: u32, rest: &str| format!("{name} {number} depth {depth}{rest}");
        let faults = self.faults(p);
        let words = if let Asked::Better(..) = self { " words" } else { "" };
        if let Some(fault) = faults.first() {
            mix.refused(name, &faults);
            if let Asked::Better(a, b) = self {
                mix.misfits(fault.0, misfit(a), misfit(b));
            }
            let place = p.fault().filter(|_| fault.0 == 4).map(question::place);
            mix.element(name, place.as_deref());
            let place = place.map_or(String::new(), |place| format!(" fault {place}"));
            return line(fault.0, &format!("{place}{words}"));
        }
        match self {
            Asked::Judge(list) => line(0, &verdict(p, &visits(list), mix)),
            Asked::Better(a, b) => {
                let (number, rest) = comparison(p, a, b, mix);
                line(number, &rest)
            }
        }
    }
}

// The delay at which the visit closes its span, with twice the skew, by the brute force: of a list at fault in nothing
// but the period.
fn closing(p: &Problem, route: &[Visit], at: usize) -> Option<u64> {
    let unbounded = Problem { period: NO_PERIOD, ..p.clone() };
    let closed_before = route[1..at].iter().filter(|visit| visit.1 == 7).count();
    legal(&unbounded, route).map(|measured| measured.closings[closed_before])
}

// The judge's verdict, which must agree with the brute force's definition of a legal route and its figures.
fn agreed(p: &Problem, route: &[Visit]) -> Result<Measured, (usize, Cause)> {
    let (verdict, legal) = (judge(p, route), legal(p, route));
    let slack = legal.as_ref().map(|measured| measured.slack(p).into());
    assert_eq!(verdict.ok(), slack, "the judge and the brute force differ: {p:?} {route:?} {verdict:?}");
    if let Err((at, Cause::Period(miss))) = verdict {
        let by_rules = closing(p, route, at).map(|closing| closing as u128 - 2 * p.period as u128);
        assert!(by_rules.is_none_or(|by_rules| by_rules == miss), "the misses differ: {p:?} {route:?} {verdict:?}");
    }
    verdict.map(|_| legal.unwrap())
}

// The signed figure of a period fault.
fn told(cause: Cause) -> String {
    match cause {
        Cause::Period(miss) => format!(" -{}", miss.min(FLOOR)),
        _ => String::new(),
    }
}

// What is printed after the depth.
fn verdict(p: &Problem, route: &[Visit], mix: &mut Mix) -> String {
    match agreed(p, route) {
        Ok(measured) => {
            mix.accepted(p, route, &measured);
            format!(" accepted {}", measured.slack(p))
        }
        Err((at, cause)) => {
            mix.at_fault(p, route, at, cause);
            format!(" visit {at} {}{}", cause.fault(), told(cause))
        }
    }
}

fn comparison(p: &Problem, a: &[u32], b: &[u32], mix: &mut Mix) -> (u32, String) {
    let (first, second) = (visits(a), visits(b));
    let choice = compare(agreed(p, &first).is_ok(), &first, agreed(p, &second).is_ok(), &second);
    mix.pair(&choice, &first, &second);
    match choice {
        Choice::First(_) => (0, format!(" first words{}", joined(a))),
        Choice::Second(_) => (0, format!(" second words{}", joined(b))),
        Choice::Neither => (18, " words".to_string()),
    }
}
