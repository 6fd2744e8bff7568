// What a run's questions were, so that a poor mix shows: each class has a least number.

use crate::comparison::{registers, Choice, Why};
use crate::judge::{judge, Cause};
use crate::plan::Fault;
use crate::rules::{Measured, Problem, Visit, TIGHTEST};
use std::collections::BTreeMap;

const LONG: usize = 1_000; // visits

#[derive(Default)]
pub struct Mix {
    pub lists: u64,
    pub pairs: u64,
    pub scripts: u64,
    counts: BTreeMap<String, u64>,
}

// The places of a list at which a visit can have the fault.
const FAULTS: [(&str, &[&str]); 5] = [
    ("cell", &["first", "middle", "last"]),
    ("wire", &["middle", "last"]),
    ("site", &["first", "middle", "last"]),
    ("load", &["first", "middle", "last"]),
    ("period", &["middle", "last"]),
];

const CAUSES: [(&str, &[&str]); 17] = [
    ("Outside", &["first", "middle", "last"]),
    ("NotTheSink", &["first"]),
    ("NotTheSource", &["last"]),
    ("SameCell", &["middle"]), // and at the last visit only after the source's cell
    ("NoNeighbour", &["middle", "last"]),
    ("CutWire", &["middle", "last"]),
    ("EndCode", &["first", "last"]),
    ("NoCode", &["middle"]),
    ("NoBuffer", &["middle"]),
    ("BufferOnEnd", &["middle"]),
    ("RegisterOnEnd", &["middle"]),
    ("NoTap", &["middle"]),
    ("BlockedTap", &["middle"]),
    ("Blocked", &["middle"]),
    ("LoadBefore", &["middle", "last"]),
    ("LoadAfter", &["first", "middle"]),
    ("Period", &["middle", "last"]),
];

const ORDER: [&str; 6] = ["grid", "length", "plan", "element", "ends", "list"];
const ELEMENTS: [&str; 13] = ["1", "2", "3", "4", "5", "6", "7", "8 1", "8 2", "8 3", "8 4", "8 5", "8 6"];
const NUMBERS: [&str; 6] = ["1", "2", "3", "4", "5", "17"];

// Spare half-ticks of an accepted list.
const SLACKS: [&str; 5] = ["0", "1", "2 to 99", "100 to 9,999", "10,000 and more"];

// Half-ticks by which a period is missed: these, and about the largest miss that is told.
const MISSES: [&str; 5] = ["1", "2", "3 to 99", "100 to 9,999", "10,000 to 999,999"];
const FAR_MISSES: [&str; 5] =
    ["1,000,000 to 999,999,998", "999,999,999", "1,000,000,000", "1,000,000,001", "1,000,000,002 and more"];

fn slack_name(slack: u64) -> &'static str {
    SLACKS[[1, 2, 100, 10_000].iter().filter(|&&from| from <= slack).count()]
}

fn miss_name(miss: u128) -> String {
    let near = [2, 3, 100, 10_000].iter().filter(|&&from| from <= miss).count();
    let far = [999_999_999, 1_000_000_000, 1_000_000_001, 1_000_000_002].iter().filter(|&&from| from <= miss).count();
    if miss < 1_000_000 {
        format!("missed by {}", MISSES[near])
    } else {
        format!("far missed by {}", FAR_MISSES[far])
    }
}

const SKEWS: [&str; 8] = [
    "accepted with skew 0",
    "accepted with skew 1 and more",
    "accepted with skew T",
    "accepted, not with a skew of one more",
    "period missed with skew 0",
    "period missed with skew 1 and more",
    "period missed by the skew alone",
    "period missed with a skew above T",
];

const LISTS: [&str; 15] = [
    "accepted over a blocked tap",
    "accepted with a blocked tap on an end's cell",
    "accepted over an end's cell",
    "accepted with two gates on one cell",
    "accepted with the load limit just met",
    "accepted of over 1,000 visits",
    "accepted over a cell above 255",
    "at fault over a cell above 255",
    "period missed at the first close",
    "period missed at a later close",
    "load limit just missed",
    "at fault past visit 1,000",
    "a buffer on a blocked tap",
    "the same cell at the last visit",
    "a cell at the next row's start",
];

const CHOICES: [&str; 11] = [
    "first: Equal",
    "first: OnlyLegal",
    "first: Registers",
    "first: Steps",
    "first: Cell",
    "first: Code",
    "second: OnlyLegal",
    "second: Registers",
    "second: Steps",
    "second: Cell",
    "second: Code",
];

const PAIRS: [&str; 7] = [
    "neither legal",
    "of wrong length: the first",
    "of wrong length: the second",
    "of wrong length: both",
    "fewer registers and more steps",
    "fewer registers and later in written order",
    "fewer steps and later in written order",
];

// The classes of one kind, with the least number of each among 10,000 lists and 4,000 pairs.
fn kinds() -> Vec<(&'static str, u64, Vec<String>)> {
    let at = |head: &str, list: &[(&str, &[&str])]| -> Vec<String> {
        list.iter().flat_map(|(name, places)| places.iter().map(move |p| format!("{head}{name} {p}"))).collect()
    };
    let after = |head: &str, list: &[&str]| list.iter().map(|name| format!("{head}{name}")).collect();
    let orders = |call: &str| -> Vec<String> {
        let later = |i: usize| ORDER[i + 1..].iter().map(move |b| format!("{call} {} before {b}", ORDER[i]));
        (0..ORDER.len()).flat_map(later).collect()
    };
    vec![
        ("verdict", 40, vec!["accepted".to_string()]),
        ("fault", 30, at("fault ", &FAULTS)),
        ("cause", 5, at("cause ", &CAUSES)),
        ("list", 5, after("", &LISTS)),
        ("skew", 20, after("", &SKEWS)),
        ("spare", 20, after("spare ", &SLACKS)),
        ("tightest span", 20, after("tightest span ", &TIGHTEST)),
        ("missed by", 10, after("missed by ", &MISSES)),
        ("far missed by", 3, after("far missed by ", &FAR_MISSES)),
        ("judge refused", 10, after("judge ", &NUMBERS)),
        ("judge 4: fault", 1, after("judge 4: ", &ELEMENTS)),
        ("judge, two reasons", 3, orders("judge")),
        ("better", 20, after("", &CHOICES)),
        ("pair", 10, after("", &PAIRS)),
        ("better refused", 10, after("better ", &NUMBERS)),
        ("better 4: fault", 1, after("better 4: ", &ELEMENTS)),
        ("better, two reasons", 1, orders("better")),
    ]
}

impl Mix {
    fn add_if(&mut self, holds: bool, class: &str) {
        if holds {
            *self.counts.entry(class.to_string()).or_default() += 1;
        }
    }

    fn add(&mut self, class: &str) {
        self.add_if(true, class);
    }

    // A refused question with all that is at fault.
    pub fn refused(&mut self, call: &str, faults: &[Fault]) {
        self.add(&format!("{call} {}", faults[0].0));
        for later in &faults[1..] {
            self.add(&format!("{call} {} before {}", faults[0].1, later.1));
        }
    }

    pub fn element(&mut self, call: &str, place: Option<&str>) {
        if let Some(place) = place {
            self.add(&format!("{call} 4: {place}"));
        }
    }

    pub fn misfits(&mut self, number: u32, first: bool, second: bool) {
        let which = match (first, second) {
            (true, true) => "both",
            (true, false) => "the first",
            _ => "the second",
        };
        self.add_if(number == 17, &format!("of wrong length: {which}"));
    }

    pub fn accepted(&mut self, p: &Problem, route: &[Visit], measured: &Measured) {
        let inner = &route[1..route.len() - 1];
        let mut gates: Vec<u32> = inner.iter().filter(|v| v.1 != 0).map(|v| v.0).collect();
        gates.sort();
        self.add("accepted");
        self.add(&format!("spare {}", slack_name(measured.slack(p))));
        self.add(if p.skew == 0 { "accepted with skew 0" } else { "accepted with skew 1 and more" });
        self.add_if(p.skew == p.period, "accepted with skew T");
        self.add_if(p.skew > 0 && measured.slack(p) < 2, "accepted, not with a skew of one more");
        self.add_if(measured.closings.len() > 1, &format!("tightest span {}", measured.tightest()));
        let both_marks = |cell: u32| p.marks[cell as usize] & 3 == 3;
        self.add_if(inner.iter().any(|v| both_marks(v.0) && !p.is_end(v.0)), "accepted over a blocked tap");
        self.add_if([p.source, p.sink].into_iter().any(both_marks), "accepted with a blocked tap on an end's cell");
        self.add_if(inner.iter().any(|v| p.is_end(v.0)), "accepted over an end's cell");
        self.add_if(gates.windows(2).any(|two| two[0] == two[1]), "accepted with two gates on one cell");
        self.add_if(measured.greatest_load == p.limit, "accepted with the load limit just met");
        self.add_if(route.len() > LONG, "accepted of over 1,000 visits");
        self.add_if(route.iter().any(|visit| visit.0 > 255), "accepted over a cell above 255");
    }

    pub fn at_fault(&mut self, p: &Problem, route: &[Visit], at: usize, cause: Cause) {
        let place = match at {
            0 => "first",
            _ if at == route.len() - 1 => "last",
            _ => "middle",
        };
        self.add(&format!("fault {} {place}", cause.fault()));
        if let Cause::Period(miss) = cause {
            let first = route[1..at].iter().all(|visit| visit.1 != 7);
            self.add(&format!("cause Period {place}"));
            self.add(&miss_name(miss));
            self.add(if p.skew == 0 { "period missed with skew 0" } else { "period missed with skew 1 and more" });
            self.add_if(miss <= 2 * p.skew as u128, "period missed by the skew alone");
            self.add_if(p.skew > p.period, "period missed with a skew above T");
            self.add(if first { "period missed at the first close" } else { "period missed at a later close" });
        } else {
            self.add(&format!("cause {cause:?} {place}"));
        }
        self.add_if(at > LONG, "at fault past visit 1,000");
        self.add_if((256..p.cells()).contains(&route[at].0), "at fault over a cell above 255");
        let looser = Problem { limit: p.limit + 1, ..p.clone() };
        self.add_if(cause.fault() == "load" && judge(&looser, route) != Err((at, cause)), "load limit just missed");
        let (cell, before) = (route[at].0, route[at.max(1) - 1].0);
        self.add_if(cause == Cause::Blocked && p.marks[cell as usize] & 3 == 3, "a buffer on a blocked tap");
        self.add_if(cause == Cause::SameCell && place == "last", "the same cell at the last visit");
        self.add_if(cause == Cause::NoNeighbour && cell.abs_diff(before) == 1, "a cell at the next row's start");
    }

    pub fn pair(&mut self, choice: &Choice, a: &[Visit], b: &[Visit]) {
        let (which, why, better, other) = match choice {
            Choice::First(why) => ("first", *why, a, b),
            Choice::Second(why) => ("second", *why, b, a),
            Choice::Neither => return self.add("neither legal"),
        };
        self.add(&format!("{which}: {why:?}"));
        if why == Why::Registers {
            assert!(registers(better) < registers(other));
            self.add_if(better.len() > other.len(), "fewer registers and more steps");
            self.add_if(better > other, "fewer registers and later in written order");
        }
        self.add_if(why == Why::Steps && better > other, "fewer steps and later in written order");
    }

    fn count(&self, class: &str) -> u64 {
        *self.counts.get(class).unwrap_or(&0)
    }

    pub fn print(&self) {
        for (kind, least, classes) in kinds() {
            if kind.ends_with("reasons") {
                let fewest = classes.iter().map(|class| self.count(class)).min().unwrap();
                println!("{kind:<20} {} pairs, each {fewest} times or oftener (at least {least})", classes.len());
                continue;
            }
            let head = kind.replace(" refused", "");
            let head = head.strip_suffix(" fault").unwrap_or(&head);
            let name = |class: &str| class.strip_prefix(head).unwrap_or(class).trim().to_string();
            let list: Vec<String> = classes.iter().map(|c| format!("{}: {}", name(c), self.count(c))).collect();
            println!("{kind:<20} {} (each at least {least})", list.join(", "));
        }
    }

    // The classes that this mix lacks.
    pub fn lacks(&self) -> Vec<String> {
        let mut out = Vec::new();
        for (_, least, classes) in kinds() {
            for class in classes.iter().filter(|class| self.count(class) < least) {
                out.push(format!("{class}: {} of at least {least}", self.count(class)));
            }
        }
        out
    }
}
