// What a run's jobs were, so that a poor mix shows: each class has a least number.

use crate::explained::{Explained, Reason, LONGEST};
use crate::jobs::Job;
use crate::question::SCRATCH;
use crate::rules::{registers, Problem, ReadLast, BLOCKED, CUT_BELOW, CUT_RIGHT, TAP};
use crate::sides::Seen;
use crate::why::{chain, chain_over, fits, period_for};
use std::collections::BTreeMap;

const MANY: usize = 16; // taps

#[derive(Default)]
pub struct Tally {
    pub jobs: u64,
    pub scripts: u64,
    pub mismatches: u64,
    pub left_out: u64, // jobs with too much to follow
    counts: BTreeMap<String, u64>,
}

const ORDER: [&str; 6] = ["grid", "length", "plan", "element", "ends", "scratch"];

// The classes of one kind, with the least number of each among 5,000 jobs.
const KINDS: [(&str, u64, &[&str]); 20] = [
    ("answer", 200, &["walled", "load", "period", "short", "19"]),
    ("refused", 20, &["1", "2", "3", "4", "5", "6"]),
    ("4: fault", 1, &["1", "2", "3", "4", "5", "6", "7", "8 1", "8 2", "8 3", "8 4", "8 5", "8 6"]),
    ("skew 0:", 50, &["walled", "load", "period", "short", "19"]),
    ("skew below T:", 20, &["walled", "load", "period", "short", "19"]),
    ("skew T:", 3, &["walled", "load", "period", "short", "19"]),
    ("skew above T:", 20, &["walled", "load", "period", "short"]),
    ("by the skew:", 30, &["period, and a route without it", "short, and a period without it"]),
    (
        "by C-17:",
        20,
        &["period, and a route before", "a longer period", "load, and not before", "short, and not before", "no other answer"],
    ),
    (
        "period",
        30,
        &[
            "T + 1",
            "T + 1, by half a tick",
            "30,000",
            "30,000 at T 29,999",
            "over T + 10,000",
            "at T 1",
            "below the setup given",
            "with C(reg) = L",
        ],
    ),
    (
        "short",
        5,
        &["by half a tick", "by one tick", "by more", "at T 30,000", "with setup 0", "at a setup above T"],
    ),
    ("19:", 10, &["the period just met", "at T 30,000", "with spare periods", "T 1"]),
    ("load:", 20, &["C(reg) above L", "C(reg) at most L", "L one too low", "with buffers", "too short besides"]),
    ("walled:", 10, &["C(reg) above L", "fits without the cuts", "1 by N"]),
    ("not walled:", 50, &["one wire left in a wall of cuts", "a wall of blocked cells"]),
    ("fits:", 20, &["only by the lightest buffer", "L just enough"]),
    ("plan", 20, &["1 by N", "1 by 32", "many taps", "cells above 255", "no taps", "no buffers", "six buffers"]),
    ("route", 30, &["with no register", "with one register", "with more registers", "that passes a cell twice"]),
    ("scratch", 20, &["just enough", "one too few", "none", "more than enough", "shown", "shown after a refusal"]),
    (
        "searched",
        150,
        &["from both sides", "none at T", "none at 30,000: walled", "none at 30,000: load", "none at 30,000: short"],
    ),
];

fn named(kind: &str, class: &str) -> String {
    format!("{kind} {class}")
}

fn orders() -> Vec<String> {
    let later = |i: usize| ORDER[i + 1..].iter().map(move |later| format!("{} before {later}", ORDER[i]));
    (0..ORDER.len()).flat_map(later).collect()
}

// A wire in a plan of two rows and columns or more that alone keeps the ends joined: the others are cut.
fn hangs_by_one_wire(p: &Problem) -> bool {
    let bridge = |cell: u32, next: u32, mark: u32| {
        let mut cut = p.clone();
        cut.marks[cell as usize] |= mark;
        p.wire(cell, next).is_some() && !chain(&cut)
    };
    let one = |cell: u32| bridge(cell, cell + 1, CUT_RIGHT) || bridge(cell, cell + p.width, CUT_BELOW);
    p.width > 1 && p.height > 1 && p.cells() <= 128 && (0..p.cells()).any(one)
}

// The route that fits without its lightest buffers does not.
fn needs_lightest(p: &Problem) -> bool {
    let Some(lightest) = p.buffers.iter().map(|b| b.c).min() else { return false };
    let mut without = p.clone();
    without.buffers.retain(|b| b.c > lightest);
    !fits(&without)
}

fn with_limit(p: &Problem, limit: u32) -> Problem {
    Problem { limit, ..p.clone() }
}

impl Tally {
    fn add_if(&mut self, holds: bool, kind: &str, class: &str) {
        *self.counts.entry(named(kind, class)).or_default() += holds as u64;
    }

    fn add(&mut self, kind: &str, class: &str) {
        self.add_if(true, kind, class);
    }

    pub fn count(&mut self, job: &Job, answer: &Explained, slowest: Option<u64>) {
        self.jobs += 1;
        let p = &job.problem;
        let need = 256 * p.width as u64 * p.height as u64;
        if let Explained::Refused(faults, _) = answer {
            self.add("refused", &faults[0].0.to_string());
            if let Some(place) = answer.fault() {
                self.add("4: fault", &place);
            }
            for later in &faults[1..] {
                self.add(faults[0].1, &format!("before {}", later.1));
            }
            self.add_if(faults[0].0 == 6 && job.lent as u64 + 1 == need, "scratch", "one too few");
            self.add_if(faults[0].0 == 6 && job.lent == 0, "scratch", "none");
            self.add_if(job.shown, "scratch", "shown after a refusal");
            return;
        }
        self.add("scratch", if job.lent as u64 == need { "just enough" } else { "more than enough" });
        self.add_if(job.shown, "scratch", "shown");
        self.plan(p);
        self.skew(p, answer, slowest);
        self.both_marks(p, answer);
        match answer {
            Explained::RouteExists => self.exists(p, slowest.unwrap()),
            Explained::Because(Reason::Period(t)) => self.period(p, *t, slowest.unwrap()),
            Explained::Because(Reason::Short) => self.short(p, slowest.unwrap()),
            Explained::Because(Reason::Load) => self.load(p),
            _ => self.walled(p),
        }
        if slowest.is_some() {
            self.add_if(needs_lightest(p), "fits:", "only by the lightest buffer");
            self.add_if(p.limit > 0 && !fits(&with_limit(p, p.limit - 1)), "fits:", "L just enough");
        }
    }

    fn skew(&mut self, p: &Problem, answer: &Explained, slowest: Option<u64>) {
        let (told, allowed) = match answer {
            Explained::Because(Reason::Walled) => ("walled", 0),
            Explained::Because(Reason::Load) => ("load", 0),
            Explained::Because(Reason::Period(_)) => ("period", p.period),
            Explained::Because(Reason::Short) => ("short", LONGEST),
            _ => ("19", 0),
        };
        let kind = match p.skew {
            0 => "skew 0:",
            skew if skew < p.period => "skew below T:",
            skew if skew == p.period => "skew T:",
            _ => "skew above T:",
        };
        self.add(kind, told);
        if slowest.is_some_and(|slowest| slowest - 2 * p.skew as u64 <= 2 * allowed as u64) {
            self.add_if(told == "period", "by the skew:", "period, and a route without it");
            self.add_if(told == "short", "by the skew:", "short, and a period without it");
        }
    }

    // Where a cell has both marks: the answer by the rules of before C-17 beside the answer of now.
    fn both_marks(&mut self, p: &Problem, now: &Explained) {
        let old = Problem { read_last: ReadLast::Tap, ..p.clone() };
        let before = (0..p.cells()).any(|cell| p.has_both_marks(cell)).then(|| Explained::of(&old, SCRATCH));
        let Some(Ok((before, _))) = before else { return };
        use Explained::{Because, RouteExists};
        use Reason::{Load, Period, Short};
        let class = match (before, now) {
            (RouteExists, Because(Period(_))) => "period, and a route before",
            (Because(Period(t)), Because(Period(u))) if t < *u => "a longer period",
            (RouteExists | Because(Period(_) | Short), Because(Load)) => "load, and not before",
            (RouteExists | Because(Period(_)), Because(Short)) => "short, and not before",
            _ => "no other answer",
        };
        self.add("by C-17:", class);
    }

    fn plan(&mut self, p: &Problem) {
        let open = |cell: u32| p.marks[cell as usize] & BLOCKED == 0;
        let line = p.cells() > 2 && p.width.min(p.height) == 1;
        let taps = (0..p.cells()).filter(|&cell| p.takes_register(cell)).count();
        self.add_if(line, "plan", "1 by N");
        self.add_if(line && p.cells() == 32, "plan", "1 by 32");
        self.add_if(taps >= MANY, "plan", "many taps");
        self.add_if(p.source.max(p.sink) > 255, "plan", "cells above 255");
        self.add_if(taps == 0, "plan", "no taps");
        self.add_if(p.buffers.is_empty(), "plan", "no buffers");
        self.add_if(p.buffers.len() == 6, "plan", "six buffers");
        if chain(p) {
            self.add_if(hangs_by_one_wire(p), "not walled:", "one wire left in a wall of cuts");
            self.add_if(!chain_over(p, open), "not walled:", "a wall of blocked cells");
        }
    }

    fn exists(&mut self, p: &Problem, slowest: u64) {
        let least = period_for(slowest);
        self.add("answer", "19");
        self.add_if(least == p.period as u64, "19:", "the period just met");
        self.add_if(p.period == LONGEST, "19:", "at T 30,000");
        self.add_if(least < p.period as u64, "19:", "with spare periods");
        self.add_if(p.period == 1, "19:", "T 1");
    }

    fn period(&mut self, p: &Problem, t: u32, slowest: u64) {
        self.add("answer", "period");
        self.add_if(t == p.period + 1, "period", "T + 1");
        self.add_if(t == p.period + 1 && slowest % 2 == 1, "period", "T + 1, by half a tick");
        self.add_if(t == LONGEST, "period", "30,000");
        self.add_if(t == LONGEST && p.period == LONGEST - 1, "period", "30,000 at T 29,999");
        self.add_if(t > p.period + 10_000, "period", "over T + 10,000");
        self.add_if(p.period == 1, "period", "at T 1");
        self.add_if(p.register.setup > p.period, "period", "below the setup given");
        self.add_if(p.register.c == p.limit, "period", "with C(reg) = L");
    }

    fn short(&mut self, p: &Problem, slowest: u64) {
        let over = slowest - 2 * LONGEST as u64;
        self.add("answer", "short");
        self.add("short", ["by half a tick", "by one tick", "by more"][(over as usize - 1).min(2)]);
        self.add_if(p.period == LONGEST, "short", "at T 30,000");
        self.add_if(p.register.setup == 0, "short", "with setup 0");
        self.add_if(p.register.setup > p.period, "short", "at a setup above T");
    }

    fn load(&mut self, p: &Problem) {
        let heavy = p.register.c > p.limit;
        self.add("answer", "load");
        self.add("load:", if heavy { "C(reg) above L" } else { "C(reg) at most L" });
        self.add_if(p.limit < 63 && fits(&with_limit(p, p.limit + 1)), "load:", "L one too low");
        self.add_if(!p.buffers.is_empty(), "load:", "with buffers");
        self.add_if(p.register.setup + p.register.k > LONGEST, "load:", "too short besides");
    }

    fn walled(&mut self, p: &Problem) {
        let mut uncut = p.clone();
        uncut.marks.iter_mut().for_each(|marks| *marks &= BLOCKED | TAP);
        self.add("answer", "walled");
        self.add_if(p.register.c > p.limit, "walled:", "C(reg) above L");
        self.add_if(fits(&uncut), "walled:", "fits without the cuts");
        self.add_if(p.width.min(p.height) == 1, "walled:", "1 by N");
    }

    pub fn seen(&mut self, answer: &Explained, seen: &Seen) {
        self.add_if(seen.route.is_some() && seen.none_below, "searched", "from both sides");
        self.add_if(seen.none_given, "searched", "none at T");
        if let Explained::Because(reason) = answer {
            let name = format!("none at 30,000: {}", format!("{reason:?}").to_lowercase());
            self.add_if(seen.none_longest, "searched", &name);
        }
        let Some(route) = &seen.route else { return };
        let with = ["with no register", "with one register", "with more registers"];
        self.add("route", with[registers(route).min(2) as usize]);
        let mut cells: Vec<u32> = route.iter().map(|visit| visit.0).collect();
        cells.sort();
        self.add_if(cells.windows(2).any(|two| two[0] == two[1]), "route", "that passes a cell twice");
    }

    fn of(&self, class: &str) -> u64 {
        *self.counts.get(class).unwrap_or(&0)
    }

    pub fn print(&self) {
        for (kind, least, classes) in KINDS {
            let list: Vec<String> = classes.iter().map(|c| format!("{c}: {}", self.of(&named(kind, c)))).collect();
            println!("{kind:<12} {} (each at least {least})", list.join(", "));
        }
        let (pairs, fewest) = (orders().len(), orders().iter().map(|order| self.of(order)).min().unwrap());
        println!("orders       {pairs} pairs of refusals at once, each {fewest} times or oftener (at least 1)");
        println!("left out     {} jobs with too much to follow", self.left_out);
    }

    // The classes that this mix lacks.
    pub fn lacks(&self) -> Vec<String> {
        let kinds = KINDS.iter().flat_map(|(kind, least, list)| list.iter().map(|c| (named(kind, c), *least)));
        let classes = kinds.chain(orders().into_iter().map(|order| (order, 1)));
        let lacking = classes.filter(|(class, least)| self.of(class) < *least);
        lacking.map(|(class, least)| format!("{class}: {} of at least {least}", self.of(&class))).collect()
    }
}
