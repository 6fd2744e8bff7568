// What a run's nets were, so that a poor mix shows: each class has a least number.

use crate::best::{self, Found};
use crate::change::{classes, Best, CLASSES};
use crate::crossed::{Crossed, EACH};
use crate::jobs::Job;
use crate::net::{legal, Figures, Net, FIFO};
use crate::rules::{self, by_skew, Problem, Register, Visit, BY_SKEW, REGISTER};
use std::collections::BTreeMap;

#[derive(Default)]
pub struct Tally {
    pub nets: u64,
    pub scripts: u64,
    pub mismatches: u64,
    pub left_out: u64, // nets with too many states to follow
    counts: BTreeMap<String, u64>,
}

const ORDER: [&str; 6] = ["grid", "length", "plan", "element", "ends", "scratch"];

const FEW: usize = 2_000; // the most states that a search may follow to see what the skew changes

const PERIODS: [&str; 6] = ["equal", "Ts = 2 Tk", "Tk = 2 Ts", "other multiples", "co-prime", "others"];

// The classes of one kind, with the least number of each among 4,000 nets.
const KINDS: [(&str, u64, &[&str]); 22] = [
    ("answer", 100, &["0", "7", "8"]),
    ("refused", 5, &["1", "2", "3", "4", "5", "6"]),
    ("4: fault", 1, &["1", "2", "3", "4", "5", "6", "7", "8", "9", "10 1", "10 2", "10 3", "10 4", "10 5", "10 6"]),
    ("skew of a route", 20, &["0", "1", "2 to 99", "100 and more", "one less than a period", "a period"]),
    (
        "skew of none",
        10,
        &["0", "below both periods", "a period", "above the source's alone", "above the sink's alone", "above both"],
    ),
    ("by the skew", 20, &BY_SKEW),
    ("C-17", 10, &CLASSES),
    ("C-17 for both marks", 20, &["on the FIFO's cell", "on a register's alone"]),
    ("periods", 40, &PERIODS),
    ("FIFO", 50, &["like the register", "unlike it", "like it, equal periods"]),
    ("FIFO with", 10, &["C = L", "K 500 and more", "R 0", "K 0", "C 0", "setup above the register's", "R above", "delay crossing"]),
    (
        "none with",
        10,
        &[
            "C of the FIFO above L",
            "its setup above Ts",
            "no tap",
            "one tap",
            "taps near one end",
            "many taps",
        ],
    ),
    (
        "FIFO stands",
        20,
        &[
            "next to the sink",
            "next to the source",
            "next to both",
            "next to neither",
            "in a dead end",
            "alone closes a span",
        ],
    ),
    (
        "ties",
        10,
        &[
            "two splits",
            "three and more",
            "steps decide",
            "written order decides",
            "for most sink registers",
            "for fewer",
        ],
    ),
    ("written order at", 2, &PERIODS),
    (
        "registers",
        10,
        &[
            "none",
            "source side",
            "sink side",
            "both sides",
            "two and more on both",
            "five and more on one",
            "on one cell on both sides",
            "on the FIFO's cell",
        ],
    ),
    (
        "route",
        10,
        &[
            "one tap",
            "taps near one end",
            "a cell twice",
            "over an end's cell",
            "buffers",
            "two kinds of buffer",
            "buffers on both sides",
        ],
    ),
    ("spare", 10, &["0", "1", "2 to 9", "10 to 99", "100 and more"]),
    ("tightest", 3, &["sink's first", "sink's other", "FIFO's", "from the FIFO", "source's other", "not only one"]),
    ("latency", 5, &["below 10", "below 100", "below 1,000", "below 65,536", "below 200,000", "more"]),
    ("visits", 10, &["just enough", "one word too few", "fewer", "none lent"]),
    (
        "words",
        3,
        &[
            "scratch just enough",
            "scratch one too few",
            "none",
            "shown",
            "shown after 7",
            "shown after 8",
            "shown after a refusal",
            "cells above 255",
        ],
    ),
];

fn named(kind: &str, class: &str) -> String {
    format!("{kind} {class}")
}

fn orders() -> Vec<String> {
    let later = |i: usize| ORDER[i + 1..].iter().map(move |later| format!("{} before {later}", ORDER[i]));
    (0..ORDER.len()).flat_map(later).collect()
}

// The cells on which a register may stand.
fn taps(p: &Problem) -> Vec<u32> {
    (0..p.cells()).filter(|&c| p.takes_register(c) && !p.is_end(c)).collect()
}

// In a plan with more room, all taps within three steps of one end.
fn near_one_end(p: &Problem, taps: &[u32]) -> bool {
    let apart = |a: u32, b: u32| (a / p.width).abs_diff(b / p.width) + (a % p.width).abs_diff(b % p.width);
    let near = |end: u32| taps.iter().all(|&tap| apart(tap, end) <= 3);
    taps.len() > 1 && apart(p.source, p.sink) > 4 && (near(p.source) || near(p.sink))
}

fn common_divisor(a: u32, b: u32) -> u32 {
    if b == 0 {
        a
    } else {
        common_divisor(b, a % b)
    }
}

fn periods(n: &Net) -> &'static str {
    let (source, sink) = (n.source_period, n.problem.period);
    PERIODS[match common_divisor(source, sink) {
        _ if source == sink => 0,
        _ if source == 2 * sink => 1,
        _ if sink == 2 * source => 2,
        d if d == source || d == sink => 3,
        1 => 4,
        _ => 5,
    }]
}

type Asked<'a> = (&'a Net, Option<&'a [Visit]>); // with the best route

fn best<'a>((n, route): Asked<'a>) -> Best<'a> {
    route.map(|route| (route, n.figures(route).numbers().to_vec()))
}

impl Tally {
    fn add_if(&mut self, holds: bool, kind: &str, class: &str) {
        *self.counts.entry(named(kind, class)).or_default() += holds as u64;
    }

    fn add(&mut self, kind: &str, class: &str) {
        self.add_if(true, kind, class);
    }

    pub fn count(&mut self, job: &Job, answer: &Crossed) {
        let (n, p) = (&job.net, &job.net.problem);
        let need = EACH as u64 * p.width as u64 * p.height as u64;
        self.add_if(job.shown, "words", "shown");
        if let Crossed::Refused(faults, _) = answer {
            self.add("refused", &faults[0].0.to_string());
            if let Some(place) = answer.fault() {
                self.add("4: fault", &place);
            }
            for later in &faults[1..] {
                self.add(faults[0].1, &format!("before {}", later.1));
            }
            self.add_if(faults[0].0 == 6 && job.lent as u64 + 1 == need, "words", "scratch one too few");
            self.add_if(faults[0].0 == 6 && job.lent == 0, "words", "none");
            self.add_if(job.shown, "words", "shown after a refusal");
            return;
        }
        self.add("answer", &answer.number().to_string());
        self.add_if(job.lent as u64 == need, "words", "scratch just enough");
        self.add_if(job.shown && answer.number() > 0, "words", &format!("shown after {}", answer.number()));
        self.add_if(p.source.max(p.sink) > 255, "words", "cells above 255");
        self.skew(n, answer.route().map(|(_, figures)| figures));
        match answer.route() {
            None => self.none(n),
            Some((route, figures)) => {
                self.room(job.room, 2 * route.len() as u32);
                self.net(n);
                self.place(n, route);
                self.registers(route, figures);
                self.route(n, route);
                self.figures(n, route, figures);
            }
        }
    }

    // The skew, and what it changes.
    fn skew(&mut self, n: &Net, figures: Option<&Figures>) {
        let (skew, source, sink) = (n.problem.skew, n.source_period, n.problem.period);
        let (kind, class) = match (figures, skew) {
            (Some(_), 0) => ("skew of a route", "0"),
            (Some(_), _) if skew == source.min(sink) => ("skew of a route", "a period"),
            (Some(_), _) if skew + 1 == source.min(sink) => ("skew of a route", "one less than a period"),
            (Some(_), 1) => ("skew of a route", "1"),
            (Some(_), 2..100) => ("skew of a route", "2 to 99"),
            (Some(_), _) => ("skew of a route", "100 and more"),
            (None, 0) => ("skew of none", "0"),
            (None, _) if skew == source.min(sink) => ("skew of none", "a period"),
            (None, _) => match (skew > source, skew > sink) {
                (false, false) => ("skew of none", "below both periods"),
                (true, false) => ("skew of none", "above the source's alone"),
                (false, true) => ("skew of none", "above the sink's alone"),
                (true, true) => ("skew of none", "above both"),
            },
        };
        self.add(kind, class);
        let mut without = n.clone();
        without.problem.skew = 0;
        let Some(route) = Some(&without).filter(|_| skew > 0).and_then(|n| best::best(n, FEW).ok()?) else { return };
        let registers = |figures: &Figures| figures.source_registers + figures.sink_registers;
        self.add("by the skew", by_skew(figures.map(registers), registers(&without.figures(&route))));
    }

    fn none(&mut self, n: &Net) {
        let taps = taps(&n.problem);
        self.add_if(n.fifo.c > n.problem.limit, "none with", "C of the FIFO above L");
        self.add_if(n.fifo.setup > n.source_period, "none with", "its setup above Ts");
        self.add_if(taps.is_empty(), "none with", "no tap");
        self.add_if(taps.len() == 1, "none with", "one tap");
        self.add_if(near_one_end(&n.problem, &taps), "none with", "taps near one end");
        self.add_if(taps.len() > 5, "none with", "many taps");
    }

    fn room(&mut self, room: u32, need: u32) {
        self.add_if(room == need, "visits", "just enough");
        self.add_if(room + 1 == need, "visits", "one word too few");
        self.add_if(0 < room && room + 1 < need, "visits", "fewer");
        self.add_if(room == 0, "visits", "none lent");
    }

    fn net(&mut self, n: &Net) {
        let (f, g) = (n.fifo, n.problem.register);
        self.add("periods", periods(n));
        self.add("FIFO", if f == g { "like the register" } else { "unlike it" });
        self.add_if(f == g && n.source_period == n.problem.period, "FIFO", "like it, equal periods");
        self.add_if(f.c == n.problem.limit, "FIFO with", "C = L");
        self.add_if(f.k >= 500, "FIFO with", "K 500 and more");
        self.add_if(f.r == 0, "FIFO with", "R 0");
        self.add_if(f.k == 0, "FIFO with", "K 0");
        self.add_if(f.c == 0, "FIFO with", "C 0");
        self.add_if(f.setup > g.setup, "FIFO with", "setup above the register's");
        self.add_if(f.r > g.r, "FIFO with", "R above");
        let by = |load: u32| (f.r * load + f.k).cmp(&(g.r * load + g.k));
        let (light, heavy) = (n.problem.horizontal.c.min(n.problem.vertical.c), n.problem.horizontal.c.max(n.problem.vertical.c));
        self.add_if(by(light) != by(heavy), "FIFO with", "delay crossing");
    }

    fn place(&mut self, n: &Net, route: &[Visit]) {
        let at = route.iter().position(|visit| visit.1 == FIFO).unwrap();
        let (first, last) = (at == 1, at + 2 == route.len());
        self.add_if(first, "FIFO stands", "next to the sink");
        self.add_if(last, "FIFO stands", "next to the source");
        self.add_if(first && last, "FIFO stands", "next to both");
        self.add_if(!first && !last, "FIFO stands", "next to neither");
        self.add_if(route[at - 1].0 == route[at + 1].0, "FIFO stands", "in a dead end");
        let mut as_register = n.clone();
        as_register.fifo = Register { c: n.fifo.c, setup: n.fifo.setup, ..n.problem.register };
        self.add_if(legal(&as_register, route).is_none(), "FIFO stands", "alone closes a span");
    }

    fn registers(&mut self, route: &[Visit], figures: &Figures) {
        let (source, sink) = (figures.source_registers, figures.sink_registers);
        let at = route.iter().position(|visit| visit.1 == FIFO).unwrap();
        let cells = |part: &[Visit]| -> Vec<u32> {
            part.iter().filter(|visit| visit.1 == REGISTER).map(|visit| visit.0).collect()
        };
        let (before, after) = (cells(&route[1..at]), cells(&route[at..route.len() - 1]));
        self.add_if(source + sink == 0, "registers", "none");
        self.add_if(source > 0, "registers", "source side");
        self.add_if(sink > 0, "registers", "sink side");
        self.add_if(source > 0 && sink > 0, "registers", "both sides");
        self.add_if(source > 1 && sink > 1, "registers", "two and more on both");
        self.add_if(source > 4 || sink > 4, "registers", "five and more on one");
        self.add_if(before.iter().any(|cell| after.contains(cell)), "registers", "on one cell on both sides");
        self.add_if(before.iter().chain(&after).any(|&cell| cell == route[at].0), "registers", "on the FIFO's cell");
    }

    fn route(&mut self, n: &Net, route: &[Visit]) {
        let (p, taps) = (&n.problem, taps(&n.problem));
        let at = route.iter().position(|visit| visit.1 == FIFO).unwrap();
        let mut cells: Vec<u32> = route.iter().map(|visit| visit.0).collect();
        cells.sort();
        let kinds = |part: &[Visit]| -> Vec<u32> {
            let mut kinds: Vec<u32> = part.iter().map(|visit| visit.1).filter(|code| (1..7).contains(code)).collect();
            kinds.sort();
            kinds.dedup();
            kinds
        };
        let over = route[1..route.len() - 1].iter().any(|visit| visit.0 == p.source || visit.0 == p.sink);
        let (before, after) = (kinds(&route[..at]), kinds(&route[at..]));
        self.add_if(taps.len() == 1, "route", "one tap");
        self.add_if(near_one_end(p, &taps), "route", "taps near one end");
        self.add_if(cells.windows(2).any(|two| two[0] == two[1]), "route", "a cell twice");
        self.add_if(over, "route", "over an end's cell");
        self.add_if(!before.is_empty() || !after.is_empty(), "route", "buffers");
        self.add_if(!before.is_empty() && !after.is_empty(), "route", "buffers on both sides");
        self.add_if(kinds(route).len() > 1, "route", "two kinds of buffer");
    }

    fn figures(&mut self, n: &Net, route: &[Visit], figures: &Figures) {
        let from = |bounds: &[u64], number: u64| bounds.iter().filter(|&&from| from <= number).count();
        let spare = ["0", "1", "2 to 9", "10 to 99", "100 and more"];
        self.add("spare", spare[from(&[1, 2, 10, 100], figures.slack)]);
        let latency = ["below 10", "below 100", "below 1,000", "below 65,536", "below 200,000", "more"];
        self.add("latency", latency[from(&[10, 100, 1_000, 65_536, 200_000], figures.latency)]);
        let spans = legal(n, route).unwrap().spans;
        let of_sink = spans.iter().filter(|span| span.fifos == 0).count();
        let mut tight = (0..spans.len()).filter(|&at| n.slack(&spans[at]) == figures.slack);
        let class = match (tight.next().unwrap(), tight.next()) {
            (_, Some(_)) => "not only one",
            (at, _) if at + 1 == of_sink => "FIFO's",
            (at, _) if at == of_sink => "from the FIFO",
            (0, _) => "sink's first",
            (at, _) if at < of_sink => "sink's other",
            _ => "source's other",
        };
        self.add("tightest", class);
    }

    // The net by the rules of before C-17 and by those of now, each with its best route.
    pub fn change(&mut self, before: Asked, now: Asked) -> Result<(), String> {
        let holds = classes(&now.0.problem, &best(before), &best(now))?;
        CLASSES.iter().zip(holds).for_each(|(class, holds)| self.add_if(holds, "C-17", class));
        if best(before) != best(now) {
            let fifo = before.1.and_then(|route| route.iter().find(|visit| visit.1 == FIFO)).expect("a route of before");
            let its = now.0.problem.has_both_marks(fifo.0);
            self.add("C-17 for both marks", if its { "on the FIFO's cell" } else { "on a register's alone" });
        }
        Ok(())
    }

    // How the best was chosen among the splits. A FIFO like the register with one period for both is a register: the
    // route must then be legal for one clock, with the same closings.
    pub fn splits(&mut self, n: &Net, found: &Found, route: &[Visit]) -> Result<(), String> {
        let figures = n.figures(route);
        if (figures.latency, figures.steps) != (found.latency() as u64, found.steps()) {
            return Err(format!("latency {}, steps {}", found.latency(), found.steps()));
        }
        if n.fifo == n.problem.register && n.source_period == n.problem.period {
            let one: Vec<Visit> = route.iter().map(|visit| (visit.0, visit.1.min(REGISTER))).collect();
            let closings: Vec<u64> = legal(n, route).unwrap().spans.iter().map(|span| span.closing).collect();
            if rules::legal(&n.problem, &one).map(|measured| measured.closings) != Some(closings) {
                return Err("not so with one clock".to_string());
            }
        }
        let other = |sink: u32| {
            let rest = found.latency().checked_sub((sink + 1) * n.problem.period).filter(|&rest| rest > 0);
            sink != figures.sink_registers && rest.is_some_and(|rest| rest % n.source_period == 0)
        };
        if !(0..64).any(other) {
            return Ok(()); // no other split has this latency
        }
        let (all, shortest) = (found.splits(false), found.splits(true));
        let decides = shortest.len() > 1;
        if !shortest.contains(&figures.sink_registers) || shortest.iter().any(|sink| !all.contains(sink)) {
            return Err(format!("splits {all:?}, {shortest:?}"));
        }
        self.add_if(all.len() > 1, "ties", "two splits");
        self.add_if(all.len() > 2, "ties", "three and more");
        self.add_if(all.len() > shortest.len(), "ties", "steps decide");
        self.add_if(decides, "ties", "written order decides");
        let most = shortest.last() == Some(&figures.sink_registers);
        self.add_if(decides, "ties", if most { "for most sink registers" } else { "for fewer" });
        self.add_if(decides, "written order at", periods(n));
        Ok(())
    }

    fn of(&self, class: &str) -> u64 {
        *self.counts.get(class).unwrap_or(&0)
    }

    pub fn print(&self) {
        for (kind, least, classes) in KINDS {
            let list: Vec<String> = classes.iter().map(|c| format!("{c}: {}", self.of(&named(kind, c)))).collect();
            println!("{kind:<16} {} (each at least {least})", list.join(", "));
        }
        let (pairs, fewest) = (orders().len(), orders().iter().map(|order| self.of(order)).min().unwrap());
        println!("orders           {pairs} pairs of refusals at once, each {fewest} times or oftener (at least 1)");
        println!("left out         {} nets with too many states to follow", self.left_out);
    }

    // The classes that this mix lacks.
    pub fn lacks(&self) -> Vec<String> {
        let kinds = KINDS.iter().flat_map(|(kind, least, list)| list.iter().map(|c| (named(kind, c), *least)));
        let classes = kinds.chain(orders().into_iter().map(|order| (order, 1)));
        let lacking = classes.filter(|(class, least)| self.of(class) < *least);
        lacking.map(|(class, least)| format!("{class}: {} of at least {least}", self.of(&class))).collect()
    }
}
