// What a run's calls were, so that a poor mix shows.

use crate::calls::Record;
use crate::crossed::Crossed;
use crate::explained::{Explained, Reason, LONGEST};
use crate::net::Net;
use crate::plan::{Fault, BELOW, RIGHT};
use crate::question::{Answer, Question};
use crate::rules::{registers, Problem, Visit};
use crate::sides::Seen;
use std::collections::BTreeMap;

#[derive(Default)]
pub struct Mix {
    pub scripts: u64,
    pub calls: u64,
    pub left_out: u64, // questions whose search would follow too many states
    counts: BTreeMap<String, u64>,
}

// Every number of document 01 that a script can bring about.
const NUMBERS: [(&str, &[u32]); 6] = [
    ("open", &[0, 1, 2, 3, 9]),
    ("move", &[0, 1, 2, 3, 9, 10, 11, 14]),
    ("undo", &[0, 1, 2, 3, 9, 10, 12, 13]),
    ("route", &[0, 1, 2, 3, 4, 5, 6, 7, 8]),
    ("reason", &[0, 1, 2, 3, 4, 5, 6, 19]),
    ("crossing", &[0, 1, 2, 3, 4, 5, 6, 7, 8]),
];

// What may be at fault, in the order of the call; two at once show the order.
const ORDERS: [(&str, &[&str]); 6] = [
    ("open", &["grid", "length", "plan", "journal"]),
    ("move", &["grid", "length", "plan", "journal", "depth", "cell", "marks", "full"]),
    ("undo", &["grid", "length", "plan", "journal", "depth", "empty", "corrupt"]),
    ("route", &["grid", "length", "plan", "element", "ends", "scratch"]),
    ("reason", &["grid", "length", "plan", "element", "ends", "scratch"]),
    ("crossing", &["grid", "length", "plan", "element", "ends", "scratch"]),
];

// Two that cannot hold at once: depths that differ.
const APART: [(&str, &str); 4] = [("depth", "full"), ("depth", "empty"), ("depth", "corrupt"), ("empty", "corrupt")];

const SLACKS: [&str; 4] = ["spare 0", "spare 1", "spare 2 to 9", "spare 10 and more"];

const FAULTS: [&str; 13] = ["1", "2", "3", "4", "5", "6", "7", "8 1", "8 2", "8 3", "8 4", "8 5", "8 6"];

// The skew of a question that is not refused.
const SKEWS: [&str; 4] = ["0", "below T", "T", "above T"];

const KINDS: [(&str, &[&str]); 30] = [
    (
        "move",
        &[
            "to other marks",
            "to the marks already there",
            "0 at depth 255",
            "0 on a cell above 255",
            "0 to both marks",
            "3: above 15",
            "3: a 4 in the last column",
            "3: an 8 in the last row",
        ],
    ),
    (
        "undo",
        &[
            "of a move to the marks already there",
            "0 at depth 256",
            "0 of a tampered session",
            "0 of a move to both marks",
            "13: cell",
            "13: old marks",
            "13: new marks",
            "13: old and new marks",
        ],
    ),
    ("route 4: fault", &FAULTS),
    ("route", &["with registers", "with buffers", "that passes a cell twice", "on sides not the session's"]),
    ("route 0:", &SLACKS),
    ("route 8:", &SLACKS),
    ("route 8:", &SHORT),
    ("reason 0:", &["walled", "load", "period T + 1", "period up to 29,999", "period 30,000", "short"]),
    ("reason", &["seen from both sides", "where no route is at 30,000", "on sides not the session's"]),
    ("reason 4: fault", &FAULTS),
    (
        "crossing",
        &[
            "with no register",
            "with registers on the source's side",
            "with registers on the sink's side",
            "with registers on both sides",
            "with buffers",
            "that passes a cell twice",
            "with one period",
            "with a FIFO like the register",
            "with a FIFO unlike it",
            "on sides not the session's",
        ],
    ),
    ("crossing 0:", &SLACKS),
    ("crossing 8:", &SHORT),
    (
        "crossing 4: fault",
        &["1", "2", "3", "4", "5", "6", "7", "8", "9", "10 1", "10 2", "10 3", "10 4", "10 5", "10 6"],
    ),
    ("route 0: skew", SKEWS.split_at(2).0),
    ("route 7: skew", &SKEWS),
    ("reason 0: skew", &SKEWS),
    ("reason 0: period at skew", &SKEWS),
    ("reason 19: skew", SKEWS.split_at(2).0),
    ("crossing 0: skew", SKEWS.split_at(2).0),
    ("crossing 7: skew", &SKEWS),
    ("route asked again,", &ASKED),
    ("reason asked again,", &ASKED),
    ("crossing asked again,", &ASKED),
    ("both marks on a tap of the route:", &["the same route", "another", "none", "the first again"]),
    ("route scratch words:", &WORDS),
    ("reason scratch words:", &WORDS),
    ("crossing scratch words:", &WORDS),
    (
        "show of",
        &[
            "more than 1,024 journal bytes",
            "zeroed scratch words",
            "filled visits",
            "filled visits after a reason",
            "filled visits of a crossing",
        ],
    ),
    ("", &["1 by 1", "32 by 32", "1 by 32", "32 by 1", "second sessions", "bad scripts", "free layout", "restored"]),
];

type Told = (u32, Vec<u32>);

const SHORT: [&str; 3] = ["no words lent", "one word too few", "two words or more too few"];

const ASKED: [&str; 2] = ["the same answer", "another answer"];

const WORDS: [&str; 4] = ["one too few", "just enough", "more than enough", "none"];

const PLACES: [&str; 4] =
    ["before any opening", "after a refused opening", "in step with the reference model", "after tampering"];

fn slack_name(slack: u64) -> &'static str {
    SLACKS[[1, 2, 10].iter().filter(|&&from| from <= slack).count()]
}

fn skew_name(skew: u32, period: u32) -> &'static str {
    SKEWS[match skew {
        0 => 0,
        _ if skew < period => 1,
        _ if skew == period => 2,
        _ => 3,
    }]
}

fn pairs() -> Vec<String> {
    let mut out = Vec::new();
    for (call, order) in ORDERS {
        for (i, a) in order.iter().enumerate() {
            for b in order[i + 1..].iter().filter(|b| !APART.contains(&(*a, *b))) {
                out.push(format!("{call} {a} before {b}"));
            }
        }
    }
    out
}

fn kinds(head: &str, tails: &[&str]) -> Vec<String> {
    tails.iter().map(|tail| format!("{head} {tail}").trim().to_string()).collect()
}

fn numbers(call: &str, list: &[u32]) -> Vec<String> {
    list.iter().map(|n| format!("{call} {n}")).collect()
}

fn places() -> Vec<String> {
    ["move", "undo", "route", "reason", "crossing"].iter().flat_map(|call| kinds(call, &PLACES)).collect()
}

impl Mix {
    pub fn add(&mut self, class: &str) {
        match self.counts.get_mut(class) {
            Some(n) => *n += 1,
            None => {
                self.counts.insert(class.to_string(), 1);
            }
        }
    }

    pub fn add_if(&mut self, holds: bool, class: &str) {
        if holds {
            self.add(class);
        }
    }

    // A call with all that is at fault.
    pub fn faults(&mut self, call: &str, faults: &[Fault]) {
        match faults {
            [] => self.add(&format!("{call} 0")),
            [first, later @ ..] => {
                self.add(&format!("{call} {}", first.0));
                for fault in later {
                    self.add(&format!("{call} {} before {}", first.1, fault.1));
                }
            }
        }
    }

    // A move, with the record and the cell's marks before it.
    pub fn set(&mut self, record: Record, cell: u32, old: Option<u8>, marks: u8, faults: &[Fault]) {
        match faults.first() {
            None => {
                let same = old == Some(marks);
                self.add(if same { "move to the marks already there" } else { "move to other marks" });
                self.add_if(record.depth == 255, "move 0 at depth 255");
                self.add_if(cell > 255, "move 0 on a cell above 255");
                self.add_if(marks & 3 == 3, "move 0 to both marks");
            }
            Some((3, "marks")) => {
                let cut_right = marks & RIGHT != 0 && cell % record.width == record.width - 1;
                let cut_below = marks & BELOW != 0 && cell / record.width == record.height - 1;
                self.add_if(marks > 15, "move 3: above 15");
                self.add_if(marks <= 15 && !cut_below, "move 3: a 4 in the last column");
                self.add_if(marks <= 15 && !cut_right, "move 3: an 8 in the last row");
            }
            _ => {}
        }
    }

    pub fn sides(&mut self, width: u32, height: u32) {
        self.add(&format!("{width} by {height}"));
    }

    pub fn route(&mut self, q: &Question, record: Record, route: &[Visit]) {
        self.add_if(registers(route) > 0, "route with registers");
        self.list("route", q, record, route);
    }

    // What a route question and a crossing have in common.
    fn list(&mut self, call: &str, q: &Question, record: Record, route: &[Visit]) {
        let mut cells: Vec<u32> = route.iter().map(|visit| visit.0).collect();
        cells.sort();
        let mut add = |holds: bool, class: &str| self.add_if(holds, &format!("{call} {class}"));
        add(route.iter().any(|visit| (1..7).contains(&visit.1)), "with buffers");
        add(cells.windows(2).any(|two| two[0] == two[1]), "that passes a cell twice");
        add((q.width, q.height) != (record.width, record.height), "on sides not the session's");
    }

    pub fn crossing(&mut self, q: &Question, net: &Net, answer: &Crossed, record: Record) {
        if let Some(place) = answer.fault() {
            self.add(&format!("crossing 4: fault {place}"));
        }
        let Some((route, figures)) = answer.route() else { return };
        self.list("crossing", q, record, route);
        let (source, sink) = (figures.source_registers > 0, figures.sink_registers > 0);
        let sides = match (source, sink) {
            (false, false) => "no register",
            (true, false) => "registers on the source's side",
            (false, true) => "registers on the sink's side",
            (true, true) => "registers on both sides",
        };
        self.add(&format!("crossing with {sides}"));
        let like = net.fifo == net.problem.register;
        self.add(if like { "crossing with a FIFO like the register" } else { "crossing with a FIFO unlike it" });
        self.add_if(net.source_period == net.problem.period, "crossing with one period");
        match answer {
            Crossed::NoRoom(..) => self.short("crossing", q.room, 2 * route.len() as u32),
            _ => self.add(&format!("crossing 0: {}", slack_name(figures.slack))),
        }
    }

    // A best route's spare half-ticks, and what it lacks in room.
    pub fn slack(&mut self, q: &Question, answer: &Answer, slack: u64) {
        self.add(&format!("route {}: {}", answer.number(), slack_name(slack)));
        if let Answer::NoRoom(best) = answer {
            self.short("route", q.room, 2 * best.route.len() as u32);
        }
    }

    // Fewer visit words are lent than are needed.
    fn short(&mut self, call: &str, room: u32, need: u32) {
        let name = SHORT[if room == 0 { 0 } else { 2.min(need - room) as usize }];
        self.add(&format!("{call} 8: {name}"));
    }

    pub fn reason(&mut self, p: &Problem, answer: &Explained, seen: &Seen, record: Record) {
        let told = match answer {
            Explained::Because(Reason::Walled) => "walled",
            Explained::Because(Reason::Load) => "load",
            Explained::Because(Reason::Short) => "short",
            Explained::Because(Reason::Period(LONGEST)) => "period 30,000",
            Explained::Because(Reason::Period(t)) if *t == p.period + 1 => "period T + 1",
            Explained::Because(Reason::Period(_)) => "period up to 29,999",
            Explained::RouteExists => return self.add("reason 19"),
            Explained::Refused(..) => {
                return answer.fault().iter().for_each(|place| self.add(&format!("reason 4: fault {place}")))
            }
        };
        self.add("reason 0");
        self.add(&format!("reason 0: {told}"));
        let period = matches!(answer, Explained::Because(Reason::Period(_)));
        self.add_if(period, &format!("reason 0: period at skew {}", skew_name(p.skew, p.period)));
        self.add_if(seen.none_below && seen.route.is_some(), "reason seen from both sides");
        self.add_if(seen.none_longest, "reason where no route is at 30,000");
        self.add_if((p.width, p.height) != (record.width, record.height), "reason on sides not the session's");
    }

    // Number and visits before a move of a tap to both marks, after it, and after its undo.
    pub fn both_marks(&mut self, first: &Told, between: &Told, last: &Told) {
        let class = match between.0 {
            _ if first.0 != 0 => return,
            _ if between == first => "the same route",
            7 => "none",
            _ => "another",
        };
        self.add(&format!("both marks on a tap of the route: {class}"));
        self.add_if(between != first && last == first, "both marks on a tap of the route: the first again");
    }

    // A question's skew by its number; between two clocks it is held against the lesser period.
    pub fn skew(&mut self, call: &str, number: u32, skew: u32, period: u32) {
        self.add(&format!("{call} {number}: skew {}", skew_name(skew, period)));
    }

    // A question with its number; `each` scratch words are needed for a cell, so many are lent.
    pub fn words(&mut self, call: &str, q: &Question, each: u32, lent: u32, number: u32) {
        let need = each as u64 * q.width as u64 * q.height as u64;
        let lent = lent as u64;
        let mut add = |holds: bool, class: &str| self.add_if(holds, &format!("{call} scratch words: {class}"));
        match number {
            1..6 => {}
            6 => {
                add(lent + 1 == need, "one too few");
                add(lent == 0, "none");
            }
            _ => add(true, if lent == need { "just enough" } else { "more than enough" }),
        }
    }

    fn count(&self, class: &str) -> u64 {
        *self.counts.get(class).unwrap_or(&0)
    }

    fn print_line(&self, head: &str, classes: Vec<String>) {
        let list: Vec<String> = classes
            .iter()
            .map(|class| format!("{}: {}", class.strip_prefix(head).unwrap_or(class).trim(), self.count(class)))
            .collect();
        println!("{:<15} {}", if head.is_empty() { "besides" } else { head }, list.join(", "));
    }

    pub fn print(&self) {
        for (call, list) in NUMBERS {
            self.print_line(call, numbers(call, list));
        }
        for (head, tails) in KINDS {
            self.print_line(head, kinds(head, tails));
        }
        self.print_line("places", places());
        let counts: Vec<u64> = pairs().iter().map(|pair| self.count(pair)).collect();
        let least = counts.iter().min().unwrap();
        println!("orders          {} pairs of faults at once, each {least} times or oftener", counts.len());
        println!("left out        {} questions whose search would follow too many states", self.left_out);
    }

    // The classes that this mix lacks.
    pub fn lacks(&self) -> Vec<String> {
        let mut classes = pairs();
        classes.extend(places());
        classes.extend(NUMBERS.iter().flat_map(|(call, list)| numbers(call, list)));
        classes.extend(KINDS.iter().flat_map(|(head, tails)| kinds(head, tails)));
        classes.retain(|class| self.count(class) == 0);
        classes
    }
}
