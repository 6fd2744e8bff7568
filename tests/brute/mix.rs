// What a run's jobs were: counted by answer, so that a poor mix shows.

use crate::rules::{by_skew, legal, registers, Fault, Problem, Visit, BY_SKEW, TIGHTEST};
use crate::answer::Answer;
use crate::change::{classes, CLASSES};
use crate::{job, search};
use std::collections::BTreeMap;

const MANY: usize = 11; // registers counted one by one below this
const FEW: usize = 3_000; // the most states that a search may follow to see what the skew changes

#[derive(Default)]
pub struct Mix {
    pub jobs: u64,
    pub damaged: u64,
    pub too_large: u64,
    pub shapes: [u64; 8],
    registers: [u64; MANY + 1],
    none: u64,
    refusals: BTreeMap<u32, u64>,
    faults: BTreeMap<&'static str, u64>,
    routes: BTreeMap<&'static str, u64>,
    slacks: BTreeMap<&'static str, u64>,
    tightest: BTreeMap<&'static str, u64>, // of the routes with registers
    routed_skews: BTreeMap<&'static str, u64>,
    none_skews: BTreeMap<&'static str, u64>,
    by_skew: BTreeMap<&'static str, u64>,
    changes: BTreeMap<&'static str, u64>,
    skew_just_refused: u64, // 30,001
    most_cells: u32,
    most_steps: usize,
    most_registers: u32,
}

const KINDS: [&str; 13] = [
    "longer than the Manhattan distance",
    "a cell passed twice",
    "a cell passed five times",
    "a gate in a dead end",
    "over an end's cell",
    "with buffers",
    "with two kinds of buffer",
    "buffers and registers",
    "two gates on one cell",
    "period just met",
    "load limit just met",
    "a wire with R or C zero",
    "T above 1,000",
];

// Spare half-ticks of a route.
const SLACKS: [&str; 6] = ["0", "1", "2 to 9", "10 to 99", "100 to 999", "1,000 and more"];

fn slack_name(slack: u64) -> &'static str {
    SLACKS[[1, 2, 10, 100, 1_000].iter().filter(|&&from| from <= slack).count()]
}

// The skew of a route, and where there is none.
const SKEWS: [&str; 8] = ["0", "1", "2 to 99", "100 and more", "T - 1", "T", "above T", "30,000 above T"];
const ROUTED: &[&str] = SKEWS.split_at(6).0;

fn skew_name(p: &Problem) -> &'static str {
    SKEWS[match p.skew {
        0 => 0,
        30_000 if p.period < 30_000 => 7,
        skew if skew > p.period => 6,
        skew if skew == p.period => 5,
        skew if skew + 1 == p.period => 4,
        skew => [2, 100].iter().filter(|&&from| from <= skew).count() + 1,
    }]
}

// The faults behind refusal 4; the count's is found while reading and is counted apart.
const FAULTS: [&str; 7] = ["T", "skew", "L", "horizontal", "vertical", "register", "buffer"];

fn fault_name(fault: Fault) -> &'static str {
    match fault {
        Fault::Period => "T",
        Fault::Skew => "skew",
        Fault::Limit => "L",
        Fault::Horizontal => "horizontal",
        Fault::Vertical => "vertical",
        Fault::Register => "register",
        Fault::Count => "count",
        Fault::Buffer(_) => "buffer",
    }
}

impl Mix {
    fn count_route(&mut self, p: &Problem, route: &[Visit]) {
        let k = registers(route);
        let steps = route.len() - 1;
        self.registers[(k as usize).min(MANY)] += 1;
        self.most_steps = self.most_steps.max(steps);
        self.most_registers = self.most_registers.max(k);
        self.most_cells = self.most_cells.max(p.cells());
        let (w, inner) = (p.width, &route[1..steps]);
        let apart = (p.source / w).abs_diff(p.sink / w) + (p.source % w).abs_diff(p.sink % w);
        let mut cells: Vec<u32> = route.iter().map(|v| v.0).collect();
        cells.sort();
        let mut gates: Vec<u32> = inner.iter().filter(|v| v.1 != 0).map(|v| v.0).collect();
        gates.sort();
        let mut kinds: Vec<u32> = inner.iter().map(|v| v.1).filter(|&c| 0 < c && c < 7).collect();
        kinds.sort();
        kinds.dedup();
        let measured = legal(p, route).expect("the search's route is legal");
        let times = |sorted: &[u32], n: usize| sorted.windows(n).any(|same| same[0] == same[n - 1]);
        let turns_back = |at: usize| route[at].1 != 0 && route[at - 1].0 == route[at + 1].0;
        let slack = measured.slack(p);
        *self.slacks.entry(slack_name(slack)).or_default() += 1;
        if k > 0 {
            *self.tightest.entry(measured.tightest()).or_default() += 1;
        }
        let wires = [p.horizontal, p.vertical];
        let holds = [
            steps as u32 > apart,
            times(&cells, 2),
            times(&cells, 5),
            (1..steps).any(turns_back),
            inner.iter().any(|v| v.0 == p.source || v.0 == p.sink),
            !kinds.is_empty(),
            kinds.len() > 1,
            !kinds.is_empty() && k > 0,
            times(&gates, 2),
            slack < 2,
            measured.greatest_load == p.limit,
            wires.iter().any(|wire| wire.r == 0 || wire.c == 0),
            p.period > 1_000,
        ];
        for (kind, holds) in KINDS.into_iter().zip(holds) {
            *self.routes.entry(kind).or_default() += holds as u64;
        }
    }

    fn count_skew(&mut self, p: &Problem, route: Option<&[Visit]>) {
        if p.skew > 0 {
            if let Ok(Some(without)) = search::best(&Problem { skew: 0, ..p.clone() }, FEW) {
                *self.by_skew.entry(by_skew(route.map(registers), registers(&without))).or_default() += 1;
            }
        }
    }

    // The answers of before C-17 and of now; where neither is refused, there is ample room.
    pub fn count_change(&mut self, before: &Answer, now: &Answer) -> Result<(), String> {
        if let (Answer::Route(p, _) | Answer::None(p), Answer::Route(..) | Answer::None(_)) = (before, now) {
            for (class, holds) in CLASSES.into_iter().zip(classes(p, &before.best(), &now.best())?) {
                *self.changes.entry(class).or_default() += holds as u64;
            }
        }
        Ok(())
    }

    pub fn count(&mut self, bytes: &[u8], answer: &Answer) {
        self.jobs += 1;
        match answer {
            Answer::None(p) => {
                self.none += 1;
                *self.none_skews.entry(skew_name(p)).or_default() += 1;
                self.count_skew(p, None);
            }
            Answer::Route(p, route) => {
                self.count_route(p, route);
                *self.routed_skews.entry(skew_name(p)).or_default() += 1;
                self.count_skew(p, Some(route));
            }
            Answer::Refused(number, fault) => {
                *self.refusals.entry(*number).or_default() += 1;
                let least = *fault == Some(Fault::Skew) && job::read(bytes).is_ok_and(|p| p.skew == 30_001);
                self.skew_just_refused += least as u64;
                if let Some(fault) = fault {
                    *self.faults.entry(fault_name(*fault)).or_default() += 1;
                }
            }
        }
    }

    pub fn print(&self) {
        let routes: u64 = self.registers.iter().sum();
        let list = |pairs: Vec<(String, u64)>| {
            pairs.iter().map(|(name, n)| format!("{name}: {n}")).collect::<Vec<_>>().join(", ")
        };
        let by = |map: &BTreeMap<&'static str, u64>, names: &[&'static str]| {
            list(names.iter().map(|&n| (n.to_string(), *map.get(n).unwrap_or(&0))).collect())
        };
        let shapes = crate::make::SHAPES.iter().zip(self.shapes).map(|(s, n)| (s.to_string(), n));
        println!("shapes      {}", list(shapes.collect()));
        println!("damaged     {} of {} jobs", self.damaged, self.jobs);
        println!("answers     routes: {routes}, none: {}, refused: {}", self.none, self.jobs - routes - self.none);
        let counts = self.registers.iter().enumerate();
        let name = |k: usize| if k == MANY { format!("{k} and more") } else { k.to_string() };
        println!("registers   {}", list(counts.map(|(k, &n)| (name(k), n)).collect()));
        println!("routes      {}", by(&self.routes, &KINDS[..7]));
        println!("            {}", by(&self.routes, &KINDS[7..]));
        println!("spare       {}", by(&self.slacks, &SLACKS));
        println!("tightest    {}", by(&self.tightest, &TIGHTEST));
        println!("skew        of routes {}", by(&self.routed_skews, ROUTED));
        println!("            of none {}", by(&self.none_skews, &SKEWS));
        println!("            {}; refused with 30,001: {}", by(&self.by_skew, &BY_SKEW), self.skew_just_refused);
        println!("C-17        {}", by(&self.changes, &CLASSES));
        println!("largest     {} cells, {} steps, {} registers", self.most_cells, self.most_steps, self.most_registers);
        println!("refused     {}", list(self.refusals.iter().map(|(n, c)| (n.to_string(), *c)).collect()));
        println!("refused 4   {}, count: {}", by(&self.faults, &FAULTS), self.count_faults());
        println!("left out    {} drawn jobs whose search would follow too many states", self.too_large);
    }

    // A count above 6 is refused while reading, with no fault named.
    fn count_faults(&self) -> u64 {
        self.refusals.get(&4).unwrap_or(&0) - self.faults.values().sum::<u64>()
    }

    // The classes that this mix lacks.
    pub fn lacks(&self) -> Vec<String> {
        let mut out = Vec::new();
        let mut need = |n: u64, least: u64, name: String| {
            if n < least {
                out.push(format!("{name}: {n} of at least {least}"));
            }
        };
        let routes: u64 = self.registers.iter().sum();
        for k in 0..8 {
            need(self.registers[k], 3, format!("{k} registers"));
        }
        need(self.registers[8..].iter().sum(), 3, "8 and more registers".to_string());
        for kind in KINDS {
            need(*self.routes.get(kind).unwrap_or(&0), 3, kind.to_string());
        }
        for slack in SLACKS {
            need(*self.slacks.get(slack).unwrap_or(&0), 3, format!("spare half-ticks {slack}"));
        }
        for span in TIGHTEST {
            need(*self.tightest.get(span).unwrap_or(&0), 3, format!("tightest span {span}"));
        }
        for skew in ROUTED {
            need(*self.routed_skews.get(skew).unwrap_or(&0), 20, format!("routes with skew {skew}"));
        }
        for skew in SKEWS {
            need(*self.none_skews.get(skew).unwrap_or(&0), 10, format!("none with skew {skew}"));
        }
        need(self.skew_just_refused, 3, "refused with skew 30,001".to_string());
        for change in BY_SKEW {
            need(*self.by_skew.get(change).unwrap_or(&0), 20, change.to_string());
        }
        for class in CLASSES {
            need(*self.changes.get(class).unwrap_or(&0), 20, format!("C-17, {class}"));
        }
        need(self.none, (routes + self.none) / 8, "none".to_string());
        need(routes, (routes + self.none) / 2, "routes".to_string());
        for refusal in [1, 3, 4, 5, 15, 16] {
            need(*self.refusals.get(&refusal).unwrap_or(&0), 3, format!("refused {refusal}"));
        }
        for fault in FAULTS {
            need(*self.faults.get(fault).unwrap_or(&0), 1, format!("refused 4 for {fault}"));
        }
        need(self.count_faults(), 1, "refused 4 for the count".to_string());
        for (shape, n) in crate::make::SHAPES.iter().zip(self.shapes) {
            need(n, 3, format!("shape {shape}"));
        }
        out
    }
}
