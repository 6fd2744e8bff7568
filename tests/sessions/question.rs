// The route question: document 01's refusals, then the answer of the brute force's search (tests/brute, which shares
// nothing with the planner either).

use crate::plan::{self, Fault};
use crate::rules::{self, legal, registers, Buffer, Problem, Register, Visit, Wire};
use crate::search::{self, TooLarge};

pub const STATES: usize = 10_000; // the most states that one search may follow

pub const SCRATCH: u32 = 524_288; // scratch words that there are: 512 a cell of the largest plan

pub const VISITS: u32 = 2_048; // visit words that there are

pub const EACH: u32 = 256; // scratch words that a route needs for a cell

#[derive(Clone, Debug, Default)]
pub struct Tables {
    pub numbers: [u32; 11], // register R K C setup, horizontal R C, vertical R C, T, skew, L
    pub buffers: Vec<[u32; 3]>,
}

#[derive(Clone, Copy, Debug)]
pub struct Question {
    pub width: u32,
    pub height: u32,
    pub source: u32,
    pub sink: u32,
    pub room: u32, // visit words lent
}

impl Question {
    // Its numbers as a script has them.
    pub fn numbers(&self) -> [u32; 5] {
        [self.width, self.height, self.source, self.sink, self.room]
    }

    pub fn of([width, height, source, sink, room]: [u32; 5]) -> Question {
        Question { width, height, source, sink, room }
    }
}

pub enum Answer {
    Refused(Vec<Fault>, Option<rules::Fault>),
    None,
    NoRoom(Best),
    Found(Best),
}

// The best route, and its spare half-ticks.
pub struct Best {
    pub route: Vec<Visit>,
    pub slack: u64,
}

pub fn problem(plan: &[u8], t: &Tables, q: &Question) -> Problem {
    let n = t.numbers;
    Problem {
        width: q.width,
        height: q.height,
        marks: plan.iter().map(|&marks| marks as u32).collect(),
        register: Register { r: n[0], k: n[1], c: n[2], setup: n[3] },
        horizontal: Wire { r: n[4], c: n[5] },
        vertical: Wire { r: n[6], c: n[7] },
        period: n[8],
        skew: n[9],
        limit: n[10],
        source: q.source,
        sink: q.sink,
        buffers: t.buffers.iter().map(|b| Buffer { r: b[0], k: b[1], c: b[2] }).collect(),
        ..Problem::default()
    }
}

impl From<&Problem> for Tables {
    fn from(p: &Problem) -> Tables {
        let (g, h, v) = (p.register, p.horizontal, p.vertical);
        Tables {
            numbers: [g.r, g.k, g.c, g.setup, h.r, h.c, v.r, v.c, p.period, p.skew, p.limit],
            buffers: p.buffers.iter().map(|b| [b.r, b.k, b.c]).collect(),
        }
    }
}

// Refusals 1 to 5: all that is at fault, in order. `element`: a number of the tables is.
pub fn faults_by(p: &Problem, element: bool) -> Vec<Fault> {
    let plan: Vec<u8> = p.marks.iter().map(|&marks| marks as u8).collect();
    let mut out = plan::faults(p.width, p.height, &plan);
    if element {
        out.push((4, "element"));
    }
    if p.ends_fail() {
        out.push((5, "ends"));
    }
    out
}

pub fn faults(p: &Problem) -> Vec<Fault> {
    faults_by(p, p.fault().is_some())
}

// Refusal 6: so many scratch words are lent, `each` are needed for a cell.
pub fn scratch_fault(p: &Problem, scratch: u32, each: u32) -> Option<Fault> {
    let need = each as u64 * p.width as u64 * p.height as u64;
    ((scratch as u64) < need).then_some((6, "scratch"))
}

pub fn faults_with(p: &Problem, scratch: u32) -> Vec<Fault> {
    faults(p).into_iter().chain(scratch_fault(p, scratch, EACH)).collect()
}

// `scratch` words are lent.
pub fn answer(plan: &[u8], t: &Tables, scratch: u32, q: &Question) -> Result<Answer, TooLarge> {
    let p = problem(plan, t, q);
    let faults = faults_with(&p, scratch);
    if !faults.is_empty() {
        return Ok(Answer::Refused(faults, p.fault()));
    }
    let Some(route) = search::best(&p, STATES)? else { return Ok(Answer::None) };
    let slack = legal(&p, &route).expect("the search's route is legal").slack(&p);
    let fits = 2 * route.len() <= q.room as usize;
    let best = Best { route, slack };
    Ok(if fits { Answer::Found(best) } else { Answer::NoRoom(best) })
}

// What the program prints of a route after the depth: the fault, the figures, the visits and the scratch words zeroed.
pub fn told(fault: Option<String>, figures: &[u64], filled: &[u32], zeroed: u32) -> String {
    let joined = |list: &mut dyn Iterator<Item = u64>| list.map(|n| format!(" {n}")).collect::<String>();
    let fault = fault.map_or(String::new(), |place| format!("fault {place} "));
    let figures = joined(&mut figures.iter().copied());
    let visits = joined(&mut filled.iter().map(|&word| word as u64));
    format!("{fault}figures{figures} visits{visits} zeroed {zeroed}")
}

// The words of a route list.
pub fn words(route: &[Visit]) -> Vec<u32> {
    route.iter().flat_map(|visit| [visit.0, visit.1]).collect()
}

// The least period with which the best route of now stays legal, where there is one.
pub fn needed_period(plan: &[u8], t: &Tables, q: &Question) -> Option<u32> {
    let Ok(Answer::Found(best) | Answer::NoRoom(best)) = answer(plan, t, SCRATCH, q) else { return None };
    Some(t.numbers[8] - best.slack as u32 / 2)
}

// The fault's place in document 01's order, the skew after T, and a buffer's place.
pub fn place(fault: rules::Fault) -> String {
    match fault {
        rules::Fault::Period => "1".to_string(),
        rules::Fault::Skew => "2".to_string(),
        rules::Fault::Limit => "3".to_string(),
        rules::Fault::Horizontal => "4".to_string(),
        rules::Fault::Vertical => "5".to_string(),
        rules::Fault::Register => "6".to_string(),
        rules::Fault::Count => "7".to_string(),
        rules::Fault::Buffer(place) => format!("8 {place}"),
    }
}

impl Answer {
    pub fn number(&self) -> u32 {
        match self {
            Answer::Refused(faults, _) => faults[0].0,
            Answer::None => 7,
            Answer::NoRoom(_) => 8,
            Answer::Found(_) => 0,
        }
    }

    pub fn fault(&self) -> Option<String> {
        match self {
            Answer::Refused(faults, Some(fault)) if faults[0].0 == 4 => Some(place(*fault)),
            _ => None,
        }
    }

    // The scratch words that are zero afterwards.
    pub fn zeroed(&self, q: &Question) -> u32 {
        if let Answer::Refused(..) = self {
            0
        } else {
            EACH * q.width * q.height
        }
    }

    // The visit words that are filled.
    pub fn filled(&self) -> Vec<u32> {
        match self {
            Answer::Found(best) => words(&best.route),
            _ => Vec::new(),
        }
    }

    // What the program prints after the depth.
    pub fn text(&self, t: &Tables, q: &Question) -> String {
        let figures = match self {
            Answer::Found(Best { route, slack }) | Answer::NoRoom(Best { route, slack }) => {
                let k = registers(route) as u64;
                [k, route.len() as u64 - 1, t.numbers[8] as u64 * (k + 1), *slack]
            }
            _ => [0; 4],
        };
        told(self.fault(), &figures, &self.filled(), self.zeroed(q))
    }
}
