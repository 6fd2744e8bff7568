// What the program prints for each command: by the calls' own rules, and by the reference model while nothing was tampered with.

use crate::best;
use crate::calls::{number, Record, Session};
use crate::crossed::{Crossed, EACH};
use crate::explained::Explained;
use crate::reference::Reference;
use crate::mix::Mix;
use crate::net::Net;
use crate::question::{self, Answer, Question, Tables, SCRATCH};
use crate::rules::Register;
use crate::script::{shown, Command};
use crate::search::TooLarge;
use crate::sides;
use std::collections::BTreeMap;

const FILL: u8 = 7; // the journal's bytes before the first call

pub enum Trouble {
    TooLarge,       // a question that the search cannot answer within its bound: it is left out
    Models(String), // two halves of the model differ: one of them is wrong
}

impl Trouble {
    pub fn text(&self) -> String {
        match self {
            Trouble::TooLarge => "a question is too large for the search".to_string(),
            Trouble::Models(what) => what.clone(),
        }
    }
}

#[derive(Clone)]
pub struct Player {
    pub session: Session,
    pub reference: Option<Reference>, // of the last opening that answered 0
    pub in_step: bool,          // record, plan and journal are the reference model's
    pub tables: Tables,
    pub clocks: [u32; 5], // the source's period, FIFO R K C setup
    pub lent: u32,        // scratch words
    zeroed: u32,          // scratch words that the last question left zero
    filled: Vec<u16>,     // visit words that the last route or crossing call filled
    explained: bool,      // a reason call came after it
    crossed: bool,        // it was a crossing call
    refused: bool, // the last opening was
    opened: bool,
    asked: BTreeMap<String, String>, // questions since the last opening, with their answers
}

impl Player {
    pub fn new() -> Player {
        let session = Session { record: Record::default(), plan: Vec::new(), journal: vec![FILL; 1_100], lent: 1_024 };
        Player {
            session,
            reference: None,
            in_step: false,
            tables: Tables::default(),
            clocks: [0; 5],
            lent: SCRATCH,
            zeroed: 0,
            filled: Vec::new(),
            explained: false,
            crossed: false,
            refused: false,
            opened: false,
            asked: BTreeMap::new(),
        }
    }

    fn is_the_ledgers(&self) -> bool {
        let Some(reference) = &self.reference else { return false };
        let record = Record { width: reference.width, height: reference.height, depth: reference.depth() };
        let (plan, history) = reference.state();
        let s = &self.session;
        s.lent >= 1_024 && s.record == record && s.plan == plan && s.journal[..1_024] == history[..]
    }

    // The number by the reference model must be the number by the rules, and so must all that is left.
    fn stays_in_step(&self, by_reference: u32, by_rules: u32) -> Result<(), Trouble> {
        if by_reference != by_rules {
            return Err(Trouble::Models(format!("number {by_reference} by the reference model, {by_rules} by the calls' rules")));
        }
        if !self.is_the_ledgers() {
            return Err(Trouble::Models("record, plan or journal are not the reference model's".to_string()));
        }
        Ok(())
    }

    fn line(&self, name: &str, number: u32) -> Vec<String> {
        vec![format!("{name} {number} depth {}", self.session.record.depth)]
    }

    fn open(&mut self, width: u32, height: u32, mix: &mut Mix) -> Result<Vec<String>, Trouble> {
        let faults = self.session.open(width, height);
        let number = number(&faults);
        mix.faults("open", &faults);
        self.opened = true;
        self.asked.clear();
        self.refused = number != 0;
        if number == 0 {
            self.reference = Some(Reference::new(width, height, &self.session.plan));
            mix.sides(width, height);
        }
        self.in_step = number == 0;
        if self.in_step {
            self.stays_in_step(0, number)?;
        }
        Ok(self.line("open", number))
    }

    // Where a call stands: on what kind of session.
    fn note_place(&self, name: &str, mix: &mut Mix) {
        let place = match (self.opened, self.refused, self.in_step) {
            (false, _, _) => "before any opening",
            (_, true, _) => "after a refused opening",
            (_, _, true) => "in step with the reference model",
            _ => "after tampering",
        };
        mix.add(&format!("{name} {place}"));
    }

    fn set(&mut self, cell: u32, marks: u8, mix: &mut Mix) -> Result<Vec<String>, Trouble> {
        self.note_place("move", mix);
        let (record, old) = (self.session.record, self.session.plan.get(cell as usize).copied());
        let faults = self.session.set(cell, marks);
        mix.faults("move", &faults);
        mix.set(record, cell, old, marks, &faults);
        if self.in_step {
            let by_reference = self.reference.as_mut().unwrap().set(cell, marks);
            self.stays_in_step(by_reference, number(&faults))?;
        }
        Ok(self.line("move", number(&faults)))
    }

    fn undo(&mut self, mix: &mut Mix) -> Result<Vec<String>, Trouble> {
        self.note_place("undo", mix);
        let (corrupt, newest) = (self.session.corrupt(), self.session.newest());
        let same = newest.is_some_and(|at| self.session.journal[at + 2] == self.session.journal[at + 3]);
        let both = newest.is_some_and(|at| self.session.journal[at + 3] & 3 == 3);
        let faults = self.session.undo();
        mix.faults("undo", &faults);
        match number(&faults) {
            0 => {
                mix.add_if(same, "undo of a move to the marks already there");
                mix.add_if(both, "undo 0 of a move to both marks");
                mix.add_if(self.session.record.depth == 255, "undo 0 at depth 256");
                mix.add_if(!self.in_step, "undo 0 of a tampered session");
            }
            13 if corrupt.len() == 1 => mix.add(&format!("undo 13: {}", corrupt[0])),
            13 => mix.add("undo 13: old and new marks"),
            _ => {}
        }
        if self.in_step {
            let by_reference = self.reference.as_mut().unwrap().undo();
            self.stays_in_step(by_reference, number(&faults))?;
        }
        Ok(self.line("undo", number(&faults)))
    }

    fn route(&mut self, q: &Question, mix: &mut Mix) -> Result<Vec<String>, Trouble> {
        let answer = self.answer(q)?;
        self.note_place("route", mix);
        match &answer {
            Answer::Refused(faults, _) => mix.faults("route", faults),
            other => mix.add(&format!("route {}", other.number())),
        }
        if let Some(place) = answer.fault() {
            mix.add(&format!("route 4: fault {place}"));
        }
        if let Answer::Found(best) | Answer::NoRoom(best) = &answer {
            mix.route(q, self.session.record, &best.route);
            mix.slack(q, &answer, best.slack);
        }
        self.zeroed = answer.zeroed(q);
        self.fill(&answer.filled());
        mix.words("route", q, question::EACH, self.lent, answer.number());
        mix.skew("route", answer.number(), self.tables.numbers[9], self.tables.numbers[8]);
        let text = answer.text(&self.tables, q);
        Ok(self.told("route", q, answer.number(), text, mix))
    }

    // A route or crossing call writes the visits.
    fn fill(&mut self, words: &[u32]) {
        self.filled = words.iter().map(|&word| word as u16).collect();
        (self.explained, self.crossed) = (false, false);
    }

    // A question's line; and whether it was asked before.
    fn told(&mut self, name: &str, q: &Question, number: u32, text: String, mix: &mut Mix) -> Vec<String> {
        let question = format!("{name} {q:?} {:?} {:?} {}", self.tables, self.clocks, self.lent);
        if let Some(before) = self.asked.insert(question, text.clone()) {
            mix.add(&format!("{name} asked again, {} answer", if before == text { "the same" } else { "another" }));
        }
        vec![format!("{name} {number} depth {} {text}", self.session.record.depth)]
    }

    // The brute force's search of routes must agree, as far as it goes.
    fn reason(&mut self, q: &Question, mix: &mut Mix) -> Result<Vec<String>, Trouble> {
        let p = question::problem(&self.session.plan, &self.tables, q);
        let (answer, _) = Explained::of(&p, self.lent).map_err(|_: TooLarge| Trouble::TooLarge)?;
        let seen = sides::seen(&p, &answer, question::STATES).map_err(Trouble::Models)?;
        self.note_place("reason", mix);
        if let Explained::Refused(faults, _) = &answer {
            mix.faults("reason", faults);
        }
        mix.reason(&p, &answer, &seen, self.session.record);
        self.zeroed = answer.zeroed(&p);
        self.explained = true;
        mix.words("reason", q, question::EACH, self.lent, answer.number());
        mix.skew("reason", answer.number(), p.skew, p.period);
        Ok(self.told("reason", q, answer.number(), answer.text(&p), mix))
    }

    fn crossing(&mut self, q: &Question, mix: &mut Mix) -> Result<Vec<String>, Trouble> {
        let answer = self.crossed(q)?;
        self.note_place("crossing", mix);
        match &answer {
            Crossed::Refused(faults, _) => mix.faults("crossing", faults),
            other => mix.add(&format!("crossing {}", other.number())),
        }
        let net = self.net(q);
        mix.crossing(q, &net, &answer, self.session.record);
        self.zeroed = answer.zeroed(&net);
        self.fill(&answer.filled());
        self.crossed = true;
        mix.words("crossing", q, EACH, self.lent, answer.number());
        mix.skew("crossing", answer.number(), net.problem.skew, net.problem.period.min(net.source_period));
        Ok(self.told("crossing", q, answer.number(), answer.text(&net), mix))
    }

    // The question's net; the tables' period is the sink's.
    pub fn net(&self, q: &Question) -> Net {
        let [source_period, r, k, c, setup] = self.clocks;
        let problem = question::problem(&self.session.plan, &self.tables, q);
        Net { problem, source_period, fifo: Register { r, k, c, setup } }
    }

    pub fn crossed(&self, q: &Question) -> Result<Crossed, Trouble> {
        let net = self.net(q);
        let best = || best::best(&net, question::STATES);
        Crossed::of(&net, self.lent, q.room, best).map_err(|_: TooLarge| Trouble::TooLarge)
    }

    pub fn answer(&self, q: &Question) -> Result<Answer, Trouble> {
        question::answer(&self.session.plan, &self.tables, self.lent, q).map_err(|_: TooLarge| Trouble::TooLarge)
    }

    fn show(&self, mix: &mut Mix) -> Vec<String> {
        let s = &self.session;
        mix.add_if(s.lent > 1_024, "show of more than 1,024 journal bytes");
        mix.add_if(self.zeroed > 0, "show of zeroed scratch words");
        mix.add_if(!self.filled.is_empty(), "show of filled visits");
        mix.add_if(!self.filled.is_empty() && self.explained, "show of filled visits after a reason");
        mix.add_if(!self.filled.is_empty() && self.crossed, "show of filled visits of a crossing");
        shown(&s.plan, &s.journal[..s.lent], self.zeroed, &self.filled)
    }

    // Plays one command: the lines that it prints.
    pub fn play(&mut self, command: &Command, mix: &mut Mix) -> Result<Vec<String>, Trouble> {
        match command {
            Command::Open(w, h) => return self.open(*w, *h, mix),
            Command::Move(cell, marks) => return self.set(*cell, *marks as u8, mix),
            Command::Undo => return self.undo(mix),
            Command::Route(q) => return self.route(q, mix),
            Command::Reason(q) => return self.reason(q, mix),
            Command::Crossing(q) => return self.crossing(q, mix),
            Command::Show => return Ok(self.show(mix)),
            Command::Bad(_, reason) => return Ok(vec![reason.to_string()]),
            Command::Scratch(n) => self.lent = *n,
            Command::Tables(t) => self.tables = t.clone(),
            Command::Clocks(list) => self.clocks = *list,
            Command::Plan(marks) => {
                self.session.plan = marks.clone();
                self.asked.clear();
            }
            Command::Journal(n) => self.session.lent = *n as usize,
            Command::Depth(d) => self.session.record.depth = *d,
            Command::Byte(at, value) => self.session.journal[*at as usize] = *value as u8,
        }
        self.in_step = self.is_the_ledgers();
        Ok(Vec::new())
    }
}
