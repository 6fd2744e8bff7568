// Random scripts: each command is drawn with the model's state in view, and played on the model at once.

use crate::crossed::Crossed;
use crate::draw;
use crate::explained::{Explained, LONGEST};
use crate::mix::Mix;
use crate::player::{Player, Trouble};
use crate::question::{self, Answer, Question, SCRATCH};
use crate::random::Random;
use crate::script::{self, Command};
use crate::stories::Kind;
use crate::why::period_for;

pub const MOST_BYTES: usize = 45_000; // of a script, before a free layout; the program reads fewer than 65,536

pub struct Line {
    pub text: String,
    pub command: usize, // its place in the script
}

pub struct Script {
    pub commands: Vec<Command>,
    pub lines: Vec<Line>,
    pub text: String,
}

pub struct Maker<'a> {
    pub r: Random,
    pub mix: &'a mut Mix,
    pub player: Player,
    commands: Vec<Command>,
    pub lines: Vec<Line>,
    pub bytes: usize,
    pub sides: (u32, u32),
    pub large: bool,
    pub asked: Option<Question>,
    path: Vec<u32>, // the cells of the last route
}

pub type Made = Result<(), String>;

impl Maker<'_> {
    // Adds a command. A question that is too large for the search is left out.
    pub fn put(&mut self, command: Command) -> Made {
        let size = command.text().len() + 3;
        if self.bytes + size > MOST_BYTES {
            return Ok(());
        }
        match self.player.play(&command, self.mix) {
            Ok(lines) => {
                let at = self.commands.len();
                self.lines.extend(lines.into_iter().map(|text| Line { text, command: at }));
                self.mix.calls += command.is_call() as u64;
                self.commands.push(command);
                self.bytes += size;
                Ok(())
            }
            Err(Trouble::TooLarge) => {
                self.mix.left_out += 1;
                self.asked = None;
                Ok(())
            }
            Err(Trouble::Models(what)) => {
                self.commands.push(command);
                Err(what)
            }
        }
    }

    pub fn set(&mut self) -> Made {
        let (w, h) = self.sides;
        let plan = &self.player.session.plan;
        let (cell, marks) = if !self.path.is_empty() && self.r.chance(30) {
            draw::set_on(&mut self.r, &self.path, plan)
        } else {
            draw::set(&mut self.r, w, h, plan)
        };
        self.put(Command::Move(cell, marks))
    }

    pub fn new_tables(&mut self) -> Made {
        self.asked = None;
        let tables = draw::tables(&mut self.r);
        self.put(Command::Tables(tables))?;
        self.new_clocks()
    }

    fn new_clocks(&mut self) -> Made {
        let clocks = draw::clocks(&mut self.r, &self.player.tables);
        self.put(Command::Clocks(clocks))
    }

    // The period taken down below what the best route needs, some times over: then few marks decide the answer.
    fn tighten(&mut self, q: &Question) -> Made {
        let mut tables = self.player.tables.clone();
        for _ in 0..self.r.within(1, 4) {
            match question::needed_period(&self.player.session.plan, &tables, q) {
                Some(needed) if needed > 1 => tables.numbers[8] = needed - 1,
                _ => break,
            }
        }
        let none = question::needed_period(&self.player.session.plan, &tables, q).is_none();
        if none && self.r.chance(80) {
            tables.numbers[8] = (tables.numbers[8] + 1).min(30_000); // just met
        }
        self.put(Command::Tables(tables))
    }

    // The setup taken up until the least period is the longest there is, or one more: then few marks decide the reason.
    fn lengthen(&mut self, q: &Question) -> Made {
        let mut tables = self.player.tables.clone();
        tables.numbers[3] = 0;
        let p = question::problem(&self.player.session.plan, &tables, q);
        let Ok((_, Some(slowest))) = Explained::of(&p, SCRATCH) else { return Ok(()) };
        let wanted = LONGEST + self.r.pick(&[0, 0, 1]);
        tables.numbers[3] = wanted.saturating_sub(period_for(slowest) as u32).min(LONGEST);
        tables.numbers[8] = self.r.pick(&[tables.numbers[8], tables.numbers[8], LONGEST - 1, LONGEST]);
        self.put(Command::Tables(tables))
    }

    // Room for the visits: ample, or about as much as those of a route or of a crossing need.
    fn room(&mut self, q: &mut Question) {
        if self.r.chance(65) {
            return;
        }
        let ample = Question { room: 2_048, ..*q };
        let visits = match self.player.crossed(&ample) {
            Ok(Crossed::Found(route, _)) if self.r.chance(50) => Some(route.len()),
            _ => match self.player.answer(&ample) {
                Ok(Answer::Found(best)) => Some(best.route.len()),
                _ => None,
            },
        };
        q.room = match visits {
            Some(visits) => {
                let need = 2 * visits as u32;
                self.r.pick(&[need, need, need - 1, need - 2, need + 1, 0, need / 2])
            }
            None => self.r.below(2_049),
        };
    }

    // Keeps the question, to be asked again, and the cells of its route; one without a route is mostly forgotten.
    fn look(&mut self, q: &Question, percent: u32) {
        self.asked = Some(*q);
        self.path.clear();
        let crossed = self.player.crossed(q).ok();
        let crossed = crossed.as_ref().and_then(|crossed| crossed.route()).filter(|_| self.r.chance(50));
        if let Some((route, _)) = crossed {
            self.path = route.iter().map(|visit| visit.0).collect();
            return;
        }
        match self.player.answer(q) {
            Ok(Answer::Found(best) | Answer::NoRoom(best)) => self.path = best.route.iter().map(|v| v.0).collect(),
            _ if self.r.chance(percent) => {}
            _ => self.asked = None,
        }
    }

    // A route question, why there is none, a route between two clocks, or some of them.
    fn ask(&mut self, q: Question) -> Made {
        let turn = self.r.below(14);
        if turn < 8 {
            self.put(Command::Route(q))?;
        }
        if 4 < turn && turn < 10 {
            self.put(Command::Reason(q))?;
        }
        if turn < 2 || turn > 6 {
            self.put(Command::Crossing(q))?;
        }
        Ok(())
    }

    // Both marks on a tap of the last route, then taken back: the questions before, between and after.
    fn mark_both(&mut self, q: Question) -> Made {
        let plan = &self.player.session.plan;
        let marks = |cell: u32| plan.get(cell as usize).map_or(0, |&marks| marks as u32);
        let taps: Vec<u32> = self.path.iter().copied().filter(|&cell| marks(cell) & 3 == 2).collect();
        if taps.is_empty() {
            return Ok(());
        }
        let cell = self.r.pick(&taps);
        let moves = [None, Some(Command::Move(cell, marks(cell) | 3)), Some(Command::Undo)];
        let mut told = Vec::new();
        for command in moves {
            command.map_or(Ok(()), |command| self.put(command))?;
            self.put(Command::Route(q))?;
            self.put(Command::Crossing(q))?;
            told.push(self.player.answer(&q).ok().map(|answer| (answer.number(), answer.filled())));
        }
        if let [Some(first), Some(between), Some(last)] = &told[..] {
            self.mix.both_marks(first, between, last);
        }
        Ok(())
    }

    pub fn question(&mut self) -> Made {
        if let Some(q) = self.asked {
            if self.r.chance(75) {
                self.look(&q, 60);
                self.ask(q)?;
                return if self.r.chance(15) { self.mark_both(q) } else { Ok(()) };
            }
        }
        if self.r.chance(40) {
            self.new_tables()?;
        }
        let mut q = draw::question(&mut self.r, self.sides, self.large);
        match self.r.below(20) {
            0..12 => self.tighten(&q)?,
            12 | 13 => self.lengthen(&q)?,
            _ => {}
        }
        if self.r.chance(60) {
            self.new_clocks()?; // about the period of now
        }
        self.room(&mut q);
        if self.r.chance(20) {
            let n = draw::scratch(&mut self.r, &q);
            self.put(Command::Scratch(n))?;
        }
        self.look(&q, 20);
        self.ask(q)?;
        if self.player.lent < SCRATCH && self.r.chance(80) {
            self.put(Command::Scratch(SCRATCH))?;
        }
        if self.r.chance(12) {
            return self.spoilt_tables(q);
        }
        Ok(())
    }

    // A number outside its range, the question (its ends spoilt too, now and then), and the number put right.
    fn spoilt_tables(&mut self, q: Question) -> Made {
        let (good, clocks) = (self.player.tables.clone(), self.player.clocks);
        if self.r.chance(80) {
            let bad = draw::spoilt(&mut self.r, &good);
            self.put(Command::Tables(bad))?;
        }
        if self.r.chance(35) {
            let bad = draw::spoilt_clocks(&mut self.r, clocks);
            self.put(Command::Clocks(bad))?;
        }
        let sink = if self.r.chance(30) { q.source } else { q.sink };
        self.ask(Question { sink, ..q })?;
        self.put(Command::Tables(good))?;
        self.put(Command::Clocks(clocks))
    }
}

// One script. The error tells where the models differ.
pub fn script(mut r: Random, mix: &mut Mix) -> (Script, Made) {
    let kind = match r.below(12) {
        0..3 => Kind::Reference,
        3 => Kind::Climb,
        4..7 => Kind::Tamper,
        7 => Kind::Openings,
        8..10 => Kind::Large,
        _ => Kind::Questions,
    };
    let sides = draw::sides(&mut r, kind == Kind::Large);
    let free = r.chance(10);
    let mut maker = Maker {
        r,
        mix,
        player: Player::new(),
        commands: Vec::new(),
        lines: Vec::new(),
        bytes: 0,
        sides,
        large: kind == Kind::Large,
        asked: None,
        path: Vec::new(),
    };
    let made = maker.whole(kind);
    let Maker { mut r, mix, mut commands, mut lines, .. } = maker;
    mix.scripts += 1;
    mix.add_if(free, "free layout");
    let bad = commands.iter().position(|c| matches!(c, Command::Bad(..)));
    if bad.is_some() {
        commands.extend([Command::Undo, Command::Show]); // not played
    }
    let (text, ends) = script::write(&commands, free, &mut r);
    if let Some(at) = bad {
        let line = lines.last_mut().unwrap();
        line.text = format!("bad script: line {}: {}", ends[at], line.text);
    }
    (Script { commands, lines, text }, made)
}
