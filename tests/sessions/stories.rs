// What a script does, call after call: moves and undos, climbs past 256 moves, tampering, refused openings, a second
// session.

use crate::draw;
use crate::make::{Made, Maker, MOST_BYTES};
use crate::plan;
use crate::player::Player;
use crate::question::Question;
use crate::script::Command;

// What a script is mostly made of.
#[derive(Clone, Copy, PartialEq)]
pub enum Kind {
    Reference, // moves, undos and questions, nothing tampered with
    Climb,  // past 256 moves
    Tamper,
    Openings,
    Large, // plans of hundreds of cells
    Questions,
}

impl Maker<'_> {
    fn some_calls(&mut self, n: u32) -> Made {
        for _ in 0..n {
            match self.r.below(10) {
                0..4 => self.set()?,
                4..8 => self.put(Command::Undo)?,
                _ => self.question()?,
            }
        }
        Ok(())
    }

    fn tamper(&mut self) -> Made {
        let command = draw::tampering(&mut self.r, self.sides, &self.player.session);
        self.put(command)
    }

    // What a tampering changed is put back. Sides cannot be.
    fn restore(&mut self, before: &Player) -> Made {
        let (old, new) = (&before.session, self.player.session.clone());
        let differing: Vec<usize> = (0..1_100).filter(|&at| old.journal[at] != new.journal[at]).collect();
        let (w, h) = (old.record.width, old.record.height);
        if differing.len() > 60 || (w, h) != (new.record.width, new.record.height) {
            return Ok(());
        }
        if !differing.is_empty() {
            self.put(Command::Journal(1_100))?;
        }
        for at in differing {
            self.put(Command::Byte(at as u32, old.journal[at] as u32))?;
        }
        if self.player.session.lent != old.lent {
            self.put(Command::Journal(old.lent as u32))?;
        }
        if old.plan != new.plan {
            self.put(Command::Plan(old.plan.clone()))?;
        }
        if old.record.depth != new.record.depth {
            self.put(Command::Depth(old.record.depth))?;
        }
        self.mix.add_if(before.in_step && self.player.in_step, "restored");
        Ok(())
    }

    // One to four tamperings, some calls, and perhaps all put back.
    fn tampered_calls(&mut self) -> Made {
        let before = self.player.clone();
        for _ in 0..self.r.pick(&[1, 1, 1, 2, 2, 3, 4]) {
            self.tamper()?;
        }
        let n = self.r.within(1, 4);
        self.some_calls(n)?;
        if self.r.chance(50) {
            return self.restore(&before);
        }
        let s = &self.player.session;
        let fits = s.lent >= 1_024 && plan::faults(s.record.width, s.record.height, &s.plan).is_empty();
        if !fits && self.r.chance(80) {
            return self.lend_good(); // depth and entries stay as they are
        }
        Ok(())
    }

    // Lends a plan and a journal with which an opening answers 0.
    fn lend_good(&mut self) -> Made {
        let (w, h) = self.sides;
        let plan = draw::plan(&mut self.r, w, h);
        if self.player.session.lent < 1_024 {
            let n = self.r.pick(&[1_024, 1_024, 1_025, 1_100]);
            self.put(Command::Journal(n))?;
        }
        self.put(Command::Plan(plan))
    }

    fn opening(&mut self) -> Made {
        self.asked = None;
        self.lend_good()?;
        self.put(Command::Open(self.sides.0, self.sides.1))
    }

    // An opening with one fault or several, calls on the zeros, and perhaps tampering with those.
    fn refused_opening(&mut self) -> Made {
        let (mut w, mut h) = self.sides;
        for _ in 0..self.r.pick(&[1, 1, 2, 3]) {
            match self.r.below(5) {
                0 => (w, h) = draw::bad_sides(&mut self.r, w, h),
                1 => (w, h) = (h, (w + self.r.below(2)).min(65_535)),
                2 => self.put(Command::Journal(self.player.session.lent.min(1_023) as u32))?,
                _ => {
                    let plan = draw::bad_plan(&mut self.r, self.sides, &self.player.session.plan);
                    self.put(Command::Plan(plan))?;
                }
            }
        }
        self.put(Command::Open(w, h))?;
        let n = self.r.within(2, 6);
        self.some_calls(n)?;
        if self.r.chance(40) {
            for _ in 0..self.r.within(1, 3) {
                self.tamper()?;
            }
            self.some_calls(3)?;
        }
        Ok(())
    }

    // Journal and record may hold anything before an opening.
    fn dirt(&mut self) -> Made {
        for _ in 0..self.r.below(6) {
            let at = self.r.below(1_024.min(self.player.session.lent as u32).max(1));
            let value = self.r.below(256);
            self.put(Command::Byte(at, value))?;
        }
        if self.r.chance(40) {
            let depth = self.r.pick(&[1, 7, 256, 257, 65_535]);
            self.put(Command::Depth(depth))?;
        }
        Ok(())
    }

    // A second session with only the standing moves: all alike.
    fn second_session(&mut self) -> Made {
        if self.bytes + 15_000 > MOST_BYTES {
            return Ok(()); // it might not go in whole
        }
        let Some(reference) = self.player.reference.clone().filter(|_| self.player.in_step) else { return Ok(()) };
        let mut asked: Vec<Question> = self.asked.into_iter().collect();
        asked.extend([0, 1].map(|_| draw::question(&mut self.r, self.sides, self.large)));
        let first = self.lines.len();
        self.alike(&asked)?;
        let second = self.lines.len();
        self.dirt()?;
        self.put(Command::Plan(reference.opening.clone()))?;
        self.put(Command::Open(reference.width, reference.height))?;
        for (cell, marks) in &reference.standing {
            self.put(Command::Move(*cell, *marks as u32))?;
        }
        let third = self.lines.len();
        self.alike(&asked)?;
        let of_words = |text: &str| text.starts_with("scratch") || text.starts_with("visits"); // left by another call
        let text = |from: usize, to: usize| {
            let lines = self.lines[from..to].iter().map(|line| &line.text);
            lines.filter(|text| !of_words(text)).collect::<Vec<_>>()
        };
        if text(first, second) != text(third, self.lines.len()) {
            return Err("a second session with the standing moves is not alike".to_string());
        }
        self.mix.add("second sessions");
        Ok(())
    }

    // What two sessions must have alike: plan and journal, depth and answers.
    fn alike(&mut self, asked: &[Question]) -> Made {
        self.put(Command::Show)?;
        for q in asked {
            self.put(Command::Route(*q))?;
            self.put(Command::Reason(*q))?;
            self.put(Command::Crossing(*q))?;
        }
        Ok(())
    }

    // Moves past 256, then undos past the bottom, with some of the other kind among them.
    fn climb(&mut self) -> Made {
        if self.r.chance(30) {
            self.tamper_depth_near_top()?;
        }
        let over = self.r.within(3, 12);
        let mut tried = 0;
        while self.player.session.record.depth < 256 && tried < 600 {
            self.set()?;
            if self.r.chance(4) {
                self.put(Command::Undo)?;
            }
            if self.r.chance(2) {
                self.question()?;
            }
            tried += 1;
        }
        for _ in 0..over {
            self.set()?;
        }
        if self.r.chance(30) {
            self.some_calls(over)?; // about the top
        }
        if self.r.chance(40) {
            self.put(Command::Show)?;
        }
        if self.r.chance(50) {
            let mut tried = 0;
            while self.player.session.record.depth > 0 && tried < 400 {
                self.put(Command::Undo)?;
                if self.r.chance(3) {
                    self.set()?;
                }
                tried += 1;
            }
            self.put(Command::Undo)?;
            self.put(Command::Undo)?;
        }
        Ok(())
    }

    fn tamper_depth_near_top(&mut self) -> Made {
        let depth = self.r.within(250, 256);
        self.put(Command::Depth(depth))
    }

    fn body(&mut self, kind: Kind) -> Made {
        let n = self.r.within(120, 320);
        let (mut undos, mut questions, mut tampers, mut openings) = (25, 15, 0, 0);
        match kind {
            Kind::Reference => undos = self.r.pick(&[10, 25, 35, 48]),
            Kind::Climb => return self.climb(),
            Kind::Tamper => tampers = 14,
            Kind::Openings => (tampers, openings) = (4, 8),
            Kind::Large => (questions, tampers) = (6, 3),
            Kind::Questions => questions = 40,
        }
        for _ in 0..n {
            let turn = self.r.below(100);
            if turn < undos {
                self.put(Command::Undo)?;
            } else if turn < undos + questions {
                self.question()?;
            } else if turn < undos + questions + tampers {
                self.tampered_calls()?;
            } else if turn < undos + questions + tampers + openings {
                self.refused_opening()?;
                self.opening()?;
            } else {
                self.set()?;
            }
            if self.r.below(250) == 0 {
                self.put(Command::Show)?;
            }
        }
        Ok(())
    }

    pub fn whole(&mut self, kind: Kind) -> Made {
        if self.r.chance(8) {
            self.some_calls(3)?;
        }
        self.new_tables()?;
        self.dirt()?;
        if self.r.chance(30) {
            let n = self.r.within(1_024, 1_100);
            self.put(Command::Journal(n))?;
        }
        self.opening()?;
        self.body(kind)?;
        if kind != Kind::Tamper && kind != Kind::Openings {
            self.second_session()?;
        }
        self.put(Command::Show)?;
        if self.r.chance(10) {
            self.mix.add("bad scripts");
            let bad = draw::bad_command(&mut self.r);
            self.put(bad)?;
        }
        Ok(())
    }
}
