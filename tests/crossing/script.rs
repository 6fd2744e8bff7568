// Questions as scripts: crates/session_player/src/main.rt tells the format.

use crate::commands::{shown, Command};
use crate::crossed::Crossed;
use crate::jobs::Job;
use crate::question::{Question, Tables};

type Entry = (String, Vec<String>); // a command with the lines that are printed for it

pub fn entries(job: &Job, answer: &Crossed) -> Vec<Entry> {
    let (n, f, p) = (&job.net, &job.net.fifo, &job.net.problem);
    let plan: Vec<u8> = p.marks.iter().map(|&marks| marks as u8).collect();
    let laying = [
        Command::Plan(plan.clone()),
        Command::Depth(job.depth),
        Command::Tables(Tables::from(p)),
        Command::Clocks([n.source_period, f.r, f.k, f.c, f.setup]),
        Command::Scratch(job.lent),
    ];
    let mut out: Vec<Entry> = laying.iter().map(|command| (command.text(), vec![])).collect();
    let asked = Question::of([p.width, p.height, p.source, p.sink, job.room]);
    let line = format!("crossing {} depth {} {}", answer.number(), job.depth, answer.text(n));
    out.push((Command::Crossing(asked).text(), vec![line]));
    if job.shown {
        let visits: Vec<u16> = answer.filled().iter().map(|&word| word as u16).collect();
        let journal = [7; 1_024]; // as it was: no session was opened
        out.push((Command::Show.text(), shown(&plan, &journal, answer.zeroed(n), &visits)));
    }
    out
}
