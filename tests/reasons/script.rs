// Jobs as scripts: crates/session_player/src/main.rt tells the format.

use crate::commands::{shown, Command};
use crate::explained::Explained;
use crate::jobs::Job;
use crate::played::Script;
use crate::question::{answer, Question, Tables, VISITS};
use crate::rules::Problem;

type Entry = (Command, Vec<String>); // with the lines that are printed for it

fn plan(p: &Problem) -> Vec<u8> {
    p.marks.iter().map(|&marks| marks as u8).collect()
}

fn asked(p: &Problem) -> Question {
    Question { width: p.width, height: p.height, source: p.source, sink: p.sink, room: VISITS }
}

// A route question, and the visit words that it fills: the job's, or one on no plan where the search cannot answer it.
fn route(job: &Job) -> (Entry, Vec<u16>) {
    let (mut q, t, plan) = (asked(&job.problem), Tables::from(&job.problem), plan(&job.problem));
    let given = answer(&plan, &t, job.lent, &q).or_else(|_| {
        q.width = 0;
        answer(&plan, &t, job.lent, &q)
    });
    let given = given.unwrap_or_else(|_| unreachable!("a width of 0 is refused"));
    let line = format!("route {} depth {} {}", given.number(), job.depth, given.text(&t, &q));
    ((Command::Route(q), vec![line]), given.filled().iter().map(|&word| word as u16).collect())
}

pub fn entries(job: &Job, answer: &Explained) -> Vec<Entry> {
    let p = &job.problem;
    let (tables, lent) = (Command::Tables(Tables::from(p)), Command::Scratch(job.lent));
    let laying = [Command::Plan(plan(p)), Command::Depth(job.depth), tables, lent];
    let mut out: Vec<Entry> = laying.into_iter().map(|command| (command, vec![])).collect();
    let line = format!("reason {} depth {} {}", answer.number(), job.depth, answer.text(p));
    let reason = (Command::Reason(asked(p)), vec![line]);
    if job.shown {
        let (route, visits) = route(job);
        let journal = [7; 1_024]; // as it was: no session was opened
        let lines = shown(&plan(p), &journal, answer.zeroed(p), &visits);
        out.extend([route, reason, (Command::Show, lines)]);
    } else {
        out.push(reason);
    }
    out
}

// Adds a job; gives the script that is full.
pub fn add(script: &mut Script, entries: &[Entry]) -> Option<Script> {
    let block: Vec<_> = entries.iter().map(|(command, lines)| (command.text(), lines.clone())).collect();
    script.add(&block)
}
