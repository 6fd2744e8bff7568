// Asks the proved program for the route of a plan text, and shows what it printed; where there is none, another tells why.
// A text with two clocks is crossing.rs's part.

use crate::answer::{self, Answer, Route, Visit};
use crate::files::{self, failure, Failure, Source, DONE, FAILED, NONE};
use crate::job::{Job, CODE_FIFO, CODE_REGISTER};
use crate::program::printed;
use crate::spans::{self, Span};
use crate::table::table;
use crate::words::{counted, shown, shown_name};
use crate::{bytes, crossing, picture, read_text, reasons, refusals, svg};
use std::ffi::{OsStr, OsString};

#[derive(Default)]
pub struct Drawings<'a> {
    picture: bool,
    svg: Option<&'a OsStr>,
}

pub fn drawings(options: &[OsString]) -> Option<Drawings<'_>> {
    match options {
        [] => Some(Drawings::default()),
        [word, rest @ ..] if word == "--picture" => Some(Drawings { picture: true, ..drawings(rest)? }),
        [word, file, rest @ ..] if word == "--svg" => Some(Drawings { svg: Some(file), ..drawings(rest)? }),
        _ => None,
    }
}

pub fn draw(name: &str, text: &str, job: &Job, route: Option<&Route>, drawings: &Drawings) -> Result<(), Failure> {
    let mut out = text.to_string();
    if drawings.picture {
        out += "\n";
        out += &picture::draw(job, route);
    }
    files::print(out.as_bytes())?;
    match drawings.svg {
        Some(file) => files::save(file, svg::draw(name, job, route).as_bytes()),
        None => Ok(()),
    }
}

// How many spans each clock has, the source's first; or where a route between two does not pass one FIFO.
fn sides(job: &Job, visits: &[Visit], spans: &[Span]) -> Result<Vec<u64>, String> {
    let after = |fifos: usize| spans.iter().filter(|span| span.fifos == fifos).count() as u64;
    if job.clocks.is_none() {
        return Ok(vec![after(0)]);
    }
    match visits.iter().filter(|visit| visit.code == CODE_FIFO).count() {
        1 => Ok(vec![after(1), after(0)]),
        n => Err(format!("it has {}", counted(n, "FIFO"))),
    }
}

// The spans of a route that fits its job, or what does not fit. Loads and sites are the planner's part.
pub fn fitting(route: &Route, job: &Job) -> Result<Vec<Span>, String> {
    let visits = &route.visits;
    let (Some(first), Some(last)) = (visits.first(), visits.last()) else { return Err("it has no visit".to_string()) };
    if visits.len() as u64 != route.steps + 1 {
        return Err(format!("it says {} steps and has {} visits", route.steps, visits.len()));
    }
    let spans = spans::closed(job, visits)?;
    if (first.cell, first.code, last.cell, last.code) != (job.sink, CODE_REGISTER, job.source, CODE_REGISTER) {
        return Err("it does not lead from the sink to the source".to_string());
    }
    let said: Vec<u64> = route.registers.iter().map(|registers| registers + 1).collect();
    let latency: u64 = spans.iter().map(|span| span.period as u64).sum();
    if said != sides(job, visits, &spans)? || route.latency != latency {
        let registers: Vec<String> = route.registers.iter().map(u64::to_string).collect();
        return Err(format!("its first line says registers {}, latency {}", registers.join(" "), route.latency));
    }
    let least = spans::least_slack(&spans);
    if least != route.slack {
        return Err(format!("its first line says spare {}, and its spans have {least}", route.slack));
    }
    Ok(spans)
}

pub fn run(printer: &OsStr, player: &OsStr, from: &Source, drawings: &Drawings) -> Result<u8, Failure> {
    let (job, lines) = read_text(from)?;
    if job.clocks.is_some() {
        return crossing::run(player, from, &job, &lines, drawings);
    }
    let text = printed(printer, &bytes::encode(&job))?;
    let no_answer = |what: String| failure(FAILED, format!("{}: {what}", shown_name(printer)));
    match answer::read(&text) {
        Some(Answer::Route(route)) => {
            let spans = match fitting(&route, &job) {
                Ok(spans) => spans,
                Err(what) => return no_answer(format!("its route does not fit the plan: {what}")),
            };
            let sheet = text + &table(&job, &route.visits, &spans);
            draw(&from.name(), &sheet, &job, Some(&route), drawings)?;
            Ok(DONE)
        }
        Some(Answer::None) => {
            let sheet = format!("none: {}\n", reasons::asked(player, &job)?);
            draw(&from.name(), &sheet, &job, None, drawings)?;
            Ok(NONE)
        }
        Some(Answer::Refused(number)) => {
            let Some((line, words)) = refusals::reason(number, &job, &lines) else {
                return no_answer(format!("it refused the job of the text with {number}, and did not get it whole"));
            };
            files::print(text.as_bytes())?;
            refusals::told(&from.name(), line, &words, number)
        }
        None => no_answer(format!("it printed no answer, but '{}'", shown(text.trim_end()))),
    }
}
