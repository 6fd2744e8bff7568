// Asks the proved program for the route of a net between two clocks, and shows what it printed as a sheet.

use crate::answer::{number, Route, Visit};
use crate::files::{self, failure, Failure, Source, DONE, FAILED, NONE};
use crate::job::Job;
use crate::program::printed;
use crate::route::{draw, fitting, Drawings};
use crate::table::table;
use crate::text::Lines;
use crate::words::{shown, shown_name};
use crate::{refusals, script};
use std::ffi::OsStr;

enum Reply {
    Route(Route),
    None,
    Refused(u32, usize), // the number, and for 4 the place of the element at fault
}

// The place of the element at fault; the last is followed by the buffer's own.
fn fault_place(words: &[&str]) -> Option<usize> {
    match words {
        ["fault", "10", buffer] => number::<u32>(buffer).map(|_| 10),
        ["fault", place] => number(place),
        _ => None,
    }
}

fn visits(words: &[&str]) -> Option<Vec<Visit>> {
    let visit = |pair: &[&str]| match pair {
        [cell, code] => Some(Visit { cell: number(cell)?, code: number(code)? }),
        _ => None,
    };
    words.chunks(2).map(visit).collect()
}

// The line that the session player prints; no session is open, so the depth is 0.
fn read(text: &str) -> Option<Reply> {
    let words: Vec<&str> = text.strip_suffix('\n')?.split(' ').collect();
    let (fault, rest) = words.split_at(words.iter().position(|word| *word == "figures")?);
    let ["crossing", answer, "depth", "0", ref fault @ ..] = fault[..] else { return None };
    let ["figures", source, sink, steps, latency, slack, "visits", ref list @ .., "zeroed", zeroed] = rest[..] else {
        return None;
    };
    number::<u32>(zeroed)?;
    let registers = vec![number(source)?, number(sink)?];
    let (steps, latency, slack) = (number(steps)?, number(latency)?, number::<u32>(slack)? as i64);
    let route = Route { registers, steps, latency, slack, visits: visits(list)? };
    match (number(answer)?, fault) {
        (0, []) => Some(Reply::Route(route)),
        _ if !list.is_empty() => None,
        (7, []) => Some(Reply::None),
        (4, fault) => Some(Reply::Refused(4, fault_place(fault)?)),
        (refusal, []) => Some(Reply::Refused(refusal, 0)),
        _ => None,
    }
}

// As the route printer prints a route, with registers of both sides.
fn sheet(route: &Route) -> String {
    let Route { registers, steps, latency, slack, visits } = route;
    let mut out = format!("crossing {} {} {steps} {latency} {slack}\n", registers[0], registers[1]);
    for Visit { cell, code } in visits {
        out += &format!("{cell} {code}\n");
    }
    out
}

pub fn run(player: &OsStr, from: &Source, job: &Job, lines: &Lines, drawings: &Drawings) -> Result<u8, Failure> {
    let text = printed(player, script::crossing(job).as_bytes())?;
    let no_answer = |what: String| failure(FAILED, format!("{}: {what}", shown_name(player)));
    match read(&text) {
        Some(Reply::Route(route)) => {
            let spans = match fitting(&route, job) {
                Ok(spans) => spans,
                Err(what) => return no_answer(format!("its route does not fit the plan: {what}")),
            };
            let sheet = sheet(&route) + &table(job, &route.visits, &spans);
            draw(&from.name(), &sheet, job, Some(&route), drawings)?;
            Ok(DONE)
        }
        Some(Reply::None) => {
            draw(&from.name(), "none\n", job, None, drawings)?;
            failure(NONE, format!("{}: why there is no route is told of one clock only", from.name()))
        }
        Some(Reply::Refused(number, place)) => {
            let Some((line, words)) = refusals::reason_of_crossing(number, place, job, lines) else {
                return no_answer(format!("the text cannot be refused with '{}'", shown(text.trim_end())));
            };
            files::print(format!("refused {number}\n").as_bytes())?;
            refusals::told(&from.name(), line, &words, number)
        }
        None => no_answer(format!("it printed no answer, but '{}'", shown(text.trim_end()))),
    }
}
