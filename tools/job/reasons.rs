// Asks the proved program why there is no route, and says it in words.

use crate::answer::number;
use crate::files::{failure, Failure, FAILED};
use crate::job::{Job, PERIOD};
use crate::program::printed;
use crate::script;
use crate::words::{shown, shown_name};
use std::ffi::OsStr;

enum Reply {
    Because(String),
    Disagrees, // a route exists, or the question is refused
}

// The line that the session player prints; no session is open, so the depth is 0.
fn read(text: &str, job: &Job) -> Option<Reply> {
    let words: Vec<&str> = text.strip_suffix('\n')?.split(' ').collect();
    let ["reason", answer, "depth", "0", ref reason @ .., "zeroed", zeroed] = words[..] else { return None };
    number::<u32>(zeroed)?;
    let because = |words: &str| Some(Reply::Because(words.to_string()));
    match (number::<u32>(answer)?, reason) {
        (0, ["walled"]) => because("walled off, no chain of uncut wires joins the ends"),
        (0, ["load"]) => because("the load limit, no route keeps it even with the period test left out"),
        (0, ["period", ticks]) => match number::<u32>(ticks)? {
            ticks if job.period < ticks && ticks <= PERIOD.1 => {
                because(&format!("the smallest period is {ticks} ticks"))
            }
            _ => Some(Reply::Disagrees),
        },
        (0, ["short"]) => because(&format!("the period, even {} ticks are too short", PERIOD.1)),
        (4, ["fault", ..]) | (1.., []) => Some(Reply::Disagrees),
        _ => None,
    }
}

// Why the job, for which the route printer says none, has no route.
pub fn asked(player: &OsStr, job: &Job) -> Result<String, Failure> {
    let text = printed(player, script::explaining(job).as_bytes())?;
    let told = |what: &str| failure(FAILED, format!("{}: {what} '{}'", shown_name(player), shown(text.trim_end())));
    match read(&text, job) {
        Some(Reply::Because(words)) => Ok(words),
        Some(Reply::Disagrees) => told("the route printer says none, and it says"),
        None => told("it printed no reason, but"),
    }
}
