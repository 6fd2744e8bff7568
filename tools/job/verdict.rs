// Asks the proved program for the verdict on a sheet, and says it in words.

use crate::answer::{number, Visit};
use crate::causes::{self, Fault};
use crate::files::{self, failure, Failure, Source, AT_FAULT, DONE, FAILED, TEXT};
use crate::job::Job;
use crate::program::printed;
use crate::text::Lines;
use crate::words::{counted, shown, shown_name};
use crate::{read_one_clock, read_sheet, refusals, script, spans};
use std::ffi::OsStr;

enum Verdict {
    Accepted(u32), // the smallest spare figure
    AtFault(usize, Fault),
    Refused(u32, usize), // the number, and for 4 the place of the element at fault
}

// The line that the session player prints; no session is open, so the depth is 0.
fn read(text: &str) -> Option<Verdict> {
    let words: Vec<&str> = text.strip_suffix('\n')?.split(' ').collect();
    match words[..] {
        ["judge", "0", "depth", "0", "accepted", slack] => Some(Verdict::Accepted(number(slack)?)),
        ["judge", "0", "depth", "0", "visit", at, ref fault @ ..] => {
            Some(Verdict::AtFault(number(at)?, causes::fault(fault)?))
        }
        ["judge", "4", "depth", "0", "fault", place] | ["judge", "4", "depth", "0", "fault", place @ "8", _] => {
            Some(Verdict::Refused(4, number(place)?))
        }
        ["judge", refusal, "depth", "0"] => Some(Verdict::Refused(number(refusal)?, 0)),
        _ => None,
    }
}

fn read_both(plan: &Source, sheet: &Source) -> Result<(Job, Lines, Vec<Visit>), Failure> {
    if plan.file.is_none() && sheet.file.is_none() {
        return failure(TEXT, "standard input can be the plan or the sheet, not both".to_string());
    }
    let (job, lines) = read_one_clock(plan, "verdict, which is for one clock")?;
    Ok((job, lines, read_sheet(sheet)?))
}

pub fn write(plan: &Source, sheet: &Source) -> Result<u8, Failure> {
    let (job, _, visits) = read_both(plan, sheet)?;
    files::print(script::judging(&job, &visits).as_bytes())?;
    Ok(DONE)
}

pub fn run(player: &OsStr, plan: &Source, sheet: &Source) -> Result<u8, Failure> {
    let (job, lines, visits) = read_both(plan, sheet)?;
    let text = printed(player, script::judging(&job, &visits).as_bytes())?;
    let line = text.trim_end();
    let no_answer = |what: &str| failure(FAILED, format!("{}: {what} '{}'", shown_name(player), shown(line)));
    match read(&text) {
        Some(Verdict::Accepted(slack)) => {
            let spans = spans::closed(&job, &visits).unwrap_or_default();
            if spans::least_slack(&spans) != slack as i64 {
                return no_answer("plan and sheet do not show the spare figure of its line");
            }
            let (visits, registers) = (counted(visits.len(), "visit"), counted(spans.len() - 1, "register"));
            let spare = counted(slack as usize, "half-tick");
            files::print(format!("accepted: {visits}, {registers}, {spare} spare\n").as_bytes())?;
            Ok(DONE)
        }
        Some(Verdict::AtFault(at, fault)) => {
            let Some(cause) = causes::cause(&job, &visits, at, fault) else {
                return no_answer("plan and sheet do not show the fault of its line");
            };
            let Visit { cell, code } = visits[at];
            files::print(format!("visit {at} (cell {cell}, code {code}): {cause}\n").as_bytes())?;
            Ok(AT_FAULT)
        }
        Some(Verdict::Refused(number, place)) => {
            let (name, (line, words)) = match refusals::reason_of_call(number, place, &job, &lines) {
                Some(reason) => (plan.name(), reason),
                None if number == 17 => (sheet.name(), (None, "a sheet needs two visits or more".to_string())),
                None => return no_answer("the plan and the sheet cannot be refused with"),
            };
            files::print(format!("refused {number}\n").as_bytes())?;
            refusals::told(&name, line, &words, number)
        }
        None => no_answer("it printed no verdict, but"),
    }
}
