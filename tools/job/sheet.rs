// A sheet as text, as the route printer prints it: the list of its visits. The figures of the first line are not judged;
// a line that starts with '#' is a comment.

use crate::answer::Visit;
use crate::fields::{number, Field};
use crate::text::Wrong;
use crate::words::shown;

// So many fit into the script of any plan: each has at most 12 of its 65,535 bytes, all else together at most 5,000.
pub const VISITS: usize = 4_096;

// Only the spare figure, which older sheets do not have, may have a minus sign.
fn check_figures(line: &str) -> Field<()> {
    let words: Vec<&str> = line.split_whitespace().collect();
    let whole = |word: &str| !word.is_empty() && word.bytes().all(|b| b.is_ascii_digit());
    let right = match words[..] {
        ["route", r, s, l] => [r, s, l].into_iter().all(whole),
        ["route", r, s, l, p] => [r, s, l, p.strip_prefix('-').unwrap_or(p)].into_iter().all(whole),
        _ => false,
    };
    match right {
        true => Ok(()),
        false => Err(format!(
            "'{}' is not the first line of a sheet; the form is: route REGISTERS STEPS LATENCY SPARE",
            shown(line)
        )),
    }
}

fn visit(line: &str) -> Field<Visit> {
    let words: Vec<&str> = line.split_whitespace().collect();
    match words[..] {
        [cell, code] => Ok(Visit { cell: number(cell)?, code: number(code)? }),
        _ => Err(format!("a visit is two numbers, a cell and a gate code, not {}", words.len())),
    }
}

pub fn parse(text: &str) -> Result<Vec<Visit>, Wrong> {
    let body = text.trim_end_matches(['\n', '\r']);
    let all = body.split('\n').map(|line| line.strip_suffix('\r').unwrap_or(line));
    let mut lines = (1..).zip(all).filter(|(_, line)| !line.starts_with('#'));
    let wrong = |line: usize| move |message: String| Wrong { line, message };
    let (at, figures) = lines.next().unwrap_or((body.split('\n').count(), ""));
    check_figures(figures).map_err(wrong(at))?;
    let mut visits = Vec::new();
    for (at, line) in lines {
        if visits.len() == VISITS {
            return Err(wrong(at)(format!("the sheet has more than {VISITS} visits, the most that are judged")));
        }
        visits.push(visit(line).map_err(wrong(at))?);
    }
    Ok(visits)
}
