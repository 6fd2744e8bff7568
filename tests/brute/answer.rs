// The whole text that the route printer prints for a job's bytes.

use crate::change::Best;
use crate::job;
use crate::rules::{legal, registers, Fault, Problem, ReadLast, Visit};
use crate::search::{self, TooLarge};

const VISITS: usize = 1_024; // 2,048 words, two a visit

#[derive(Clone, Debug)]
pub enum Answer {
    Route(Problem, Vec<Visit>),
    None(Problem),
    // A fault is named where the refusal is 4 and the job was read whole.
    Refused(u32, Option<Fault>),
}

// The answer to a job's bytes by the rules of now, or of before C-17; the search follows at most `most` states.
pub fn answer(bytes: &[u8], read_last: ReadLast, most: usize) -> Result<Answer, TooLarge> {
    let p = match job::read(bytes) {
        Ok(p) => Problem { read_last, ..p },
        Err(refusal) => return Ok(Answer::Refused(refusal, None)),
    };
    // Refusals 1 and 2 cannot come after the reading: the grid is tested there, and the marks are counted by it.
    if p.invalid_marks() {
        return Ok(Answer::Refused(3, None));
    }
    if let Some(fault) = p.fault() {
        return Ok(Answer::Refused(4, Some(fault)));
    }
    if p.ends_fail() {
        return Ok(Answer::Refused(5, None));
    }
    // Refusal 6 cannot come: the program has scratch words for every plan that it reads.
    Ok(match search::best(&p, most)? {
        None => Answer::None(p),
        Some(route) if route.len() > VISITS => Answer::Refused(8, None),
        Some(route) => Answer::Route(p, route),
    })
}

// Registers, steps, latency, spare half-ticks.
fn figures(p: &Problem, route: &[Visit]) -> [u64; 4] {
    let k = registers(route) as u64;
    let slack = legal(p, route).expect("the search's route is legal").slack(p);
    [k, route.len() as u64 - 1, p.period as u64 * (k + 1), slack]
}

impl Answer {
    pub fn best(&self) -> Best<'_> {
        match self {
            Answer::Route(p, route) => Some((route, figures(p, route).to_vec())),
            _ => None,
        }
    }

    pub fn text(&self) -> String {
        match self {
            Answer::None(_) => "none\n".to_string(),
            Answer::Refused(number, _) => format!("refused {number}\n"),
            Answer::Route(p, route) => {
                let [k, steps, latency, slack] = figures(p, route);
                let mut text = format!("route {k} {steps} {latency} {slack}\n");
                for (cell, code) in route {
                    text += &format!("{cell} {code}\n");
                }
                text
            }
        }
    }
}
