// A script's commands as text; crates/session_player/src/main.rt tells the format.

use crate::question::{Question, Tables, SCRATCH, VISITS};
use crate::random::Random;

#[derive(Clone, Debug)]
pub enum Command {
    Plan(Vec<u8>),
    Journal(u32),
    Open(u32, u32),
    Move(u32, u32),
    Undo,
    Depth(u32),
    Byte(u32, u32),
    Tables(Tables), // two commands: tables, buffers
    Clocks([u32; 5]), // the source's period, FIFO R K C setup
    Scratch(u32),
    Route(Question),
    Reason(Question), // its room is of no account
    Crossing(Question),
    Show,
    Bad(&'static str, &'static str), // a command that is no command, its wrong word comes last; and what is said of it
}

fn numbers(name: &str, list: &[u32]) -> String {
    list.iter().fold(name.to_string(), |text, n| text + &format!(" {n}"))
}

impl Command {
    pub fn text(&self) -> String {
        match self {
            Command::Plan(marks) => {
                let list: Vec<u32> = marks.iter().map(|&m| m as u32).collect();
                numbers(&format!("plan {}", list.len()), &list)
            }
            Command::Journal(n) => numbers("journal", &[*n]),
            Command::Open(w, h) => numbers("open", &[*w, *h]),
            Command::Move(cell, marks) => numbers("move", &[*cell, *marks]),
            Command::Undo => "undo".to_string(),
            Command::Depth(d) => numbers("depth", &[*d]),
            Command::Byte(at, value) => numbers("byte", &[*at, *value]),
            Command::Tables(t) => {
                let buffers = numbers(&format!("buffers {}", t.buffers.len()), &t.buffers.concat());
                format!("{} {buffers}", numbers("tables", &t.numbers))
            }
            Command::Clocks(list) => numbers("clocks", list),
            Command::Scratch(n) => numbers("scratch", &[*n]),
            Command::Route(q) => numbers("route", &q.numbers()),
            Command::Reason(q) => numbers("reason", &q.numbers()[..4]),
            Command::Crossing(q) => numbers("crossing", &q.numbers()),
            Command::Show => "show".to_string(),
            Command::Bad(text, _) => text.to_string(),
        }
    }

    pub fn is_call(&self) -> bool {
        use Command::*;
        matches!(self, Open(..) | Move(..) | Undo | Route(_) | Reason(_) | Crossing(_))
    }
}

// Reads a script of good commands, as `write` gives it; None where one is not.
pub fn read(text: &str) -> Option<Vec<Command>> {
    let mut words = text.lines().flat_map(|line| line.split('#').next().unwrap_or("").split_whitespace());
    let mut out = Vec::new();
    let mut tables = Tables::default();
    while let Some(word) = words.next() {
        let mut next = || words.next()?.parse::<u32>().ok();
        out.push(match word {
            "plan" => {
                let n = next()?;
                Command::Plan((0..n).map(|_| next().map(|m| m as u8)).collect::<Option<_>>()?)
            }
            "journal" => Command::Journal(next()?),
            "open" => Command::Open(next()?, next()?),
            "move" => Command::Move(next()?, next()?),
            "undo" => Command::Undo,
            "depth" => Command::Depth(next()?),
            "byte" => Command::Byte(next()?, next()?),
            "tables" => {
                for number in &mut tables.numbers {
                    *number = next()?;
                }
                Command::Tables(tables.clone())
            }
            "buffers" => {
                let n = next()?;
                tables.buffers = (0..n).map(|_| Some([next()?, next()?, next()?])).collect::<Option<_>>()?;
                Command::Tables(tables.clone())
            }
            "clocks" => Command::Clocks([next()?, next()?, next()?, next()?, next()?]),
            "scratch" => Command::Scratch(next()?),
            "route" => Command::Route(Question::of([next()?, next()?, next()?, next()?, next()?])),
            "reason" => Command::Reason(Question::of([next()?, next()?, next()?, next()?, 0])),
            "crossing" => Command::Crossing(Question::of([next()?, next()?, next()?, next()?, next()?])),
            "show" => Command::Show,
            _ => return None,
        });
    }
    Some(out)
}

// Gaps between words. Comments are rare: the script must stay below 65,536 bytes.
const SPACES: [&str; 7] = [" ", " ", " ", "\n", "  ", "\n\n", " \n "];
const COMMENTS: [&str; 3] = ["#\n", " # move 0 1 # undo\n\t", "\n#plan 1 0\n#\n"];

// The whole script: a command a line, or (free) with such gaps anywhere. Also the line in which each command's last
// word stands.
pub fn write(commands: &[Command], free: bool, r: &mut Random) -> (String, Vec<usize>) {
    let (mut text, mut line, mut ends) = (String::new(), 1, Vec::new());
    for command in commands {
        let words = command.text();
        let mut words = words.split(' ').peekable();
        while let Some(word) = words.next() {
            text += word;
            let last = words.peek().is_none();
            if last {
                ends.push(line);
            }
            let gap = match (free, last) {
                (true, _) if r.chance(1) => r.pick(&COMMENTS),
                (true, _) => r.pick(&SPACES),
                (false, true) => "\n",
                (false, false) => " ",
            };
            line += gap.matches('\n').count();
            text += gap;
        }
    }
    (text, ends)
}

const UNUSED: u16 = 65_535; // what words hold that no call has written

// So many words as `show` prints them, the first of them written: a run of N equal words W is `W * N`.
fn shown_words(name: &str, written: &[u16], n: usize) -> String {
    let mut words = written.to_vec();
    words.resize(n, UNUSED);
    words.chunk_by(|a, b| a == b).fold(name.to_string(), |text, run| match run.len() {
        1 => text + &format!(" {}", run[0]),
        n => text + &format!(" {} * {n}", run[0]),
    })
}

// The four lines of `show`; so many scratch words are zero.
pub fn shown(plan: &[u8], journal: &[u8], zeroed: u32, visits: &[u16]) -> Vec<String> {
    let list = |name: &str, bytes: &[u8]| bytes.iter().fold(name.to_string(), |text, byte| text + &format!(" {byte}"));
    vec![
        list("plan", plan),
        list("journal", journal),
        shown_words("scratch", &vec![0; zeroed as usize], SCRATCH as usize),
        shown_words("visits", visits, VISITS as usize),
    ]
}
