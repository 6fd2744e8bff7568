// A refusal in words. The program gives the number; the text shows what it is about, and where.

use crate::files::{failure, Failure, REFUSED};
use crate::job::{
    range, Job, BUFFER, BUFFERS, CUT_BELOW, CUT_RIGHT, LIMIT, MARKS, PERIOD, PROGRAM_CELLS, PROGRAM_VISITS,
};
use crate::job::{REGISTER, SIDE, SKEW, WIRE};
use crate::text::Lines;

// The line, where one shows it, and the words.
type Reason = (Option<usize>, String);

fn outside(what: &str, value: u32, (least, most): (u32, u32)) -> Option<String> {
    let fits = (least..=most).contains(&value);
    (!fits).then(|| format!("{what} {value} is outside {least} to {most}"))
}

fn grid(job: &Job, lines: &Lines) -> Option<Reason> {
    let wide = job.width == 0 || job.width > SIDE;
    let line = if wide || job.height == 0 { lines.row(0) } else { lines.row(SIDE as usize) };
    (!job.sides_fit()).then(|| (Some(line), job.sides()))
}

fn size(job: &Job, lines: &Lines) -> Option<Reason> {
    let line = lines.row((PROGRAM_CELLS / job.width.max(1) as u64) as usize);
    let words = format!("the plan has {} cells ({} by {})", job.cells(), job.width, job.height);
    (job.cells() > PROGRAM_CELLS)
        .then(|| (Some(line), format!("{words}, and the program takes at most {PROGRAM_CELLS}")))
}

// While reading, a byte above 15 anywhere; then the first cell with a cut where there is no wire.
fn marks(job: &Job, lines: &Lines) -> Option<Reason> {
    let at = |cell: usize, what: String| {
        let row = cell as u32 / job.width;
        Some((Some(lines.row(row as usize)), format!("{} {what}", job.place(cell as u32))))
    };
    if let Some(cell) = job.marks.iter().position(|&m| m > MARKS) {
        return at(cell, format!("has marks {}, outside 0 to {MARKS}", job.marks[cell]));
    }
    for (cell, &m) in job.marks.iter().enumerate() {
        if m & CUT_RIGHT != 0 && (cell as u32 + 1) % job.width == 0 {
            return at(cell, "cuts the wire to the right, and the last column has none".to_string());
        }
        if m & CUT_BELOW != 0 && cell as u32 / job.width == job.height - 1 {
            return at(cell, "cuts the wire below, and the last row has none".to_string());
        }
    }
    None
}

fn count(job: &Job, lines: &Lines) -> Option<Reason> {
    (job.buffers.len() > BUFFERS).then(|| {
        let words = format!("{} buffers are given, and at most {BUFFERS} are taken", job.buffers.len());
        (Some(lines.buffers[BUFFERS]), words)
    })
}

// What is outside its range, in the order of the calls: T, skew, L, horizontal, vertical, register, buffer count, a buffer.
// With two clocks the source's period and the sink's are in T's place, and the FIFO is after the register.
fn elements(job: &Job, lines: &Lines) -> Vec<Option<Reason>> {
    let each = |what: &str, names: &[&str], values: &[u32]| {
        names.iter().zip(values).find_map(|(name, &v)| outside(&format!("{what} {name}"), v, range(name)))
    };
    let at = |name: &str, words: Option<String>| words.map(|words| (Some(lines.of(name)), words));
    let buffer = |place: usize| {
        let words = each(&format!("buffer {}", place + 1), &BUFFER, &job.buffers[place]);
        words.map(|words| (Some(lines.buffers[place]), words))
    };
    let mut all = match &job.clocks {
        None => vec![at("period", outside("period", job.period, PERIOD))],
        Some(clocks) => vec![
            at("clocks", outside("source period", clocks.source_period, PERIOD)),
            at("clocks", outside("sink period", job.period, PERIOD)),
        ],
    };
    all.extend([
        at("skew", outside("skew", job.skew, SKEW)),
        at("limit", outside("limit", job.limit, LIMIT)),
        at("horizontal", each("horizontal", &WIRE, &job.horizontal)),
        at("vertical", each("vertical", &WIRE, &job.vertical)),
        at("register", each("register", &REGISTER, &job.register)),
    ]);
    all.extend(job.clocks.iter().map(|clocks| at("fifo", each("fifo", &REGISTER, &clocks.fifo))));
    all.extend([count(job, lines), (0..job.buffers.len()).find_map(buffer)]);
    all
}

// The number of buffers is tested while reading, so before all others.
fn element(job: &Job, lines: &Lines) -> Option<Reason> {
    count(job, lines).or_else(|| elements(job, lines).into_iter().flatten().next())
}

fn ends(job: &Job, lines: &Lines) -> Option<Reason> {
    for (name, cell) in [("source", job.source), ("sink", job.sink)] {
        if cell as u64 >= job.cells() {
            let words =
                format!("{name} {cell} is not in the plan, whose cells are 0 to {}", job.cells().saturating_sub(1));
            return Some((Some(lines.of(name)), words));
        }
    }
    let line = lines.of("source").max(lines.of("sink"));
    (job.source == job.sink).then(|| (Some(line), format!("source and sink are both {}", job.place(job.sink))))
}

// What the text shows of a refusal; where it shows nothing, document 01's words for the number.
pub fn reason(number: u32, job: &Job, lines: &Lines) -> Option<Reason> {
    let (found, general) = match number {
        1 => (grid(job, lines), "width and height must be 1 to 32"),
        3 => (marks(job, lines), "a cell has a mark that it cannot have"),
        4 => (element(job, lines), RANGE),
        5 => (ends(job, lines), "source and sink must be two cells of the plan"),
        8 => {
            let words =
                format!("the best route has more than {PROGRAM_VISITS} visits, and the program prints at most so many");
            (Some((None, words)), "")
        }
        16 => (size(job, lines), "the plan has more cells than the program takes"),
        _ => return None,
    };
    Some(found.unwrap_or((None, general.to_string())))
}

const RANGE: &str = "a number is outside its range";

// The same of a call, which reads no job: it names the element at fault itself, by its place in the order from 1.
pub fn reason_of_call(number: u32, place: usize, job: &Job, lines: &Lines) -> Option<Reason> {
    match number {
        4 => {
            let found = elements(job, lines).into_iter().nth(place.checked_sub(1)?)?;
            Some(found.unwrap_or((None, RANGE.to_string())))
        }
        1 | 3 | 5 => reason(number, job, lines),
        _ => None,
    }
}

// The same of the call between two clocks, which may need more visits than it is lent.
pub fn reason_of_crossing(number: u32, place: usize, job: &Job, lines: &Lines) -> Option<Reason> {
    match number {
        8 => reason(number, job, lines),
        _ => reason_of_call(number, place, job, lines),
    }
}

pub fn told<T>(name: &str, line: Option<usize>, words: &str, number: u32) -> Result<T, Failure> {
    let line = line.map_or(String::new(), |line| format!("{line}:"));
    failure(REFUSED, format!("{name}:{line} {words} (refusal {number})"))
}
