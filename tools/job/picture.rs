// A plan and its route as text. A cell is three characters: the gate, then the marks as the plan text writes them.

use crate::answer::{wire, Route};
use crate::cells;
use crate::job::{Job, BLOCKED, CODE_FIFO, CODE_REGISTER, CUT_BELOW, CUT_RIGHT, TAP};

const NARROW: u32 = 16; // wider plans have wires of one character
const MARGIN: usize = 9;

// Which ways the route goes over a wire, from the source to the sink.
#[derive(Clone, Copy, Default)]
struct Flow {
    forward: bool, // to the right, or down
    back: bool,
}

struct Flows {
    right: Vec<Flow>, // of the wire to the right of each cell
    below: Vec<Flow>,
}

fn flows(job: &Job, route: Option<&Route>) -> Flows {
    let none = vec![Flow::default(); job.marks.len()];
    let mut found = Flows { right: none.clone(), below: none };
    for pair in route.map_or(&[][..], |route| &route.visits).windows(2) {
        let (to, from) = (pair[0].cell, pair[1].cell);
        let Some((first, rightward)) = wire(job, from, to) else { continue };
        let side = if rightward { &mut found.right } else { &mut found.below };
        let flow = &mut side[first as usize];
        if first == from {
            flow.forward = true;
        } else {
            flow.back = true;
        }
    }
    found
}

fn gate_letter(code: u32) -> char {
    match code {
        0 => '+',
        CODE_REGISTER => 'R',
        CODE_FIFO => 'F',
        _ => char::from_digit(code, 10).unwrap_or('?'),
    }
}

// The gate of a cell: an end's letter, the only gate of its visits, or '*' for several.
fn gate(job: &Job, cell: u32, codes: &[u32]) -> char {
    if cell == job.source {
        return 'S';
    }
    if cell == job.sink {
        return 'K';
    }
    let gates: Vec<u32> = codes.iter().copied().filter(|&code| code != 0).collect();
    match (&gates[..], codes) {
        (_, []) => ' ',
        ([], _) => '+',
        ([code], _) => gate_letter(*code),
        _ => '*',
    }
}

fn across(job: &Job, cell: u32, flow: Flow) -> &'static str {
    match (job.has_mark(cell, CUT_RIGHT), flow.forward, flow.back) {
        (true, ..) => " / ",
        (_, true, true) => "<=>",
        (_, true, false) => "==>",
        (_, false, true) => "<==",
        _ => " - ",
    }
}

fn down(job: &Job, cell: u32, flow: Flow) -> &'static str {
    match (job.has_mark(cell, CUT_BELOW), flow.forward, flow.back) {
        (true, ..) => " / ",
        (_, true, true) => "v^ ",
        (_, true, false) => " v ",
        (_, false, true) => " ^ ",
        _ => " : ",
    }
}

// A wire between columns in one character: that of the arrow, or the middle one.
fn shorter(wire: &str) -> &str {
    match wire {
        "==>" => ">",
        "<==" => "<",
        "<=>" => "=",
        _ => &wire[1..2],
    }
}

fn codes_of(route: Option<&Route>, cell: u32) -> Vec<u32> {
    let visits = route.map_or(&[][..], |route| &route.visits);
    visits.iter().filter(|v| v.cell == cell).map(|v| v.code).collect()
}

fn code_words(code: u32) -> String {
    match code {
        0 => String::new(),
        CODE_REGISTER => " (register)".to_string(),
        CODE_FIFO => " (FIFO)".to_string(),
        _ => format!(" (buffer {code})"),
    }
}

// A line for each cell that the route passes more than once.
fn repeats(job: &Job, route: &Route) -> String {
    let mut out = String::new();
    for cell in 0..job.marks.len() as u32 {
        let here: Vec<(usize, u32)> =
            route.visits.iter().enumerate().filter(|(_, v)| v.cell == cell).map(|(i, v)| (i, v.code)).collect();
        if here.len() > 1 {
            let each: Vec<String> = here.iter().map(|(i, code)| format!("{i}{}", code_words(*code))).collect();
            out += &format!(
                "{} is passed {} times: visits {} from the sink\n",
                job.place(cell),
                here.len(),
                each.join(", ")
            );
        }
    }
    out
}

pub fn draw(job: &Job, route: Option<&Route>) -> String {
    let used = flows(job, route);
    let wide = job.width > NARROW;
    let fit = |wire: &'static str| if wide { shorter(wire) } else { wire };
    let gap = if wide { " " } else { "   " };
    let mut lines = vec![format!("{:MARGIN$}", "row cell")];
    for column in 0..job.width {
        lines[0] += &format!("{column:>2} {gap}");
    }
    for row in 0..job.height {
        let mut cells_line = format!("{row:>3} {:>4} ", row * job.width);
        let mut below_line = " ".repeat(MARGIN);
        for cell in row * job.width..(row + 1) * job.width {
            let marks = cells::word(job.marks[cell as usize] & (BLOCKED | TAP));
            cells_line += &format!("{}{marks:<2}", gate(job, cell, &codes_of(route, cell)));
            if (cell + 1) % job.width != 0 {
                cells_line += fit(across(job, cell, used.right[cell as usize]));
            }
            below_line += down(job, cell, used.below[cell as usize]);
            below_line += gap;
        }
        lines.push(cells_line);
        if row + 1 < job.height {
            lines.push(below_line);
        }
    }
    let mut out: String = lines.iter().map(|line| format!("{}\n", line.trim_end())).collect();
    let fifo = if job.clocks.is_some() { ", F FIFO" } else { "" };
    out += &format!("\nS source, K sink, R register{fifo}, 1 to 6 buffer, + no gate, * several gates; ");
    out += ". open, x blocked, t tap\n";
    let arrows = if wide { "> < v ^, both ways = v^" } else { "==> <== v ^, both ways <=> v^" };
    out += &format!("route from source to sink: {arrows}; wires that it does not use: - and :, cut: /\n");
    out + &route.map_or(String::new(), |route| repeats(job, route))
}
