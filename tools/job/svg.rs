// A plan and its route as a drawing. Each visit has its own point: where a cell is passed oftener than once, its visits
// stand in a ring, so that each way through it can be followed.

use crate::answer::{Route, Visit};
use crate::job::{Job, BLOCKED, CODE_FIFO, CODE_REGISTER, CUT_BELOW, CUT_RIGHT, TAP};
use crate::words::counted;
use std::collections::BTreeMap;
use std::f64::consts::PI;

const CELL: f64 = 64.0; // side of a cell, in pixels
const LEFT: f64 = 40.0;
const TOP: f64 = 64.0;
const LEGEND: f64 = 64.0; // height below the plan
const RING: f64 = 17.0; // radius of a ring of visits
const LEAST_WIDTH: f64 = 620.0; // room for the legend

const HEAD: &str = r##"<defs>
<marker id="arrow" viewBox="0 0 10 10" refX="5" refY="5" markerWidth="5" markerHeight="5" orient="auto">
<path d="M 0 0 L 10 5 L 0 10 z" fill="#1f5fbf"/></marker>
<pattern id="blocked" width="8" height="8" patternUnits="userSpaceOnUse">
<rect width="8" height="8" fill="#ececec"/><path d="M 0 8 L 8 0" stroke="#bdbdbd"/></pattern>
</defs>
<style>
text { font-family: sans-serif; font-size: 12px; fill: #333333; }
.cell { stroke: #d0d0d0; }
.wire { stroke: #b8b8b8; stroke-width: 1.5; }
.cut { stroke: #c62828; stroke-width: 4; }
.route { stroke: #1f5fbf; stroke-width: 2.5; fill: none; }
.order { font-size: 9px; fill: #1f5fbf; }
.number { font-size: 9px; fill: #9a9a9a; }
.gate { font-weight: bold; text-anchor: middle; }
.on { fill: #ffffff; }
.fifo { fill: #ce93d8; stroke: #333333; }
</style>
"##;

type Point = (f64, f64);

fn escaped(text: &str) -> String {
    text.replace('&', "&amp;").replace('<', "&lt;").replace('>', "&gt;").replace('"', "&quot;")
}

fn corner(job: &Job, cell: u32) -> Point {
    (LEFT + CELL * (cell % job.width) as f64, TOP + CELL * (cell / job.width) as f64)
}

fn centre(job: &Job, cell: u32) -> Point {
    let (x, y) = corner(job, cell);
    (x + CELL / 2.0, y + CELL / 2.0)
}

fn line(class: &str, (x1, y1): Point, (x2, y2): Point) -> String {
    format!("<line class=\"{class}\" x1=\"{x1:.1}\" y1=\"{y1:.1}\" x2=\"{x2:.1}\" y2=\"{y2:.1}\"/>\n")
}

fn text(class: &str, (x, y): Point, words: &str) -> String {
    format!("<text class=\"{class}\" x=\"{x:.1}\" y=\"{y:.1}\">{}</text>\n", escaped(words))
}

fn tap((x, y): Point) -> String {
    format!("<path d=\"M {x:.1} {y:.1} l 11 5.5 l -11 5.5 z\" fill=\"#2e7d32\"/>\n")
}

fn square((x, y): Point, half: f64, fill: &str) -> String {
    let (x, y, side) = (x - half, y - half, 2.0 * half);
    let look = format!("fill=\"{fill}\" stroke=\"#333333\"");
    format!("<rect x=\"{x:.1}\" y=\"{y:.1}\" width=\"{side}\" height=\"{side}\" {look}/>\n")
}

fn circle((x, y): Point, radius: f64, look: &str) -> String {
    format!("<circle cx=\"{x:.1}\" cy=\"{y:.1}\" r=\"{radius}\" {look}/>\n")
}

fn diamond((x, y): Point, half: f64) -> String {
    let path = format!("M {x:.1} {:.1} l {half} {half} l -{half} {half} l -{half} -{half} z", y - half);
    format!("<path class=\"fifo\" d=\"{path}\"/>\n")
}

// A gate as it is drawn, S, K, R, F (the FIFO) or a buffer's code; a dot where the visit has none.
fn gate(letter: &str, at: Point) -> String {
    let label = (at.0, at.1 + 4.0);
    match letter {
        "S" | "K" => square(at, 9.0, "#333333") + &text("gate on", label, letter),
        "R" => square(at, 9.0, "#ffe082") + &text("gate", label, letter),
        "F" => diamond(at, 12.0) + &text("gate", label, letter),
        "" => circle(at, 3.0, "fill=\"#1f5fbf\""),
        _ => circle(at, 9.0, "fill=\"#c8e6c9\" stroke=\"#333333\"") + &text("gate", label, letter),
    }
}

fn plan(job: &Job) -> String {
    let mut out = String::new();
    let cells = 0..job.marks.len() as u32;
    for cell in cells.clone() {
        let (x, y) = corner(job, cell);
        let fill = if job.has_mark(cell, BLOCKED) { "url(#blocked)" } else { "#ffffff" };
        out +=
            &format!("<rect class=\"cell\" x=\"{x}\" y=\"{y}\" width=\"{CELL}\" height=\"{CELL}\" fill=\"{fill}\"/>\n");
        out += &text("number", (x + CELL - 20.0, y + CELL - 4.0), &cell.to_string());
        if job.has_mark(cell, TAP) {
            out += &tap((x + 4.0, y + CELL - 15.0));
        }
    }
    for cell in cells {
        let (x, y) = corner(job, cell);
        let at = centre(job, cell);
        let far = (x + CELL, y + CELL);
        if (cell + 1) % job.width != 0 {
            out += &match job.has_mark(cell, CUT_RIGHT) {
                true => line("cut", (far.0, y + 10.0), (far.0, far.1 - 10.0)),
                false => line("wire", at, (at.0 + CELL, at.1)),
            };
        }
        if cell / job.width + 1 < job.height {
            out += &match job.has_mark(cell, CUT_BELOW) {
                true => line("cut", (x + 10.0, far.1), (far.0 - 10.0, far.1)),
                false => line("wire", at, (at.0, at.1 + CELL)),
            };
        }
    }
    for column in 0..job.width {
        out += &text("", (LEFT + CELL * (column as f64 + 0.45), TOP - 6.0), &column.to_string());
    }
    for row in 0..job.height {
        out += &text("", (LEFT - 22.0, TOP + CELL * (row as f64 + 0.55)), &row.to_string());
    }
    out
}

// The point of each visit, in the route's order.
fn points(job: &Job, visits: &[Visit]) -> Vec<Point> {
    let mut count: BTreeMap<u32, usize> = BTreeMap::new();
    visits.iter().for_each(|v| *count.entry(v.cell).or_default() += 1);
    let mut seen: BTreeMap<u32, usize> = BTreeMap::new();
    let point = |v: &Visit| {
        let (x, y) = centre(job, v.cell);
        let (all, place) = (count[&v.cell], seen.entry(v.cell).or_default());
        let turn = PI * (2.0 * *place as f64 / all as f64 - 0.25);
        *place += 1;
        match all {
            1 => (x, y),
            _ => (x + RING * turn.cos(), y + RING * turn.sin()),
        }
    };
    visits.iter().map(point).collect()
}

// The route from the source to the sink, an arrow in the middle of each step; then its gates, numbered from the sink.
fn drawn_route(job: &Job, route: &Route) -> String {
    let at = points(job, &route.visits);
    let mut out = String::new();
    for pair in at.windows(2) {
        let ((x2, y2), (x1, y1)) = (pair[0], pair[1]);
        let (x, y) = ((x1 + x2) / 2.0, (y1 + y2) / 2.0);
        let path = format!("M {x1:.1} {y1:.1} L {x:.1} {y:.1} L {x2:.1} {y2:.1}");
        out += &format!("<path class=\"route\" marker-mid=\"url(#arrow)\" d=\"{path}\"/>\n");
    }
    for (i, (visit, &point)) in route.visits.iter().zip(&at).enumerate() {
        let letter = match visit.code {
            _ if i == 0 => "K".to_string(),
            _ if i + 1 == at.len() => "S".to_string(),
            0 => String::new(),
            CODE_REGISTER => "R".to_string(),
            CODE_FIFO => "F".to_string(),
            code => code.to_string(),
        };
        out += &gate(&letter, point);
        let away = if letter.is_empty() { 5.0 } else { 10.0 };
        out += &text("order", (point.0 + away, point.1 - away), &i.to_string());
    }
    out
}

fn legend(job: &Job, y: f64) -> String {
    let mut out = String::new();
    let mut x = LEFT;
    let mut item = |sign: &dyn Fn(f64) -> String, words: &str, room: f64| {
        out += &sign(x);
        out += &text("", (x + 16.0, y + 4.0), words);
        x += room;
    };
    item(&|x| gate("S", (x, y)), "source", 76.0);
    item(&|x| gate("K", (x, y)), "sink", 62.0);
    item(&|x| gate("R", (x, y)), "register", 82.0);
    if job.clocks.is_some() {
        item(&|x| gate("F", (x, y)), "FIFO", 62.0);
    }
    item(&|x| gate("1", (x, y)), "buffer, its code", 122.0);
    item(&|x| tap((x, y - 5.5)), "tap", 54.0);
    let swatch =
        |x: f64| format!("<rect x=\"{x}\" y=\"{}\" width=\"12\" height=\"12\" fill=\"url(#blocked)\"/>\n", y - 6.0);
    item(&swatch, "blocked", 84.0);
    item(&|x| line("cut", (x + 5.0, y - 7.0), (x + 5.0, y + 7.0)), "cut wire", 0.0);
    let words = "Blue numbers: the visits in the printed order, from the sink (0). Grey numbers: the cells.";
    out + &text("", (LEFT - 8.0, y + 26.0), words)
}

pub fn draw(name: &str, job: &Job, route: Option<&Route>) -> String {
    let width = (LEFT * 2.0 + CELL * job.width as f64).max(LEAST_WIDTH);
    let below = TOP + CELL * job.height as f64;
    let height = below + LEGEND;
    let title = match route {
        Some(r) => {
            let spare = counted(r.slack as usize, "half-tick");
            let registers = match r.registers[..] {
                [source, sink] => format!("{source} on the source's side, {sink} on the sink's"),
                _ => r.registers[0].to_string(),
            };
            format!("{name}: registers {registers}, steps {}, latency {} ticks, spare {spare}", r.steps, r.latency)
        }
        None => format!("{name}: no legal route"),
    };
    let size = format!("width=\"{width}\" height=\"{height}\" viewBox=\"0 0 {width} {height}\"");
    let mut out = format!("<svg xmlns=\"http://www.w3.org/2000/svg\" {size}>\n");
    out += &format!("<title>{}</title>\n", escaped(&title));
    out += HEAD;
    out += &format!("<rect width=\"{width}\" height=\"{height}\" fill=\"#ffffff\"/>\n");
    out += &text("", (LEFT, 26.0), &title);
    out += &plan(job);
    match route {
        Some(route) => out += &drawn_route(job, route),
        None => {
            out += &gate("S", centre(job, job.source));
            out += &gate("K", centre(job, job.sink));
        }
    }
    out += &legend(job, below + 24.0);
    out + "</svg>\n"
}
