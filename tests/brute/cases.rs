// Jobs with their whole texts, beside document 01's worked routes: each fault of the reading at each number, each
// element at the top of its range and one above it, the order of the refusals, full-size jobs.

use crate::job::{encode, numbers, write};
use crate::rules::{Buffer, Problem, Register, Wire, CUT_BELOW};

pub struct Case {
    pub name: String,
    pub bytes: Vec<u8>,
    pub text: String,
    pub before: String, // the text of before C-17
}

pub fn case(name: &str, bytes: Vec<u8>, text: &str) -> Case {
    Case { name: name.to_string(), bytes, text: text.to_string(), before: text.to_string() }
}

fn refused(name: &str, bytes: Vec<u8>, number: u32) -> Case {
    case(name, bytes, &format!("refused {number}\n"))
}

// Two cells side by side, numbers of one, two and three bytes, six buffers; no route, for setup and skew take all of T.
fn pair() -> Problem {
    Problem {
        width: 2,
        height: 1,
        marks: vec![3, 2],
        register: Register { r: 255, k: 1_000, c: 63, setup: 30_000 },
        horizontal: Wire { r: 255, c: 63 },
        vertical: Wire { r: 255, c: 63 },
        period: 30_000,
        skew: 30_000,
        limit: 63,
        source: 0,
        sink: 1,
        buffers: vec![Buffer { r: 255, k: 1_000, c: 63 }; 6],
        ..Problem::default()
    }
}

const MARKS: usize = 2; // the place of the first mark among the numbers of a job
const TABLES: usize = 4; // of the pair's register R
const SOURCE: usize = TABLES + 11;
const SINK: usize = TABLES + 12;
const COUNT: usize = TABLES + 13;

// The pair's numbers with one replaced.
fn with(place: usize, value: u32) -> Vec<u32> {
    let mut list = numbers(&pair());
    list[place] = value;
    list
}

// The pair's bytes with the bytes of one number replaced.
fn spelled(place: usize, bytes: &[u8]) -> Vec<u8> {
    let list = numbers(&pair());
    [&write(&list[..place]), bytes, &write(&list[place + 1..])].concat()
}

// Every beginning of a good job, and every number misspelt.
fn reading(out: &mut Vec<Case>) {
    let list = numbers(&pair());
    let good = write(&list);
    out.push(case("the pair", good.clone(), "none\n"));
    for n in 0..good.len() {
        out.push(refused(&format!("the first {n} bytes"), good[..n].to_vec(), 15));
    }
    for more in [vec![0], vec![1], vec![128], vec![255; 4], vec![0; 300], vec![1; 70_000]] {
        out.push(refused(&format!("{} bytes left over", more.len()), [good.clone(), more].concat(), 15));
    }
    for (place, &value) in list.iter().enumerate() {
        let mut zero = encode(value);
        *zero.last_mut().unwrap() |= 128;
        if zero.len() < 3 {
            zero.push(0);
            out.push(refused(&format!("number {place} with a last byte of zero"), spelled(place, &zero), 15));
        }
        for (name, bytes) in [
            ("two bytes for 0", vec![128, 0]),
            ("three bytes for 0", vec![128, 128, 0]),
            ("three bytes for 127", vec![255, 128, 0]),
            ("a fourth byte of 0", vec![129, 128, 128, 0]),
            ("a fourth byte", vec![129, 128, 128, 1]),
            ("65,536", vec![128, 128, 4]),
            ("2,097,151", vec![255, 255, 127]),
        ] {
            out.push(refused(&format!("number {place}: {name}"), spelled(place, &bytes), 15));
        }
    }
}

// What is refused while reading is refused whatever follows.
fn first_fault(out: &mut Vec<Case>) {
    out.push(refused("no width", vec![], 15));
    out.push(refused("no height", vec![0], 15));
    for (width, height, number) in [
        (0, 0, 1),
        (0, 1, 1),
        (1, 0, 1),
        (33, 1, 1),
        (1, 33, 1),
        (33, 33, 1),
        (0, 65_535, 1),
        (43, 3, 1), // 129 cells, but too wide
        (129, 1, 1),
        (256, 256, 1), // 65,536 cells
        (26, 5, 16),
        (5, 26, 16),
        (10, 13, 16),
        (32, 32, 16),
        (16, 8, 15), // 128 cells, and no marks
        (32, 4, 15),
    ] {
        out.push(refused(&format!("{width} by {height}, and no more"), write(&[width, height]), number));
    }
    out.push(refused("width 65,536", spelled(0, &[128, 128, 4]), 15));
    for place in [MARKS, MARKS + 1] {
        for value in [16, 128, 65_535] {
            let list = with(place, value);
            out.push(refused(&format!("mark {value}"), write(&list), 3));
            out.push(refused(&format!("mark {value}, and no more"), write(&list[..place + 1]), 3));
        }
    }
    for value in [7, 128, 65_535] {
        let list = with(COUNT, value);
        out.push(refused(&format!("{value} buffers"), write(&list), 4));
        out.push(refused(&format!("{value} buffers, and no more"), write(&list[..COUNT + 1]), 4));
    }
    let mut list = with(TABLES, 256);
    list[COUNT] = 7;
    list[SOURCE] = 9;
    out.push(refused("count, element and ends", write(&list), 4));
    list[COUNT] = 5;
    out.push(refused("a buffer too many, element and ends", write(&list), 15));
    list[COUNT] = 6;
    out.push(refused("element and ends", write(&list), 4));
    list[MARKS + 1] = 6; // cut past the last column
    out.push(refused("cut past the edge, element and ends", write(&list), 3));
    out.push(refused("cut past the edge, bytes left over", [write(&list), vec![0]].concat(), 15));
    list[MARKS + 1] = 16;
    out.push(refused("mark 16, bytes left over", [write(&list), vec![0]].concat(), 3));
}

// Each element one above its range; the pair has each at the top of its range.
fn ranges(out: &mut Vec<Case>) {
    let names = ["register R", "register K", "register C", "setup", "horizontal R", "horizontal C", "vertical R"];
    let names = [&names[..], &["vertical C", "T", "skew", "L"]].concat();
    let list = numbers(&pair());
    for (i, name) in names.iter().enumerate() {
        for value in [list[TABLES + i] + 1, 65_535] {
            out.push(refused(&format!("{name} {value}"), write(&with(TABLES + i, value)), 4));
        }
    }
    out.push(refused("T 0", write(&with(TABLES + 8, 0)), 4));
    for i in 0..18 {
        let place = COUNT + 1 + i;
        let name = format!("buffer {} {}", i / 3 + 1, ["R", "K", "C"][i % 3]);
        for value in [list[place] + 1, 65_535] {
            out.push(refused(&format!("{name} {value}"), write(&with(place, value)), 4));
        }
    }
    for value in [2, 3, 128, 65_535] {
        out.push(refused(&format!("source {value}"), write(&with(SOURCE, value)), 5));
        out.push(refused(&format!("sink {value}"), write(&with(SINK, value)), 5));
    }
    out.push(refused("equal ends", write(&with(SINK, 0)), 5));
    for (cell, marks) in [(0, 8), (1, 8), (1, 4), (1, 12)] {
        out.push(refused(&format!("cell {cell} cut past the edge"), write(&with(MARKS + cell, marks)), 3));
    }
}

// 16 rows of 8, one path through all cells, back and forth; free wires.
fn winding() -> (Problem, String) {
    let mut p = Problem { width: 8, height: 16, period: 30_000, limit: 63, source: 120, sink: 0, ..Problem::default() };
    let mut text = "route 0 127 30000 60000\n".to_string();
    for row in 0..16 {
        for i in 0..8 {
            let column = if row % 2 == 0 { i } else { 7 - i };
            let cell = row * 8 + column;
            let code = if cell == p.source || cell == p.sink { 7 } else { 0 };
            text += &format!("{cell} {code}\n");
        }
        let turn = if row % 2 == 0 { 7 } else { 0 };
        for column in 0..8 {
            let cut = row < 15 && column != turn;
            p.marks.push(if cut { CUT_BELOW } else { 0 });
        }
    }
    (p, text)
}

fn full_size(out: &mut Vec<Case>) {
    let (p, text) = winding();
    let list = numbers(&p);
    out.push(case("128 cells", write(&list), &text));
    // The longest job that reads whole: every number after the marks has three bytes, but the count.
    let mut longest = list.clone();
    for number in &mut longest[130..143] {
        *number = 65_535;
    }
    longest[143] = 6;
    longest.extend([65_535; 18]);
    let bytes = write(&longest);
    assert_eq!(bytes.len(), 224);
    out.push(refused("224 bytes", bytes.clone(), 4));
    for last in [0, 128] {
        out.push(refused("225 bytes", [bytes.clone(), vec![last]].concat(), 15));
    }
    out.push(refused("223 bytes", bytes[..223].to_vec(), 15));
}

pub fn cases() -> Vec<Case> {
    let mut out = Vec::new();
    reading(&mut out);
    first_fault(&mut out);
    ranges(&mut out);
    full_size(&mut out);
    out
}
