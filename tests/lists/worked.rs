// Questions with known lines, worked out by hand from document 01's strip and its cases R1 to R13: the judge must give
// them, and so must the program.

use crate::asked::Asked;
use crate::mix::Mix;
use crate::rules::{Buffer, Problem, Register, Wire};

pub struct Case {
    pub name: &'static str,
    problem: Problem,
    pub asked: Vec<(Asked, String)>, // and the line
}

impl Case {
    pub fn script(&self) -> String {
        let laid = crate::script::as_it_is(&self.problem);
        let asked = self.asked.iter().map(|(asked, _)| asked.command(&self.problem) + "\n");
        laid + &asked.collect::<String>()
    }

    pub fn lines(&self) -> String {
        self.asked.iter().map(|(_, line)| format!("{line}\n")).collect()
    }

    // The lines by the judge.
    pub fn judged(&self) -> String {
        let mix = &mut Mix::default();
        self.asked.iter().map(|(asked, _)| asked.line(&self.problem, 0, mix) + "\n").collect()
    }
}

fn strip(period: u32) -> Problem {
    let wire = Wire { r: 2, c: 3 };
    Problem {
        width: 3,
        height: 1,
        marks: vec![0, 2, 0],
        register: Register { r: 1, k: 2, c: 1, setup: 1 },
        horizontal: wire,
        vertical: wire,
        period,
        skew: 0,
        limit: 63,
        source: 0,
        sink: 2,
        ..Problem::default()
    }
}

fn limited(limit: u32) -> Problem {
    Problem { limit, ..strip(26) }
}

fn buffered(period: u32) -> Problem {
    Problem { buffers: vec![Buffer { r: 1, k: 1, c: 1 }], ..strip(period) }
}

fn marked(marks: &[u32], p: Problem) -> Problem {
    Problem { marks: marks.to_vec(), ..p }
}

fn skewed(skew: u32, p: Problem) -> Problem {
    Problem { skew, ..p }
}

// The strip with an odd wire.
fn odd(period: u32) -> Problem {
    Problem { horizontal: Wire { r: 1, c: 3 }, ..strip(period) }
}

fn slow(period: u32) -> Problem {
    Problem { register: Register { setup: 2, ..strip(period).register }, ..strip(period) }
}

fn two_rows(period: u32) -> Problem {
    Problem { height: 2, marks: vec![0, 1, 0, 0, 2, 0], vertical: Wire { r: 0, c: 0 }, ..strip(period) }
}

fn judge(list: &[u32], line: &str) -> (Asked, String) {
    (Asked::Judge(list.to_vec()), line.to_string())
}

fn better(a: &[u32], b: &[u32], line: &str) -> (Asked, String) {
    (Asked::Better(a.to_vec(), b.to_vec()), line.to_string())
}

fn case(name: &'static str, problem: Problem, asked: Vec<(Asked, String)>) -> Case {
    Case { name, problem, asked }
}

const PLAIN: &[u32] = &[2, 7, 1, 0, 0, 7];
const REGISTERED: &[u32] = &[2, 7, 1, 7, 0, 7];
const BUFFERED: &[u32] = &[2, 7, 1, 1, 0, 7];
const OVER_SINK: &[u32] = &[2, 7, 1, 0, 2, 0, 1, 0, 0, 7];
const BACK: &[u32] = &[2, 7, 1, 7, 2, 0, 1, 7, 0, 7];
const TWICE: &[u32] = &[2, 7, 1, 0, 4, 7, 1, 0, 0, 7];

fn accepted(list: &[u32], slack: u32) -> (Asked, String) {
    judge(list, &format!("judge 0 depth 0 accepted {slack}"))
}

fn late(list: &[u32], visit: u32, miss: u32) -> (Asked, String) {
    judge(list, &format!("judge 0 depth 0 visit {visit} period -{miss}"))
}

// R1 to R13: what the router answers is accepted, and the next best list fails where the case says.
fn routes() -> Vec<Case> {
    vec![
        case("R1: closes at 52", strip(26), vec![accepted(PLAIN, 0), accepted(REGISTERED, 28)]),
        case("R2: 52 is over 50", strip(25), vec![late(PLAIN, 2, 2), accepted(REGISTERED, 26)]),
        case("R3: each span closes at 24", strip(12), vec![accepted(REGISTERED, 0)]),
        case("R4: 24 is over 22", strip(11), vec![late(REGISTERED, 1, 2)]),
        case("R5: load 7 at the source", limited(7), vec![accepted(PLAIN, 0)]),
        case(
            "R6: load 7 is over 6",
            limited(6),
            vec![judge(PLAIN, "judge 0 depth 0 visit 2 load"), accepted(REGISTERED, 28)],
        ),
        case(
            "R7: load 4 is over 3, before the gate",
            limited(3),
            vec![
                judge(PLAIN, "judge 0 depth 0 visit 1 load"),
                judge(REGISTERED, "judge 0 depth 0 visit 1 load"),
                better(PLAIN, REGISTERED, "better 18 depth 0 words"),
            ],
        ),
        case(
            "R8: the buffer's span closes at 44",
            buffered(22),
            vec![
                accepted(BUFFERED, 0),
                late(PLAIN, 2, 8),
                better(REGISTERED, BUFFERED, "better 0 depth 0 second words 2 7 1 1 0 7"),
                better(PLAIN, REGISTERED, "better 0 depth 0 second words 2 7 1 7 0 7"),
            ],
        ),
        case("R9: 44 is over 42", buffered(21), vec![late(BUFFERED, 2, 2), accepted(REGISTERED, 18)]),
        case(
            "R10: three legal lists",
            buffered(26),
            vec![
                accepted(PLAIN, 0),
                accepted(BUFFERED, 8),
                better(PLAIN, BUFFERED, "better 0 depth 0 first words 2 7 1 0 0 7"),
                better(BUFFERED, PLAIN, "better 0 depth 0 second words 2 7 1 0 0 7"),
                better(REGISTERED, BUFFERED, "better 0 depth 0 second words 2 7 1 1 0 7"),
                better(PLAIN, PLAIN, "better 0 depth 0 first words 2 7 1 0 0 7"),
            ],
        ),
        case(
            "R11: no tap",
            marked(&[0, 1, 0], strip(25)),
            vec![judge(REGISTERED, "judge 0 depth 0 visit 1 site"), late(PLAIN, 2, 2)],
        ),
        case(
            "R12: a blocked cell with a tap",
            marked(&[0, 3, 0], buffered(22)),
            vec![
                judge(REGISTERED, "judge 0 depth 0 visit 1 site"),
                judge(BUFFERED, "judge 0 depth 0 visit 1 site"),
                late(PLAIN, 2, 8),
                better(REGISTERED, BUFFERED, "better 18 depth 0 words"),
            ],
        ),
        case(
            "R13: a cell passed twice",
            two_rows(12),
            vec![
                accepted(TWICE, 0),
                late(PLAIN, 2, 28),
                judge(REGISTERED, "judge 0 depth 0 visit 1 site"),
                accepted(&[2, 7, 5, 0, 4, 7, 3, 0, 0, 7], 0),
                better(&[2, 7, 5, 0, 4, 7, 3, 0, 0, 7], TWICE, "better 0 depth 0 second words 2 7 1 0 4 7 1 0 0 7"),
                better(&[2, 7, 1, 0, 4, 7, 4, 0, 0, 7], &[2, 7, 3, 0], "better 18 depth 0 words"),
            ],
        ),
    ]
}

// A cell with marks 1 and 2 takes no gate; an end's cell and one that is passed may have them.
fn both_marks() -> Vec<Case> {
    vec![
        case(
            "on the cell between",
            marked(&[0, 3, 0], buffered(26)),
            vec![
                accepted(PLAIN, 0),
                judge(REGISTERED, "judge 0 depth 0 visit 1 site"),
                better(REGISTERED, PLAIN, "better 0 depth 0 second words 2 7 1 0 0 7"),
                better(PLAIN, REGISTERED, "better 0 depth 0 first words 2 7 1 0 0 7"),
            ],
        ),
        case("on the ends' cells", marked(&[3, 2, 3], strip(25)), vec![accepted(REGISTERED, 26)]),
        case(
            "on the upper tap",
            marked(&[0, 3, 0, 0, 2, 0], two_rows(12)),
            vec![accepted(TWICE, 0), judge(REGISTERED, "judge 0 depth 0 visit 1 site")],
        ),
        case(
            "on the lower tap",
            marked(&[0, 2, 0, 0, 3, 0], two_rows(12)),
            vec![accepted(REGISTERED, 0), judge(TWICE, "judge 0 depth 0 visit 2 site")],
        ),
    ]
}

// Every fault at its places; the order of the tests where several fail.
fn faults() -> Vec<Case> {
    vec![
        case(
            "the first visit",
            strip(26),
            vec![
                judge(&[1, 7, 2, 0, 0, 7], "judge 0 depth 0 visit 0 cell"),
                judge(&[3, 0, 2, 0, 0, 7], "judge 0 depth 0 visit 0 cell"),
                judge(&[65_535, 7, 2, 0, 0, 7], "judge 0 depth 0 visit 0 cell"),
                judge(&[2, 0, 1, 0, 0, 7], "judge 0 depth 0 visit 0 site"),
                judge(&[2, 8, 9, 0, 0, 7], "judge 0 depth 0 visit 0 site"),
            ],
        ),
        case(
            "C(reg) 1 is over 0",
            limited(0),
            vec![judge(PLAIN, "judge 0 depth 0 visit 0 load"), judge(&[2, 1, 1, 0], "judge 0 depth 0 visit 0 site")],
        ),
        case(
            "the last visit",
            strip(26),
            vec![
                judge(&[2, 7, 1, 7], "judge 0 depth 0 visit 1 cell"),
                judge(&[2, 7, 2, 7], "judge 0 depth 0 visit 1 cell"),
                judge(&[2, 7, 1, 0, 3, 7], "judge 0 depth 0 visit 2 cell"),
                judge(&[2, 7, 0, 7], "judge 0 depth 0 visit 1 wire"),
                judge(&[2, 7, 1, 0, 0, 0, 0, 7], "judge 0 depth 0 visit 3 wire"),
                judge(&[2, 7, 1, 0, 0, 0], "judge 0 depth 0 visit 2 site"),
                judge(&[2, 7, 1, 0, 0, 8], "judge 0 depth 0 visit 2 site"),
            ],
        ),
        case(
            "in between",
            marked(&[2, 2, 2], buffered(26)),
            vec![
                judge(&[2, 7, 3, 0, 0, 7], "judge 0 depth 0 visit 1 cell"),
                judge(&[2, 7, 2, 0, 1, 0, 0, 7], "judge 0 depth 0 visit 1 wire"),
                judge(&[2, 7, 0, 9, 1, 0, 0, 7], "judge 0 depth 0 visit 1 wire"),
                judge(&[2, 7, 1, 2, 0, 7], "judge 0 depth 0 visit 1 site"),
                judge(&[2, 7, 1, 8, 0, 7], "judge 0 depth 0 visit 1 site"),
                judge(&[2, 7, 1, 65_535, 0, 7], "judge 0 depth 0 visit 1 site"),
                judge(&[2, 7, 1, 7, 2, 7, 1, 7, 0, 7], "judge 0 depth 0 visit 2 site"),
                judge(&[2, 7, 1, 7, 0, 1, 1, 7, 0, 7], "judge 0 depth 0 visit 2 site"),
                accepted(BACK, 0), // its second span is R1's
            ],
        ),
        // 2 + 10 + 22 + 34 + 46 = 114 with load 13 at the source, which adds 2 (13 + 2)
        case(
            "closes at 144, over the sink",
            strip(72),
            vec![
                accepted(OVER_SINK, 0),
                better(REGISTERED, OVER_SINK, "better 0 depth 0 second words 2 7 1 0 2 0 1 0 0 7"),
                better(OVER_SINK, PLAIN, "better 0 depth 0 second words 2 7 1 0 0 7"),
            ],
        ),
        case("144 is over 142", strip(71), vec![late(OVER_SINK, 4, 2)]),
        case(
            "fewer steps, later in written order",
            Problem { source: 2, sink: 0, ..strip(72) },
            vec![better(
                &[0, 7, 1, 0, 0, 0, 1, 0, 2, 7],
                &[0, 7, 1, 0, 2, 7],
                "better 0 depth 0 second words 0 7 1 0 2 7",
            )],
        ),
        case(
            "load before period",
            Problem { limit: 6, ..strip(25) },
            vec![judge(PLAIN, "judge 0 depth 0 visit 2 load")],
        ),
        // setup 2: the first span closes at 26, the second at 4 + 10 + 22 + 18
        case("a span closes at 54", slow(27), vec![accepted(BACK, 0)]),
        case("54 is over 52", slow(26), vec![late(BACK, 3, 2)]),
        case(
            "cut wires, and the next row's first cell",
            marked(&[8, 5, 0, 0, 2, 0], Problem { height: 2, ..strip(100) }),
            vec![
                judge(PLAIN, "judge 0 depth 0 visit 1 wire"),
                judge(&[2, 7, 3, 0, 0, 7], "judge 0 depth 0 visit 1 wire"),
                judge(&[2, 7, 5, 0, 4, 7, 3, 0, 0, 7], "judge 0 depth 0 visit 4 wire"),
                accepted(&[2, 7, 5, 0, 4, 7, 1, 0, 0, 7], 148), // each span is R1's
            ],
        ),
        case(
            "a buffer of load 9 is over 8",
            Problem { buffers: vec![Buffer { r: 0, k: 0, c: 9 }], limit: 8, ..strip(26) },
            vec![judge(BUFFERED, "judge 0 depth 0 visit 1 load"), accepted(PLAIN, 0)],
        ),
    ]
}

// The smallest figure of several spans; figures above and below zero by one half-tick.
fn figures() -> Vec<Case> {
    let first: &[u32] = &[2, 7, 1, 0, 2, 0, 1, 7, 0, 7];
    let last: &[u32] = &[2, 7, 1, 7, 2, 0, 1, 0, 0, 7];
    vec![
        // three steps: 2 + 10 + 22 + 34 = 68 with load 10 at the register, which adds 2 (10 + 2)
        case("spans close at 92 and 24", strip(50), vec![accepted(first, 8), accepted(last, 8)]),
        case("92 is over 90", strip(45), vec![late(first, 3, 2), late(last, 4, 2)]),
        case("spans close at 24, 52 and 24", strip(30), vec![accepted(BACK, 8)]),
        case("24 is just met, 52 is over 24", strip(12), vec![late(BACK, 3, 28)]),
        // an odd wire: 2 + 5 = 7 with load 4 at the register, which adds 12
        case("each span closes at 19", odd(10), vec![accepted(REGISTERED, 1)]),
        case("19 is over 18", odd(9), vec![late(REGISTERED, 1, 1)]),
        case("19 is over 16", odd(8), vec![late(REGISTERED, 1, 3)]),
        // and 2 + 5 + 11 = 18 with load 7 at the source, which adds 18
        case("36 is over 34", odd(17), vec![late(PLAIN, 2, 2)]),
    ]
}

// Twice the skew is taken off each span's figure.
fn skews() -> Vec<Case> {
    vec![
        case("R1, skew 1: 52 and 2", skewed(1, strip(26)), vec![late(PLAIN, 2, 2), accepted(REGISTERED, 26)]),
        case("a tick more", skewed(1, strip(27)), vec![accepted(PLAIN, 0), accepted(REGISTERED, 28)]),
        case("R3, skew 1: 24 and 2", skewed(1, strip(12)), vec![late(REGISTERED, 1, 2), late(PLAIN, 2, 30)]),
        case("skew 14 and no more", skewed(14, strip(26)), vec![accepted(REGISTERED, 0)]),
        case("skew 15", skewed(15, strip(26)), vec![late(REGISTERED, 1, 2)]),
        case("skew T: all of 24", skewed(26, strip(26)), vec![late(REGISTERED, 1, 24)]),
        case("skew above T", skewed(27, strip(26)), vec![late(REGISTERED, 1, 26)]),
        case("T 1, skew 30,000", skewed(30_000, strip(1)), vec![late(REGISTERED, 1, 60_022), late(PLAIN, 2, 60_050)]),
        case("T 30,000, skew 29,988", skewed(29_988, strip(30_000)), vec![accepted(REGISTERED, 0), late(PLAIN, 2, 28)]),
        case("T and skew 30,000", skewed(30_000, strip(30_000)), vec![late(REGISTERED, 1, 24)]),
        case("19 and 2 of 22", skewed(1, odd(11)), vec![accepted(REGISTERED, 1)]),
        case("19 and 2 of 20", skewed(1, odd(10)), vec![late(REGISTERED, 1, 1)]),
        case("spans of 24, 52 and 24, skew 1", skewed(1, strip(30)), vec![accepted(BACK, 6)]),
        case("the second span is late by the skew", skewed(1, strip(26)), vec![late(BACK, 3, 2)]),
        case(
            "only one is legal with skew 1",
            skewed(1, strip(26)),
            vec![
                better(PLAIN, REGISTERED, "better 0 depth 0 second words 2 7 1 7 0 7"),
                better(REGISTERED, PLAIN, "better 0 depth 0 first words 2 7 1 7 0 7"),
            ],
        ),
        case("none with skew 15", skewed(15, strip(26)), vec![better(PLAIN, REGISTERED, "better 18 depth 0 words")]),
    ]
}

// Tables for one span that closes after n buffers at 66,260 n + 2 setup + 2 R C + 2 K half-ticks, C being 63, and what
// the first step adds to it: 125 by a wire with R 1, 250 with R 2.
fn heavy(first: u32, (r, k, setup): (u32, u32, u32), period: u32) -> Problem {
    Problem {
        width: 3,
        height: 2,
        marks: vec![0; 6],
        register: Register { r, k, c: 62, setup },
        horizontal: Wire { r: 255, c: 0 },
        vertical: Wire { r: first, c: 1 },
        period,
        skew: 0,
        limit: 63,
        source: 2,
        sink: 3,
        buffers: vec![Buffer { r: 255, k: 1_000, c: 63 }],
        ..Problem::default()
    }
}

// Up from the sink, then buffers on cells 0 and 1 by turns, then the source; an even number of buffers.
fn driven(buffers: u32) -> Vec<u32> {
    let between = (0..buffers).flat_map(|at| [at % 2, 1]);
    [3, 7].into_iter().chain(between).chain([2, 7]).collect()
}

// About the largest miss that is told. 15,092 buffers take 999,995,920 half-ticks.
fn floor() -> Vec<Case> {
    let about = |name: &'static str, p: Problem, buffers: u32, told: u32| {
        case(name, p, vec![late(&driven(buffers), buffers + 1, told)])
    };
    let largest = (15, 970, 30_000); // adds 63,830
    vec![
        about("missed by 999,999,998", heavy(2, (0, 0, 1_915), 1), 15_092, 999_999_998),
        about("missed by 999,999,999", heavy(1, (0, 0, 1_978), 1), 15_092, 999_999_999),
        about("missed by 1,000,000,000", heavy(2, (0, 0, 1_916), 1), 15_092, 1_000_000_000),
        about("missed by 1,000,000,001", heavy(1, (0, 0, 1_979), 1), 15_092, 1_000_000_000),
        about("missed by 1,000,000,002", heavy(2, (0, 0, 1_917), 1), 15_092, 1_000_000_000),
        about("the longest period, missed by 999,999,875", heavy(1, largest, 30_000), 15_092, 999_999_875),
        about("the longest period, missed by 1,000,000,000", heavy(2, largest, 30_000), 15_092, 1_000_000_000),
        about("one tick less", heavy(2, largest, 29_999), 15_092, 1_000_000_000),
        about("missed by 999,999,998, by the skew", skewed(1_915, heavy(2, (0, 0, 0), 1)), 15_092, 999_999_998),
        about("missed by 1,000,000,000, by the skew", skewed(1_916, heavy(2, (0, 0, 0), 1)), 15_092, 1_000_000_000),
        about("missed by 1,000,000,002, by the skew", skewed(1_917, heavy(2, (0, 0, 0), 1)), 15_092, 1_000_000_000),
        about("past 2^29", heavy(2, (0, 0, 0), 30_000), 8_104, 8_104 * 66_260 + 250 - 60_000),
        about("past 2^30", heavy(2, (0, 0, 0), 30_000), 16_206, 1_000_000_000),
    ]
}

// So many visits to cells 1 and 0 by turns, an even number of them.
fn to_and_fro(visits: u32) -> Vec<u32> {
    let mut list: Vec<u32> = (0..visits).flat_map(|at| [(at + 1) % 2, 0]).collect();
    (list[1], list[2 * visits as usize - 1]) = (7, 7);
    list
}

// Lists about as long as a script can have them, over a wire that costs nothing: they close at 2 + 2 (1 + 2) = 8.
fn long() -> Vec<Case> {
    let free = Wire { r: 0, c: 0 };
    let problem = || Problem { width: 2, marks: vec![0, 0], sink: 1, horizontal: free, ..strip(26) };
    let (more, fewer) = (to_and_fro(8_002), to_and_fro(8_000));
    let words: String = fewer.iter().map(|word| format!(" {word}")).collect();
    vec![
        case("16,200 visits", problem(), vec![accepted(&to_and_fro(16_200), 44)]),
        case(
            "8,002 and 8,000",
            problem(),
            vec![better(&more, &fewer, &format!("better 0 depth 0 second words{words}"))],
        ),
        case(
            "8,000 and 8,002",
            problem(),
            vec![better(&fewer, &more, &format!("better 0 depth 0 first words{words}"))],
        ),
    ]
}

// Each step adds 255 · 2 · 63 half-ticks, in all a little more than a power of two: no width of a number forgets them.
fn past_powers() -> Case {
    let problem = Problem {
        width: 2,
        marks: vec![0, 0],
        sink: 1,
        horizontal: Wire { r: 255, c: 0 },
        register: Register { c: 63, ..Register::default() },
        ..strip(30_000)
    };
    let asked = [16, 17, 18, 19, 20, 22, 24, 25, 26].map(|power| {
        let steps = (1u32 << power).div_ceil(255 * 2 * 63); // an odd number: the last one leads to cell 0
        late(&to_and_fro(steps + 1), steps, steps * 255 * 2 * 63 - 60_000)
    });
    case("delays past a power of two", problem, asked.into())
}

// The refusals, the first of several.
fn refusals() -> Vec<Case> {
    let ends = Problem { sink: 0, ..strip(26) };
    let table = Problem { limit: 64, ..ends.clone() };
    let skew = Problem { skew: 30_001, ..table.clone() };
    let buffer = Problem { buffers: vec![Buffer::default(), Buffer { r: 0, k: 1_001, c: 0 }], ..strip(26) };
    let stray = marked(&[0, 2, 4], table.clone());
    let short = Problem { height: 2, ..stray.clone() };
    let grid = Problem { height: 33, ..short.clone() };
    let list: &[u32] = &[2, 7, 1];
    vec![
        case(
            "17",
            strip(26),
            vec![
                judge(&[], "judge 17 depth 0"),
                judge(&[2], "judge 17 depth 0"),
                judge(&[2, 7], "judge 17 depth 0"),
                judge(&[9, 9, 9], "judge 17 depth 0"),
                judge(&[2, 7, 1, 0, 0], "judge 17 depth 0"),
                better(PLAIN, list, "better 17 depth 0 words"),
                better(&[], PLAIN, "better 17 depth 0 words"),
                better(&[2, 7], &[2, 7, 1, 0, 0, 7, 0], "better 17 depth 0 words"),
                better(list, &[2, 7, 1, 7], "better 17 depth 0 words"),
            ],
        ),
        case("5 before 17", ends, vec![judge(list, "judge 5 depth 0"), better(list, PLAIN, "better 5 depth 0 words")]),
        case(
            "4 before 5",
            table,
            vec![judge(list, "judge 4 depth 0 fault 3"), better(PLAIN, list, "better 4 depth 0 fault 3 words")],
        ),
        case(
            "4 of the skew, before L",
            skew.clone(),
            vec![judge(list, "judge 4 depth 0 fault 2"), better(PLAIN, list, "better 4 depth 0 fault 2 words")],
        ),
        case(
            "4 of the period, before the skew",
            Problem { period: 0, ..skew },
            vec![judge(PLAIN, "judge 4 depth 0 fault 1"), better(PLAIN, PLAIN, "better 4 depth 0 fault 1 words")],
        ),
        case(
            "4 of the second buffer",
            buffer,
            vec![judge(PLAIN, "judge 4 depth 0 fault 8 2"), better(PLAIN, PLAIN, "better 4 depth 0 fault 8 2 words")],
        ),
        case("3 before 4", stray, vec![judge(list, "judge 3 depth 0"), better(list, list, "better 3 depth 0 words")]),
        case("2 before 3", short, vec![judge(list, "judge 2 depth 0"), better(list, list, "better 2 depth 0 words")]),
        case("1 before 2", grid, vec![judge(list, "judge 1 depth 0"), better(list, list, "better 1 depth 0 words")]),
    ]
}

pub fn cases() -> Vec<Case> {
    let lists = [routes(), both_marks(), faults(), figures(), skews(), floor(), long(), vec![past_powers()], refusals()];
    lists.into_iter().flatten().collect()
}

const NO_NUMBER: &str = "a number is missing";
const TOO_LARGE: &str = "a number is too large";

// Commands that are wrong at their last word, and what is said of them.
pub const BAD: [(&str, &str); 8] = [
    ("judge 3 1 0 show", NO_NUMBER),
    ("judge 65536", TOO_LARGE),
    ("judge 3 1 0 2 32769", TOO_LARGE),
    ("judge 3 1 0 2 6 2 7 1 7 0 show", NO_NUMBER),
    ("judge 3 1 0 2 6 2 65536", TOO_LARGE),
    ("better 3 1 0 2 32769", TOO_LARGE),
    ("better 3 1 0 2 4 2 7 0 7 32769", TOO_LARGE),
    ("better 3 1 0 2 4 2 7 0 7 4 2 7 0 show", NO_NUMBER),
];
