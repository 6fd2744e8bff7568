// Scripts with known lines, worked out by hand from documents 01 and 02: the model must give them, and so must the program.

pub struct Case {
    pub name: &'static str,
    pub script: String,
    pub lines: String,
}

fn case(name: &'static str, script: &str, lines: &str) -> Case {
    Case { name, script: script.to_string(), lines: lines.to_string() }
}

// A name and numbers.
fn list(name: &str, numbers: &[u8]) -> String {
    numbers.iter().fold(name.to_string(), |text, number| text + &format!(" {number}")) + "\n"
}

// The entries of a journal, then zeros.
fn journal(entries: &[[u8; 4]]) -> String {
    let mut bytes = entries.concat();
    bytes.resize(1_024, 0);
    list("journal", &bytes)
}

// Words that no call has touched.
const UNTOUCHED: &str = "scratch 65535 * 524288\nvisits 65535 * 2048\n";

const STRIP: &str = "plan 3 0 2 0 tables 1 2 1 1 2 3 2 3 25 0 63 open 3 1 ";

// R1 to R13, as far as moves lead from one to the other.
fn routes() -> Case {
    let script = STRIP.to_string()
        + "route 3 1 0 2 6 route 3 1 0 2 5 move 1 1 route 3 1 0 2 6 undo route 3 1 0 2 6 "
        + "tables 1 2 1 1 2 3 2 3 26 0 63 route 3 1 0 2 6 tables 1 2 1 1 2 3 2 3 11 0 63 route 3 1 0 2 6 "
        + "buffers 1 1 1 1 tables 1 2 1 1 2 3 2 3 22 0 63 route 3 1 0 2 6 move 1 3 route 3 1 0 2 6 "
        + "buffers 0 plan 6 0 1 0 0 2 0 tables 1 2 1 1 2 3 0 0 12 0 63 open 3 2 "
        + "route 3 2 0 2 10 move 4 0 route 3 2 0 2 10";
    let lines = "open 0 depth 0\n\
        route 0 depth 0 figures 1 2 50 26 visits 2 7 1 7 0 7 zeroed 768\n\
        route 8 depth 0 figures 1 2 50 26 visits zeroed 768\n\
        move 0 depth 1\n\
        route 7 depth 1 figures 0 0 0 0 visits zeroed 768\n\
        undo 0 depth 0\n\
        route 0 depth 0 figures 1 2 50 26 visits 2 7 1 7 0 7 zeroed 768\n\
        route 0 depth 0 figures 0 2 26 0 visits 2 7 1 0 0 7 zeroed 768\n\
        route 7 depth 0 figures 0 0 0 0 visits zeroed 768\n\
        route 0 depth 0 figures 0 2 22 0 visits 2 7 1 1 0 7 zeroed 768\n\
        move 0 depth 1\n\
        route 7 depth 1 figures 0 0 0 0 visits zeroed 768\n\
        open 0 depth 0\n\
        route 0 depth 0 figures 1 4 24 0 visits 2 7 1 0 4 7 1 0 0 7 zeroed 1536\n\
        move 0 depth 1\n\
        route 7 depth 1 figures 0 0 0 0 visits zeroed 1536\n";
    case("document 01's routes, by moves", &script, lines)
}

// R13's plan with two taps. Both marks on the upper one, then on both, then on the ends' cells: each move is undone.
fn both_marks() -> Case {
    let asked = "route 3 2 0 2 10 crossing 3 2 0 2 10 ";
    let script = "plan 6 0 2 0 0 2 0 tables 1 2 1 1 2 3 0 0 12 0 63 clocks 12 1 2 1 1 open 3 2 ".to_string()
        + &["", "move 1 3 ", "move 4 3 reason 3 2 0 2 ", "undo ", "undo ", "move 0 15 undo move 0 3 move 2 3 "]
            .map(|moves| format!("{moves}{asked}"))
            .concat()
        + "show undo undo show";
    let answered = |depth: u32, steps: u32, route: &str, crossing: &str| {
        let route = format!("route 0 depth {depth} figures 1 {steps} 24 0 visits {route} zeroed 1536\n");
        format!("{route}crossing 0 depth {depth} figures 0 0 {steps} 24 0 visits {crossing} zeroed 3072\n")
    };
    let upper = |depth: u32| answered(depth, 2, "2 7 1 7 0 7", "2 7 1 8 0 7");
    let lower = |depth: u32| answered(depth, 4, "2 7 1 0 4 7 1 0 0 7", "2 7 1 0 4 8 1 0 0 7");
    let shown = |plan: &str, entries: &[[u8; 4]]| {
        format!("plan {plan}\n{}scratch 0 * 3072 65535 * 521216\nvisits 2 7 1 8 0 7 65535 * 2042\n", journal(entries))
    };
    let lines = [
        "open 0 depth 0\n".to_string(),
        upper(0),
        "move 0 depth 1\n".to_string(),
        lower(1),
        "move 0 depth 2\nreason 0 depth 2 period 26 zeroed 1536\n".to_string(),
        "route 7 depth 2 figures 0 0 0 0 visits zeroed 1536\n".to_string(),
        "crossing 7 depth 2 figures 0 0 0 0 0 visits zeroed 3072\nundo 0 depth 1\n".to_string(),
        lower(1),
        "undo 0 depth 0\n".to_string(),
        upper(0),
        "move 0 depth 1\nundo 0 depth 0\nmove 0 depth 1\nmove 0 depth 2\n".to_string(),
        upper(2),
        shown("3 2 3 0 2 0", &[[0, 0, 0, 3], [2, 0, 0, 3]]),
        "undo 0 depth 1\nundo 0 depth 0\n".to_string(),
        shown("0 2 0 0 2 0", &[]),
    ];
    case("both marks, by moves", &script, &lines.concat())
}

// R4 and R7, and what moves make of them.
fn reasons() -> Case {
    let script = STRIP.to_string()
        + "reason 3 1 0 2 move 1 1 reason 3 1 0 2 move 1 5 reason 3 1 0 2 undo reason 3 1 0 2 undo reason 3 1 0 2 "
        + "tables 1 2 1 1 2 3 2 3 11 0 63 reason 3 1 0 2 tables 1 2 1 1 2 3 2 3 26 0 3 reason 3 1 0 2 "
        + "move 0 4 reason 3 1 0 2 undo tables 1 2 1 29989 2 3 2 3 11 0 63 reason 3 1 0 2 tables 1 2 1 29990 2 3 2 3 11 0 63 reason 3 1 0 2 undo";
    let lines = "open 0 depth 0\n\
        reason 19 depth 0 zeroed 768\n\
        move 0 depth 1\n\
        reason 0 depth 1 period 26 zeroed 768\n\
        move 0 depth 2\n\
        reason 0 depth 2 walled zeroed 768\n\
        undo 0 depth 1\n\
        reason 0 depth 1 period 26 zeroed 768\n\
        undo 0 depth 0\n\
        reason 19 depth 0 zeroed 768\n\
        reason 0 depth 0 period 12 zeroed 768\n\
        reason 0 depth 0 load zeroed 768\n\
        move 0 depth 1\n\
        reason 0 depth 1 walled zeroed 768\n\
        undo 0 depth 0\n\
        reason 0 depth 0 period 30000 zeroed 768\n\
        reason 0 depth 0 short zeroed 768\n\
        undo 12 depth 0\n";
    case("reasons, by moves", &script, lines)
}

// The strip's tables with this T, skew and L; all three questions of it.
fn asked(period: u32, skew: u32, limit: u32) -> String {
    format!("tables 1 2 1 1 2 3 2 3 {period} {skew} {limit} route 3 1 0 2 6 reason 3 1 0 2 crossing 3 1 0 2 6 ")
}

// Spans of 24 half-ticks, or of 52 without a tap, and twice the skew. The source's period is 13.
fn skews() -> Case {
    let tables = [
        (26, 1, 63),
        (13, 1, 63),
        (12, 1, 63),
        (12, 13, 63),
        (12, 29_988, 63),
        (12, 29_989, 63),
        (12, 30_000, 3),
        (26, 30_001, 64),
        (0, 65_535, 63),
    ];
    let script = STRIP.to_string()
        + "clocks 13 1 2 1 1 "
        + &tables.map(|(period, skew, limit)| asked(period, skew, limit)).concat()
        + "move 1 1 "
        + &asked(26, 1, 63)
        + "move 1 5 "
        + &asked(26, 30_000, 63);
    let none = "figures 0 0 0 0 visits zeroed 768\n";
    let none_crossed = "figures 0 0 0 0 0 visits zeroed 1536\n";
    let without = |depth: u32, told: &str| {
        let head = format!("route 7 depth {depth} {none}reason 0 depth {depth} {told} zeroed 768\n");
        format!("{head}crossing 7 depth {depth} {none_crossed}")
    };
    let refused = |route: &str, crossing: &str| {
        let head = format!("route 4 depth 0 fault {route} figures 0 0 0 0 visits zeroed 0\n");
        let reason = format!("reason 4 depth 0 fault {route} zeroed 0\n");
        format!("{head}{reason}crossing 4 depth 0 fault {crossing} figures 0 0 0 0 0 visits zeroed 0\n")
    };
    let lines = [
        "open 0 depth 0\n".to_string(),
        "route 0 depth 0 figures 1 2 52 26 visits 2 7 1 7 0 7 zeroed 768\nreason 19 depth 0 zeroed 768\n".to_string(),
        "crossing 0 depth 0 figures 0 0 2 39 0 visits 2 7 1 8 0 7 zeroed 1536\n".to_string(),
        "route 0 depth 0 figures 1 2 26 0 visits 2 7 1 7 0 7 zeroed 768\nreason 19 depth 0 zeroed 768\n".to_string(),
        "crossing 0 depth 0 figures 0 0 2 26 0 visits 2 7 1 8 0 7 zeroed 1536\n".to_string(),
        without(0, "period 13"),
        without(0, "period 25"),
        without(0, "period 30000"),
        without(0, "short"),
        without(0, "load"),
        refused("2", "3"),
        refused("1", "2"),
        "move 0 depth 1\n".to_string(),
        without(1, "period 27"),
        "move 0 depth 2\n".to_string(),
        without(2, "walled"),
    ];
    case("skews, by moves", &script, &lines.concat())
}

// The strip of five, and what moves make of it: the tables' period is the sink's. Before `clocks` the source's is 0.
fn crossings() -> Case {
    let script = "plan 5 0 2 2 2 0 tables 1 2 1 1 2 3 2 3 26 0 63 open 5 1 crossing 5 1 0 4 10 ".to_string()
        + "clocks 12 1 2 1 1 crossing 5 1 0 4 10 crossing 5 1 0 4 9 move 2 0 crossing 5 1 0 4 10 move 1 0 "
        + "crossing 5 1 0 4 10 undo undo crossing 5 1 0 4 10 crossing 5 1 4 0 10 move 1 0 crossing 5 1 4 0 10 "
        + "clocks 12 256 2 1 1 crossing 5 1 0 4 10 route 5 1 0 4 10";
    let lines = "open 0 depth 0\n\
        crossing 4 depth 0 fault 1 figures 0 0 0 0 0 visits zeroed 0\n\
        crossing 0 depth 0 figures 1 0 4 50 0 visits 4 7 3 0 2 8 1 7 0 7 zeroed 2560\n\
        crossing 8 depth 0 figures 1 0 4 50 0 visits zeroed 2560\n\
        move 0 depth 1\n\
        crossing 0 depth 1 figures 0 1 4 64 0 visits 4 7 3 7 2 0 1 8 0 7 zeroed 2560\n\
        move 0 depth 2\n\
        crossing 7 depth 2 figures 0 0 0 0 0 visits zeroed 2560\n\
        undo 0 depth 1\n\
        undo 0 depth 0\n\
        crossing 0 depth 0 figures 1 0 4 50 0 visits 4 7 3 0 2 8 1 7 0 7 zeroed 2560\n\
        crossing 0 depth 0 figures 1 0 4 50 0 visits 0 7 1 0 2 8 3 7 4 7 zeroed 2560\n\
        move 0 depth 1\n\
        crossing 0 depth 1 figures 1 0 4 50 0 visits 0 7 1 0 2 8 3 7 4 7 zeroed 2560\n\
        crossing 4 depth 1 fault 8 figures 0 0 0 0 0 visits zeroed 0\n\
        route 0 depth 1 figures 1 4 52 0 visits 4 7 3 0 2 7 1 0 0 7 zeroed 1280\n";
    case("a route between two clocks, by moves", &script, lines)
}

// What a crossing leaves in the words: zeros in the first 1,536 of three cells after an answer, 7 and 8.
fn crossing_words() -> Case {
    let script = STRIP.to_string()
        + "clocks 12 1 2 1 1 scratch 1535 crossing 3 1 0 2 6 show scratch 1536 crossing 3 1 0 2 6 show "
        + "crossing 3 1 0 2 5 show move 1 0 crossing 3 1 0 2 6 show route 3 1 0 2 6 show";
    let plan = |middle: u8, entries: &[[u8; 4]]| format!("plan 0 {middle} 0\n{}", journal(entries));
    let (before, after) = (plan(2, &[]), plan(0, &[[1, 0, 2, 0]]));
    let zeroed = "scratch 0 * 1536 65535 * 522752\n";
    let lines = format!(
        "open 0 depth 0\n\
         crossing 6 depth 0 figures 0 0 0 0 0 visits zeroed 0\n{before}{UNTOUCHED}\
         crossing 0 depth 0 figures 0 0 2 37 0 visits 2 7 1 8 0 7 zeroed 1536\n\
         {before}{zeroed}visits 2 7 1 8 0 7 65535 * 2042\n\
         crossing 8 depth 0 figures 0 0 2 37 0 visits zeroed 1536\n{before}{zeroed}visits 65535 * 2048\n\
         move 0 depth 1\n\
         crossing 7 depth 1 figures 0 0 0 0 0 visits zeroed 1536\n{after}{zeroed}visits 65535 * 2048\n\
         route 7 depth 1 figures 0 0 0 0 visits zeroed 768\n\
         {after}scratch 0 * 768 65535 * 523520\nvisits 65535 * 2048\n"
    );
    case("scratch and visit words of a crossing", &script, &lines)
}

// 256 moves and one more, all undone and one more.
fn full() -> Case {
    let mut script = STRIP.to_string();
    let mut lines = "open 0 depth 0\n".to_string();
    let mut entries = Vec::new();
    let mut plan = [0, 2, 0];
    for i in 0..256 {
        let (cell, marks) = (i % 3, (i % 4) as u8);
        script += &format!("move {cell} {marks} ");
        lines += &format!("move 0 depth {}\n", i + 1);
        entries.push([cell as u8, 0, plan[cell], marks]);
        plan[cell] = marks;
    }
    script += "move 0 0 move 2 4 move 3 0 show ";
    lines += "move 11 depth 256\nmove 3 depth 256\nmove 14 depth 256\n";
    lines += &format!("plan {} {} {}\n{}{UNTOUCHED}", plan[0], plan[1], plan[2], journal(&entries));
    for i in (0..256).rev() {
        script += "undo ";
        lines += &format!("undo 0 depth {i}\n");
    }
    script += "undo show";
    lines += &format!("undo 12 depth 0\nplan 0 2 0\n{}{UNTOUCHED}", journal(&[]));
    case("256 moves and one more", &script, &lines)
}

// What a call leaves in the words, by how many of them are lent: nothing after 6; zeros in the first 768 of three cells
// after an answer, after 8, 19 and a reason; the visits filled by a route's answer alone, and left by a reason.
fn words() -> Case {
    let script = STRIP.to_string()
        + "scratch 767 route 3 1 0 2 6 show scratch 768 route 3 1 0 2 6 show scratch 800 route 3 1 0 2 5 show "
        + "scratch 0 route 3 1 2 2 6 show scratch 768 route 3 1 0 2 6 scratch 767 reason 3 1 0 2 show "
        + "scratch 768 reason 3 1 0 2 show tables 1 2 1 1 2 3 2 3 11 0 63 scratch 769 reason 3 1 0 2 show";
    let plan = format!("plan 0 2 0\n{}", journal(&[]));
    let zeroed = "scratch 0 * 768 65535 * 523520\n";
    let lines = format!(
        "open 0 depth 0\n\
         route 6 depth 0 figures 0 0 0 0 visits zeroed 0\n{plan}{UNTOUCHED}\
         route 0 depth 0 figures 1 2 50 26 visits 2 7 1 7 0 7 zeroed 768\n\
         {plan}{zeroed}visits 2 7 1 7 0 7 65535 * 2042\n\
         route 8 depth 0 figures 1 2 50 26 visits zeroed 768\n{plan}{zeroed}visits 65535 * 2048\n\
         route 5 depth 0 figures 0 0 0 0 visits zeroed 0\n{plan}{UNTOUCHED}\
         route 0 depth 0 figures 1 2 50 26 visits 2 7 1 7 0 7 zeroed 768\n\
         reason 6 depth 0 zeroed 0\n{plan}scratch 65535 * 524288\nvisits 2 7 1 7 0 7 65535 * 2042\n\
         reason 19 depth 0 zeroed 768\n{plan}{zeroed}visits 2 7 1 7 0 7 65535 * 2042\n\
         reason 0 depth 0 period 12 zeroed 768\n{plan}{zeroed}visits 2 7 1 7 0 7 65535 * 2042\n"
    );
    case("scratch and visit words", &script, &lines)
}

// Seven buffers are refused for their count, before any of them is looked at; comments stand anywhere.
fn buffers() -> Case {
    let script = "# a comment\n".to_string()
        + STRIP
        + "# undo\nbuffers 7# seven\n 256 1 1 1 1 1 1 1 1 1 1 1 1 1 1 1 1 1#\n#\n1 1 1\nroute 3 1 0 2 6\n"
        + "buffers 6 256 1 1 1 1 1 1 1 1 1 1 1 1 1 1 1 1 64 route 3 1 0 2 6 "
        + "buffers 6 255 1 1 1 1 1 1 1 1 1 1 1 1 1 1 1 1 64 route 3 1 0 2 6 # the end";
    let lines = "open 0 depth 0\n\
        route 4 depth 0 fault 7 figures 0 0 0 0 visits zeroed 0\n\
        route 4 depth 0 fault 8 1 figures 0 0 0 0 visits zeroed 0\n\
        route 4 depth 0 fault 8 6 figures 0 0 0 0 visits zeroed 0\n";
    case("seven buffers, comments", &script, lines)
}

// The journal's bytes beyond 1,024 stay, and are shown if they are lent.
fn long_journal() -> Case {
    let script = "plan 3 0 2 0 journal 1030 byte 1024 9 open 3 1 move 2 1 show";
    let mut bytes = vec![2, 0, 0, 1];
    bytes.resize(1_024, 0);
    bytes.extend([9, 7, 7, 7, 7, 7]);
    let lines = format!("open 0 depth 0\nmove 0 depth 1\nplan 0 2 1\n{}{UNTOUCHED}", list("journal", &bytes));
    case("a journal of 1,030 bytes", script, &lines)
}

pub fn cases() -> Vec<Case> {
    let same = format!("open 0 depth 0\nmove 0 depth 1\nplan 0 2 0\n{}{UNTOUCHED}", journal(&[[1, 0, 2, 2]]));
    let undone = format!("undo 0 depth 0\nplan 0 2 0\n{}{UNTOUCHED}", journal(&[]));
    vec![
        routes(),
        both_marks(),
        reasons(),
        skews(),
        crossings(),
        crossing_words(),
        full(),
        words(),
        buffers(),
        long_journal(),
        case("a move of 2 onto a cell of 2", &(STRIP.to_string() + "move 1 2 show undo show"), &(same + &undone)),
        case(
            "a corrupt journal, the depth",
            &(STRIP.to_string()
                + "move 0 1 byte 3 2 undo byte 3 1 byte 2 16 undo byte 2 8 undo byte 2 0 byte 1 1 undo byte 1 0 "
                + "depth 257 move 0 1 undo depth 256 move 0 1 depth 1 undo undo"),
            "open 0 depth 0\nmove 0 depth 1\nundo 13 depth 1\nundo 13 depth 1\nundo 13 depth 1\nundo 13 depth 1\n\
             move 10 depth 257\nundo 10 depth 257\nmove 11 depth 256\nundo 0 depth 0\nundo 12 depth 0\n",
        ),
        case(
            "refused openings",
            "move 0 0 undo plan 3 0 2 0 open 0 1 move 0 0 undo open 1 33 undo open 3 2 move 0 0 plan 3 0 2 4 open 3 1 \
             plan 3 0 2 0 journal 1023 open 3 1 move 0 0 journal 1024 open 3 1 move 0 0",
            "move 1 depth 0\nundo 1 depth 0\nopen 1 depth 0\nmove 1 depth 0\nundo 1 depth 0\nopen 1 depth 0\n\
             undo 1 depth 0\nopen 2 depth 0\nmove 1 depth 0\nopen 3 depth 0\nopen 9 depth 0\nmove 1 depth 0\n\
             open 0 depth 0\nmove 0 depth 1\n",
        ),
    ]
}
