// Questions to be refused and those just within, one by one on the strip of five: each has a number and a place, and
// what the words hold is shown after it.

use crate::jobs::Job;
use crate::net::Net;
use crate::rules::{Buffer, Register, CUT_BELOW, CUT_RIGHT};
use crate::worked::{case, five, Case, FIVE};

const VISITS: &str = "4 7 3 0 2 8 1 7 0 7";

fn changed(change: impl Fn(&mut Job)) -> Job {
    let mut job = Job { shown: true, ..Job::ample(five()) };
    change(&mut job);
    job
}

fn net(change: impl Fn(&mut Net)) -> Job {
    changed(|job| change(&mut job.net))
}

fn refused(number: &str) -> String {
    format!("{number} figures 0 0 0 0 0 visits zeroed 0")
}

// One above each range.
const REGISTERS: [(&str, Register); 4] = [
    ("R 256", Register { r: 256, k: 2, c: 1, setup: 1 }),
    ("K 1,001", Register { r: 1, k: 1_001, c: 1, setup: 1 }),
    ("C 64", Register { r: 1, k: 2, c: 64, setup: 1 }),
    ("setup 30,001", Register { r: 1, k: 2, c: 1, setup: 30_001 }),
];

fn periods(out: &mut Vec<Case>) {
    for period in [0, 30_001, 65_535] {
        out.push(case("the source's period", net(|n| n.source_period = period), &refused("4 fault 1")));
        out.push(case("the sink's period", net(|n| n.problem.period = period), &refused("4 fault 2")));
        let both = |n: &mut Net| (n.source_period, n.problem.period) = (period, period);
        out.push(case("both periods", net(both), &refused("4 fault 1")));
        let later = |n: &mut Net| (n.problem.period, n.problem.skew, n.problem.limit) = (period, 30_001, 64);
        out.push(case("the sink's period, the skew and L", net(later), &refused("4 fault 2")));
    }
    // the sink's span takes three steps and closes at 92
    let longest = |n: &mut Net| (n.source_period, n.problem.period) = (30_000, 30_000);
    let told = "0 figures 0 0 4 60000 59908 visits 4 7 3 0 2 0 1 8 0 7 zeroed 2560";
    out.push(case("both periods 30,000", net(longest), told));
    let shortest = |n: &mut Net| (n.source_period, n.problem.period) = (1, 1);
    out.push(case("both periods 1", net(shortest), "7 figures 0 0 0 0 0 visits zeroed 2560"));
}

// From 13 and 27 with skew 1 the strip has the answer of 12 and 26.
fn skews(out: &mut Vec<Case>) {
    for skew in [30_001, 30_002, 65_535] {
        out.push(case("the skew", net(|n| n.problem.skew = skew), &refused("4 fault 3")));
        let limit = |n: &mut Net| (n.problem.skew, n.problem.limit) = (skew, 64);
        out.push(case("the skew and L", net(limit), &refused("4 fault 3")));
        let both = |n: &mut Net| (n.source_period, n.problem.skew) = (0, skew);
        out.push(case("the source's period and the skew", net(both), &refused("4 fault 1")));
    }
    let none = "7 figures 0 0 0 0 0 visits zeroed 2560";
    out.push(case("the largest skew", net(|n| n.problem.skew = 30_000), none));
    let one = |n: &mut Net| (n.source_period, n.problem.period, n.problem.skew) = (13, 27, 1);
    out.push(case("skew 1", net(one), &format!("0 figures 1 0 4 53 0 visits {VISITS} zeroed 2560")));
}

fn elements(out: &mut Vec<Case>) {
    let seven = || vec![Buffer::default(); 7];
    let heavy = Buffer { c: 64, ..Buffer::default() };
    for (name, spoilt) in REGISTERS {
        out.push(case(name, net(|n| n.fifo = spoilt), &refused("4 fault 8")));
        out.push(case(name, net(|n| n.problem.register = spoilt), &refused("4 fault 7")));
        let both = |n: &mut Net| (n.fifo, n.problem.register) = (spoilt, spoilt);
        out.push(case("register and FIFO", net(both), &refused("4 fault 7")));
        let count = |n: &mut Net| (n.fifo, n.problem.buffers) = (spoilt, seven());
        out.push(case("FIFO and count", net(count), &refused("4 fault 8")));
        let buffer = |n: &mut Net| (n.fifo, n.problem.buffers) = (spoilt, vec![heavy]);
        out.push(case("FIFO and a buffer", net(buffer), &refused("4 fault 8")));
        let vertical = |n: &mut Net| (n.fifo, n.problem.vertical.c) = (spoilt, 64);
        out.push(case("vertical wire and FIFO", net(vertical), &refused("4 fault 6")));
    }
    let largest = Register { r: 255, k: 1_000, c: 63, setup: 30_000 };
    out.push(case("the largest FIFO", net(|n| n.fifo = largest), "7 figures 0 0 0 0 0 visits zeroed 2560"));
    out.push(case("L", net(|n| n.problem.limit = 64), &refused("4 fault 4")));
    out.push(case("horizontal R", net(|n| n.problem.horizontal.r = 256), &refused("4 fault 5")));
    out.push(case("horizontal C", net(|n| n.problem.horizontal.c = 64), &refused("4 fault 5")));
    out.push(case("vertical R", net(|n| n.problem.vertical.r = 256), &refused("4 fault 6")));
    out.push(case("seven buffers", net(|n| n.problem.buffers = seven()), &refused("4 fault 9")));
    out.push(case("seven heavy buffers", net(|n| n.problem.buffers = vec![heavy; 7]), &refused("4 fault 9")));
    for place in 0..6 {
        let one = |n: &mut Net| {
            n.problem.buffers = vec![Buffer::default(); place];
            n.problem.buffers.resize(6, heavy);
        };
        out.push(case("buffers from one place on", net(one), &refused(&format!("4 fault 10 {}", place + 1))));
    }
}

fn plans(out: &mut Vec<Case>) {
    let sides = [(0, 1), (33, 1), (5, 0), (5, 33), (65_535, 65_535)];
    for (width, height) in sides {
        let spoil = |n: &mut Net| {
            (n.problem.width, n.problem.height, n.source_period) = (width, height, 0);
        };
        out.push(case("sides, and the source's period", net(spoil), &refused("1")));
    }
    out.push(case("a byte too few", net(|n| n.problem.marks.truncate(4)), &refused("2")));
    out.push(case("a byte too many", net(|n| n.problem.marks.push(16)), &refused("2")));
    out.push(case("16", net(|n| n.problem.marks[1] = 16), &refused("3")));
    out.push(case("a 4 in the last column", net(|n| n.problem.marks[4] |= CUT_RIGHT), &refused("3")));
    out.push(case("an 8 in the last row", net(|n| n.problem.marks[2] |= CUT_BELOW), &refused("3")));
    let element = |n: &mut Net| (n.problem.marks[2], n.fifo.c) = (18, 64);
    out.push(case("a stray mark and the FIFO", net(element), &refused("3")));
}

fn ends(out: &mut Vec<Case>) {
    for (source, sink) in [(0, 0), (4, 4), (5, 4), (0, 5), (65_535, 0), (1, 65_535)] {
        let spoil = |n: &mut Net| (n.problem.source, n.problem.sink) = (source, sink);
        out.push(case("ends", net(spoil), &refused("5")));
        let scratch = changed(|job| {
            spoil(&mut job.net);
            job.lent = 0;
        });
        out.push(case("ends and scratch", scratch, &refused("5")));
        let element = |n: &mut Net| {
            spoil(n);
            n.source_period = 30_001;
        };
        out.push(case("ends and the source's period", net(element), &refused("4 fault 1")));
    }
}

// 5 cells need 2,560 scratch words, the route 10 visit words.
fn words(out: &mut Vec<Case>) {
    let found = format!("0 figures 1 0 4 50 0 visits {VISITS} zeroed 2560");
    for lent in [0, 1, 1_280, 2_048, 2_559] {
        out.push(case("scratch", changed(|job| job.lent = lent), &refused("6")));
        let none = changed(|job| (job.lent, job.room, job.net.source_period) = (lent, 0, 1));
        out.push(case("scratch, and no route", none, &refused("6")));
    }
    for lent in [2_560, 2_561, 524_288] {
        out.push(case("scratch enough", changed(|job| job.lent = lent), &found));
    }
    for room in [0, 1, 5, 8, 9] {
        let told = "8 figures 1 0 4 50 0 visits zeroed 2560";
        out.push(case("visits", changed(|job| (job.lent, job.room) = (2_560, room)), told));
        let none = changed(|job| (job.room, job.net.problem.marks) = (room, vec![0; 5]));
        out.push(case("visits, and no route", none, "7 figures 0 0 0 0 0 visits zeroed 2560"));
    }
    for room in [10, 11, 2_048] {
        out.push(case("visits enough", changed(|job| (job.lent, job.room) = (2_560, room)), &found));
    }
    // 1,024 cells need all scratch words
    let large = changed(|job| {
        let p = &mut job.net.problem;
        (p.width, p.height, p.marks) = (32, 32, vec![0; 1_024]);
        p.marks[..5].copy_from_slice(&FIVE);
    });
    let short = Job { lent: 524_287, ..large.clone() };
    out.push(case("32 by 32", large, &format!("0 figures 1 0 4 50 0 visits {VISITS} zeroed 524288")));
    out.push(case("32 by 32, a word too few", short, &refused("6")));
}

pub fn cases() -> Vec<Case> {
    let mut out = Vec::new();
    periods(&mut out);
    skews(&mut out);
    elements(&mut out);
    plans(&mut out);
    ends(&mut out);
    words(&mut out);
    out
}
