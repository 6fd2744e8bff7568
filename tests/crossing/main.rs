// Routes between two clocks, searched beside the planner from documents 01 and 02 alone: random nets through the built
// session player, every line compared; and beside it what the rules of before C-17 would answer.
//   crossing PLAYER NETS SEED

// Plans and tables are the brute force's; commands and refusals the session model's; scripts with their lines and
// spoilt questions the judge of lists'.
#[path = "../brute/change.rs"]
mod change;
#[allow(dead_code)]
#[path = "../brute/job.rs"]
mod job;
#[allow(dead_code)]
#[path = "../brute/make.rs"]
mod make;
#[path = "../brute/random.rs"]
mod random;
#[allow(dead_code)]
#[path = "../brute/rules.rs"]
mod rules;
#[path = "../brute/search.rs"]
mod search;

#[allow(dead_code)]
#[path = "../sessions/script.rs"]
mod commands;
#[allow(dead_code)]
#[path = "../sessions/plan.rs"]
mod plan;
#[path = "../sessions/program.rs"]
mod program;
#[allow(dead_code)]
#[path = "../sessions/question.rs"]
mod question;

#[path = "../lists/played.rs"]
mod played;
#[allow(dead_code)]
#[path = "../lists/tuning.rs"]
mod tuning;

mod bad;
mod best;
mod crossed;
mod jobs;
mod naive;
mod net;
mod nets;
mod plans;
mod script;
mod tally;
mod worked;

use crossed::Crossed;
use jobs::Job;
use played::{complain, plays, Script};
use random::Random;
use rules::ReadLast;
use std::process::ExitCode;
use std::time::Instant;
use tally::Tally;
use worked::Case;

const MISMATCHES: u64 = 5; // then the run stops
const MIXED: u64 = 4_000; // nets from which on no class may be rare
const STATES: usize = 10_000; // the most that one search may follow
const FOLDER: &str = "crossing"; // of target: where a script that fails is kept

// Questions with known lines.
fn check_cases(what: &str, cases: &[Case], player: &str) -> bool {
    let mut good = true;
    for (number, Case { name, job, told, before }) in cases.iter().enumerate() {
        let answered = |read_last: ReadLast, known: &str| {
            let n = job.net.by(read_last);
            let answer = Crossed::of(&n, job.lent, job.room, || best::best(&n, usize::MAX)).expect("no bound was set");
            let given = format!("{} {}", answer.number(), answer.text(&n));
            if given != *known {
                println!("MISMATCH, the brute force at '{name}', {read_last:?} read last\n  known {known}\n  given {given}");
            }
            (given == *known, answer)
        };
        let (as_before, (as_told, answer)) = (answered(ReadLast::Tap, before).0, answered(ReadLast::Blocked, told));
        good &= as_before && as_told;
        let mut script = Script::default();
        script.add(&script::entries(job, &answer));
        if !plays(player, &script, FOLDER, &format!("{what}-{}", number + 1)) {
            println!("that was '{name}'");
            good = false;
        }
    }
    println!("{what:<14} {} questions", cases.len());
    good
}

// The search against the enumeration of all lists, on tiny plans.
fn check_search(seed: u64, plans: u32) -> bool {
    let mut r = Random(seed);
    let (mut tried, mut lists, mut routes, mut ties) = (0, 0, 0, 0);
    while tried < plans {
        let Some(n) = nets::draw(&mut r, STATES) else { continue };
        let (cells, buffers) = (n.problem.cells(), n.problem.buffers.len());
        if cells > 6 || buffers > 1 {
            continue;
        }
        let visits = if cells <= 3 { 7 } else { 6 };
        for read_last in [ReadLast::Tap, ReadLast::Blocked] {
            match naive::agrees(&n.by(read_last), visits) {
                Ok(agreed) => {
                    lists += agreed.lists;
                    routes += agreed.route as u32;
                    ties += agreed.tie as u32;
                }
                Err(text) => {
                    println!("MISMATCH, search and enumeration differ: {text}");
                    return false;
                }
            }
        }
        tried += 1;
    }
    println!("enumeration    {tried} tiny plans, {routes} routes, {ties} with two splits, {lists} lists, all agree");
    ties > 0
}

// Adds a question with its answer; gives the script that is full.
fn add(job: &Job, answer: &Crossed, script: &mut Script, tally: &mut Tally) -> Option<Script> {
    tally.count(job, answer);
    script.add(&script::entries(job, answer))
}

// The next net's questions: itself, and now and then one to be refused.
fn questions(r: &mut Random, tally: &mut Tally) -> Vec<(Job, Crossed)> {
    let Some(n) = nets::draw(r, STATES) else {
        tally.left_out += 1;
        return Vec::new();
    };
    assert!(n.fault().is_none(), "a net out of range: {n:?}");
    let Ok(found) = best::search(&n, STATES) else {
        tally.left_out += 1;
        return Vec::new();
    };
    let before = n.by(ReadLast::Tap);
    let Ok(old) = best::best(&before, STATES) else {
        tally.left_out += 1;
        return Vec::new();
    };
    let route = found.as_ref().map(|found| found.route());
    let mut checks = vec![tally.change((&before, old.as_deref()), (&n, route.as_deref()))];
    if let (Some(found), Some(route)) = (&found, &route) {
        checks.push(tally.splits(&n, found, route));
    }
    for what in checks.into_iter().filter_map(Result::err) {
        complain(FOLDER, &format!("reference-{}", tally.nets), "", &format!("{n:?} {route:?}"), &what);
        tally.mismatches += 1;
    }
    let mut jobs = vec![jobs::job(r, n.clone(), route.as_deref())];
    if r.chance(25) {
        jobs.push(jobs::refused(r, &jobs[0]));
    }
    tally.nets += 1;
    let answered = |job: Job| {
        let best = || if job.net == n { Ok(route.clone()) } else { best::best(&job.net, STATES) };
        let answer = Crossed::of(&job.net, job.lent, job.room, best).ok()?;
        Some((job, answer))
    };
    jobs.into_iter().filter_map(answered).collect()
}

fn run(player: &str, nets: u64, seed: u64) -> bool {
    let start = Instant::now();
    let (mut r, mut tally, mut script) = (Random(seed), Tally::default(), Script::default());
    tally.mismatches += !check_cases("worked by hand", &worked::cases(), player) as u64;
    tally.mismatches += !check_cases("refusals", &bad::cases(), player) as u64;
    tally.mismatches += !check_search(seed, 400) as u64;
    let play = |script: &Script, tally: &mut Tally| {
        tally.scripts += 1;
        tally.mismatches += !plays(player, script, FOLDER, &format!("mismatch-{seed}-{}", tally.scripts)) as u64;
        if tally.scripts % 50 == 0 {
            println!("{} nets, {} mismatches, {} s", tally.nets, tally.mismatches, start.elapsed().as_secs());
        }
    };
    while tally.nets < nets && tally.mismatches < MISMATCHES {
        for (job, answer) in questions(&mut r, &mut tally) {
            if let Some(full) = add(&job, &answer, &mut script, &mut tally) {
                play(&full, &mut tally);
            }
        }
    }
    play(&script, &mut tally);
    tally.print();
    let lacks = if tally.nets >= MIXED { tally.lacks() } else { Vec::new() };
    for class in &lacks {
        println!("POOR MIX, {class}");
    }
    let seconds = start.elapsed().as_secs_f64();
    let Tally { nets, scripts, mismatches, .. } = tally;
    println!("crossing, seed {seed}: {nets} nets, {scripts} scripts, {mismatches} mismatches, {seconds:.1} s");
    lacks.is_empty() && mismatches == 0
}

fn main() -> ExitCode {
    let words: Vec<String> = std::env::args().skip(1).collect();
    let number = |at: usize| words.get(at).and_then(|word| word.parse::<u64>().ok());
    let (Some(nets), Some(seed)) = (number(1), number(2)) else {
        eprintln!("usage: crossing PLAYER NETS SEED");
        return ExitCode::from(2);
    };
    if run(&words[0], nets, seed) {
        ExitCode::SUCCESS
    } else {
        ExitCode::FAILURE
    }
}
