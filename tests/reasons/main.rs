// Why there is no route, found beside the planner from documents 01 and 02 alone: random jobs through the built session
// player, every line compared.
//   reasons PLAYER JOBS SEED

// Plans, tables and routes are the brute force's; commands, refusals and the route question the session model's;
// scripts with their lines and spoilt questions the judge of lists'.
#[allow(dead_code)]
#[path = "../brute/job.rs"]
mod job;
#[allow(dead_code)]
#[path = "../brute/make.rs"]
mod make;
#[path = "../brute/random.rs"]
mod random;
#[allow(dead_code)]
#[path = "../brute/rules.rs"]
mod rules;
#[path = "../brute/search.rs"]
mod search;

#[allow(dead_code)]
#[path = "../sessions/plan.rs"]
mod plan;
#[path = "../sessions/program.rs"]
mod program;
#[allow(dead_code)]
#[path = "../sessions/question.rs"]
mod question;
#[allow(dead_code)]
#[path = "../sessions/script.rs"]
mod commands;

#[path = "../lists/played.rs"]
mod played;
#[allow(dead_code)]
#[path = "../lists/tuning.rs"]
mod tuning;

mod explained;
mod jobs;
mod plans;
mod script;
mod sides;
mod tally;
mod why;
mod worked;

use explained::Explained;
use jobs::Job;
use played::{complain, plays, Script};
use random::Random;
use std::process::ExitCode;
use std::time::Instant;
use tally::Tally;

const MISMATCHES: u64 = 5; // then the run stops
const MIXED: u64 = 5_000; // jobs from which on no class may be rare
const STATES: usize = 3_000; // the most that one search may follow
const LARGE: usize = 256; // cells of a plan worked by hand whose search is not followed to its end
const FOLDER: &str = "reasons"; // of target: where a script that fails is kept

// Jobs with known lines.
fn check_worked(player: &str) -> bool {
    let cases = worked::cases();
    let mut good = true;
    for (number, case) in cases.iter().enumerate() {
        let job = Job { problem: case.problem.clone(), lent: question::SCRATCH, depth: 0, shown: false };
        let answer = Explained::of(&job.problem, job.lent).expect("a small plan").0;
        let given = format!("{} {}", answer.number(), answer.text(&job.problem));
        let states = if job.problem.marks.len() < LARGE { usize::MAX } else { STATES };
        let agrees = sides::seen(&job.problem, &answer, states);
        if given != case.told || agrees.is_err() {
            println!("MISMATCH, the reference at '{}': {given}, {:?}", case.name, agrees.err());
            good = false;
        }
        let mut script = Script::default();
        script::add(&mut script, &script::entries(&job, &answer));
        if !plays(player, &script, FOLDER, &format!("worked-{}", number + 1)) {
            println!("that was '{}'", case.name);
            good = false;
        }
    }
    println!("worked by hand  {} jobs", cases.len());
    good
}

// Adds a job with its answer, if not too much has to be followed for it; the brute force must agree. Gives the script
// that is full.
fn add(job: &Job, script: &mut Script, tally: &mut Tally) -> Option<Script> {
    let Ok((answer, slowest)) = Explained::of(&job.problem, job.lent) else {
        tally.left_out += 1;
        return None;
    };
    tally.count(job, &answer, slowest);
    let entries = script::entries(job, &answer);
    match sides::seen(&job.problem, &answer, STATES) {
        Ok(seen) => tally.seen(&answer, &seen),
        Err(what) => {
            let mut alone = Script::default();
            script::add(&mut alone, &entries);
            complain(FOLDER, &format!("reference-{}", tally.jobs), &alone.text(), &format!("{answer:?}"), &what);
            tally.mismatches += 1;
        }
    }
    script::add(script, &entries)
}

fn run(player: &str, jobs: u64, seed: u64) -> bool {
    let start = Instant::now();
    let (mut r, mut tally, mut script) = (Random(seed), Tally::default(), Script::default());
    tally.mismatches = !check_worked(player) as u64;
    let play = |script: &Script, tally: &mut Tally| {
        tally.scripts += 1;
        tally.mismatches += !plays(player, script, FOLDER, &format!("mismatch-{seed}-{}", tally.scripts)) as u64;
        if tally.scripts % 50 == 0 {
            println!("{} jobs, {} mismatches, {} s", tally.jobs, tally.mismatches, start.elapsed().as_secs());
        }
    };
    while tally.jobs < jobs && tally.mismatches < MISMATCHES {
        for job in jobs::draw(&mut r) {
            if let Some(full) = add(&job, &mut script, &mut tally) {
                play(&full, &mut tally);
            }
        }
    }
    play(&script, &mut tally);
    tally.print();
    let lacks = if tally.jobs >= MIXED { tally.lacks() } else { Vec::new() };
    for class in &lacks {
        println!("POOR MIX, {class}");
    }
    let seconds = start.elapsed().as_secs_f64();
    let Tally { jobs, scripts, mismatches, .. } = tally;
    println!("reasons, seed {seed}: {jobs} jobs, {scripts} scripts, {mismatches} mismatches, {seconds:.1} s");
    lacks.is_empty() && mismatches == 0
}

fn main() -> ExitCode {
    let words: Vec<String> = std::env::args().skip(1).collect();
    let number = |at: usize| words.get(at).and_then(|word| word.parse::<u64>().ok());
    let (Some(jobs), Some(seed)) = (number(1), number(2)) else {
        eprintln!("usage: reasons PLAYER JOBS SEED");
        return ExitCode::from(2);
    };
    if run(&words[0], jobs, seed) {
        ExitCode::SUCCESS
    } else {
        ExitCode::FAILURE
    }
}
