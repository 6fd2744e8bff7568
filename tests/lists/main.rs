// A judge of lists beside the planner, written from documents 01 and 02 alone: random lists and pairs of lists through
// the built session player, every line compared.
//   lists PLAYER LISTS PAIRS SEED

// Plans, tables and routes are the brute force's; commands, plan checks and fault places the session model's.
#[allow(dead_code)]
#[path = "../brute/job.rs"]
mod job;
#[allow(dead_code)]
#[path = "../brute/make.rs"]
mod make;
#[path = "../brute/random.rs"]
mod random;
#[allow(dead_code)]
#[path = "../brute/rules.rs"]
mod rules;
#[path = "../brute/search.rs"]
mod search;

#[allow(dead_code)]
#[path = "../sessions/script.rs"]
mod commands;
#[allow(dead_code)]
#[path = "../sessions/plan.rs"]
mod plan;
#[path = "../sessions/program.rs"]
mod program;
#[allow(dead_code)]
#[path = "../sessions/question.rs"]
mod question;

mod asked;
mod blocks;
mod comparison;
mod endless;
mod judge;
mod lists;
mod misses;
mod mix;
#[allow(dead_code)]
mod played;
mod script;
mod tuning;
mod worked;

use mix::Mix;
use played::{plays, Script};
use program::printed;
use random::Random;
use std::process::ExitCode;
use std::time::Instant;

const MISMATCHES: u64 = 5; // then the run stops
const MIXED: (u64, u64) = (10_000, 4_000); // lists and pairs from which on no class may be rare
const FOLDER: &str = "lists"; // of target: where a script that fails is kept

// Scripts with known lines.
fn check_worked(player: &str) -> bool {
    let cases = worked::cases();
    let mut good = true;
    for (number, case) in cases.iter().enumerate() {
        for (who, lines) in [("judge", Ok(case.judged())), ("program", printed(player, &case.script()))] {
            if lines.as_ref() != Ok(&case.lines()) {
                println!("the {who} at '{}'", case.name);
                let name = format!("worked-{}", number + 1);
                played::complain(FOLDER, &name, &case.script(), &case.lines(), &format!("{lines:?}"));
                good = false;
            }
        }
    }
    let questions: usize = cases.iter().map(|case| case.asked.len()).sum();
    println!("worked by hand       {} cases, {questions} questions", cases.len());
    good
}

// Each wrong command once, in line 2.
fn check_bad(player: &str) -> bool {
    let mut good = true;
    for (text, reason) in worked::BAD {
        let script = format!("undo\n{text} undo\n");
        let expected = format!("undo 1 depth 0\nbad script: line 2: {reason}\n");
        let lines = printed(player, &script);
        if lines.as_ref() != Ok(&expected) {
            played::complain(FOLDER, "bad", &script, &expected, &format!("{lines:?}"));
            good = false;
        }
    }
    println!("wrong commands       {}", worked::BAD.len());
    good
}

fn run(player: &str, lists: u64, pairs: u64, seed: u64) -> bool {
    let start = Instant::now();
    let (mut r, mut mix, mut script) = (Random(seed), Mix::default(), Script::default());
    let mut mismatches = !check_worked(player) as u64 + !check_bad(player) as u64;
    let mut play = |script: &Script, mix: &mut Mix| {
        mix.scripts += 1;
        mismatches += !plays(player, script, FOLDER, &format!("mismatch-{seed}-{}", mix.scripts)) as u64;
        if mix.scripts % 100 == 0 {
            let seconds = start.elapsed().as_secs();
            println!("{} lists, {} pairs, {mismatches} mismatches, {seconds} s", mix.lists, mix.pairs);
        }
        mismatches < MISMATCHES
    };
    let mut goes_on = true;
    while goes_on && (mix.lists < lists || mix.pairs < pairs) {
        for block in blocks::draw(&mut r) {
            let full = script::add(&mut script, &block, &mut r, &mut mix);
            goes_on = full.iter().all(|script| play(script, &mut mix)) && goes_on;
        }
    }
    play(&script, &mut mix);
    mix.print();
    let lacks = if mix.lists >= MIXED.0 && mix.pairs >= MIXED.1 { mix.lacks() } else { Vec::new() };
    for class in &lacks {
        println!("POOR MIX, {class}");
    }
    let seconds = start.elapsed().as_secs_f64();
    let (lists, pairs, scripts) = (mix.lists, mix.pairs, mix.scripts);
    println!(
        "lists, seed {seed}: {lists} lists, {pairs} pairs, {scripts} scripts, {mismatches} mismatches, {seconds:.1} s"
    );
    lacks.is_empty() && mismatches == 0
}

fn main() -> ExitCode {
    let words: Vec<String> = std::env::args().skip(1).collect();
    let number = |at: usize| words.get(at).and_then(|word| word.parse::<u64>().ok());
    let (Some(lists), Some(pairs), Some(seed)) = (number(1), number(2), number(3)) else {
        eprintln!("usage: lists PLAYER LISTS PAIRS SEED");
        return ExitCode::from(2);
    };
    if run(&words[0], lists, pairs, seed) {
        ExitCode::SUCCESS
    } else {
        ExitCode::FAILURE
    }
}
