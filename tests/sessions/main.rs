// A model of a session beside the planner, written from documents 01 and 02 alone: random scripts of calls through the
// built session player, every line compared.
//   sessions PLAYER SCRIPTS SEED    compares
//   sessions script NUMBER SEED     prints one script of a run
//   sessions text < SCRIPT          what the model gives for a script of good commands

// The route question's answer is the brute force's: its random numbers, rules and search, as they are. The reason's is
// that of the reference of reasons, the crossing's that of the search of routes between two clocks.
#[path = "../brute/random.rs"]
mod random;
#[allow(dead_code)]
#[path = "../brute/rules.rs"]
mod rules;
#[path = "../brute/search.rs"]
mod search;

#[path = "../reasons/explained.rs"]
mod explained;
#[path = "../reasons/sides.rs"]
mod sides;
#[path = "../reasons/why.rs"]
mod why;

#[allow(dead_code)]
#[path = "../crossing/best.rs"]
mod best;
#[path = "../crossing/crossed.rs"]
mod crossed;
#[allow(dead_code)]
#[path = "../crossing/net.rs"]
mod net;

mod calls;
mod draw;
mod make;
mod mix;
mod plan;
mod player;
mod program;
mod question;
mod reference;
mod script;
mod stories;
mod worked;

use make::Script;
use mix::Mix;
use player::Player;
use program::printed;
use random::Random;
use std::io::Read;
use std::process::ExitCode;
use std::time::Instant;

const MISMATCHES: u64 = 5; // then the run stops
const MIXED: u64 = 300; // scripts from which on no class may be missing
const SAVED: &str = "target/sessions"; // where a script that fails is kept

// The random numbers of one script.
fn random(seed: u64, number: u64) -> Random {
    Random(Random(seed ^ number.wrapping_mul(0x9E37_79B9)).next())
}

// A line, or of a long one only the word where two differ.
fn clip(line: &str, word: usize) -> String {
    if line.len() <= 160 {
        return line.to_string();
    }
    let mut words = line.split(' ');
    let name = words.next().unwrap_or("");
    format!("{name} .. word {word}: {}", words.nth(word - 1).unwrap_or("(nothing)"))
}

// The first line that differs.
fn difference(script: &Script, text: &str) -> Option<String> {
    let printed: Vec<&str> = text.lines().collect();
    for (at, line) in script.lines.iter().enumerate() {
        let got = printed.get(at).copied().unwrap_or("(nothing)");
        if line.text != got {
            let command = script.commands[line.command].text();
            let same = line.text.split(' ').zip(got.split(' ')).take_while(|(a, b)| a == b).count();
            let (model, printed) = (clip(&line.text, same.max(1)), clip(got, same.max(1)));
            let place = format!("line {} of the output, command {}: {command}", at + 1, line.command + 1);
            return Some(format!("{place}\n  the model {model}\n  printed   {printed}"));
        }
    }
    let more = printed.get(script.lines.len())?;
    Some(format!("line {} of the output, after the script's end: {more}", script.lines.len() + 1))
}

fn complain(script: &Script, number: u64, seed: u64, what: &str) {
    let path = format!("{SAVED}/mismatch-{seed}-{number}.script");
    let saved = std::fs::create_dir_all(SAVED).and_then(|_| std::fs::write(&path, &script.text));
    println!("MISMATCH, script {number} of seed {seed}, {}", if saved.is_ok() { &path } else { "not saved" });
    println!("{what}");
}

// Makes, plays and compares one script; true when all lines are the same.
fn compare(player: &str, number: u64, seed: u64, mix: &mut Mix) -> bool {
    let (script, made) = make::script(random(seed, number), mix);
    if let Err(what) = made {
        let last = script.commands.last().map_or(String::new(), |command| command.text());
        complain(&script, number, seed, &format!("the model's two halves differ at '{last}': {what}"));
        return false;
    }
    let fails = match printed(player, &script.text) {
        Ok(text) => difference(&script, &text),
        Err(failure) => Some(format!("the program fails: {failure}")),
    };
    if let Some(what) = &fails {
        complain(&script, number, seed, what);
    }
    fails.is_none()
}

// What the model gives for a script, or why it gives nothing.
fn modelled(text: &str) -> Result<String, String> {
    let commands = script::read(text).ok_or("a command is not good")?;
    let (mut player, mut mix, mut lines) = (Player::new(), Mix::default(), String::new());
    for command in &commands {
        let more = player.play(command, &mut mix).map_err(|trouble| trouble.text())?;
        lines.extend(more.iter().map(|line| format!("{line}\n")));
    }
    Ok(lines)
}

// Scripts with known lines.
fn check_worked(player: &str) -> bool {
    let cases = worked::cases();
    let mut good = true;
    for case in &cases {
        for (who, lines) in [("model", modelled(&case.script)), ("program", printed(player, &case.script))] {
            if lines.as_ref() != Ok(&case.lines) {
                println!("MISMATCH, the {who} at '{}'\nknown\n{}\ngiven\n{lines:?}", case.name, case.lines);
                good = false;
            }
        }
    }
    println!("worked by hand  {} scripts", cases.len());
    good
}

// Each wrong command once, in line 3.
fn check_bad(player: &str) -> bool {
    let mut good = true;
    for (text, reason) in draw::BAD {
        let lines = printed(player, &format!("undo # one\n\n{text} undo"));
        if lines != Ok(format!("undo 1 depth 0\nbad script: line 3: {reason}\n")) {
            println!("MISMATCH, the program at the wrong command '{text}': {lines:?}");
            good = false;
        }
    }
    println!("wrong commands  {}", draw::BAD.len());
    good
}

fn run(player: &str, scripts: u64, seed: u64) -> bool {
    let start = Instant::now();
    let mut mix = Mix::default();
    let mut mismatches = !check_worked(player) as u64 + !check_bad(player) as u64;
    while mix.scripts < scripts && mismatches < MISMATCHES {
        let number = mix.scripts + 1;
        mismatches += !compare(player, number, seed, &mut mix) as u64;
        if mix.scripts % 500 == 0 && scripts > 500 {
            let seconds = start.elapsed().as_secs();
            println!("{} scripts, {} calls, {mismatches} mismatches, {seconds} s", mix.scripts, mix.calls);
        }
    }
    mix.print();
    let lacks = if mix.scripts >= MIXED { mix.lacks() } else { Vec::new() };
    for class in &lacks {
        println!("POOR MIX, none of: {class}");
    }
    let seconds = start.elapsed().as_secs_f64();
    println!(
        "sessions, seed {seed}: {} scripts, {} calls, {mismatches} mismatches, {seconds:.1} s",
        mix.scripts, mix.calls
    );
    lacks.is_empty() && mismatches == 0
}

fn main() -> ExitCode {
    let words: Vec<String> = std::env::args().skip(1).collect();
    if words == ["text"] {
        let mut text = String::new();
        std::io::stdin().read_to_string(&mut text).expect("standard input is text");
        match modelled(&text) {
            Ok(lines) => print!("{lines}"),
            Err(what) => eprintln!("{what}"),
        }
        return ExitCode::SUCCESS;
    }
    let number = |at: usize| words.get(at).and_then(|word| word.parse::<u64>().ok());
    let (Some(scripts), Some(seed)) = (number(1), number(2)) else {
        eprintln!("usage: sessions PLAYER SCRIPTS SEED, sessions script NUMBER SEED or sessions text < SCRIPT");
        return ExitCode::from(2);
    };
    if words[0] == "script" {
        print!("{}", make::script(random(seed, scripts), &mut Mix::default()).0.text);
        return ExitCode::SUCCESS;
    }
    if run(&words[0], scripts, seed) {
        ExitCode::SUCCESS
    } else {
        ExitCode::FAILURE
    }
}
