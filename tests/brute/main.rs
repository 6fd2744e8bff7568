// A brute-force search beside the planner, written from documents 01 and 02 alone: random jobs through the built route
// printer, the whole text compared; and beside it what the rules of before C-17 would answer.
//   brute PRINTER JOBS SEED [STATES]    STATES: the most states that one search may follow
//   brute text < JOB                    the text that the brute force gives for one job
//   brute sample JOBS SEED              random jobs, one a line, in hexadecimal

mod answer;
mod cases;
mod change;
mod job;
mod make;
mod mix;
mod naive;
mod random;
mod rules;
mod search;
mod worked;

use random::Random;
use rules::{Problem, ReadLast};
use std::io::{Read, Write};
use std::process::{Child, Command, ExitCode, Stdio};
use std::sync::{Arc, Mutex};
use std::time::{Duration, Instant};

const STATES: usize = 60_000;
const PATIENCE: Duration = Duration::from_secs(20); // for one job
const MISMATCHES: u64 = 5; // then the run stops
const MIXED: u64 = 4_000; // jobs from which on no class may be missing

// A program that is running on a job, for the watch.
type Running = Arc<Mutex<Option<(Child, Instant)>>>;

// Ends a program that does not answer in time.
fn watch(running: Running) {
    std::thread::spawn(move || loop {
        std::thread::sleep(Duration::from_secs(1));
        if let Some((child, since)) = running.lock().unwrap().as_mut() {
            if since.elapsed() > PATIENCE {
                let _ = child.kill();
            }
        }
    });
}

// What the program prints for a job's bytes, and how it failed, if it did.
fn printed(printer: &str, bytes: &[u8], running: &Running) -> Result<Vec<u8>, String> {
    let mut child = Command::new(printer)
        .stdin(Stdio::piped())
        .stdout(Stdio::piped())
        .spawn()
        .map_err(|e| format!("{printer} does not start: {e}"))?;
    let mut stdin = child.stdin.take().unwrap();
    let mut stdout = child.stdout.take().unwrap();
    *running.lock().unwrap() = Some((child, Instant::now()));
    let _ = stdin.write_all(bytes); // the program may end before it has read all
    drop(stdin);
    let mut text = Vec::new();
    let read = stdout.read_to_end(&mut text);
    let (mut child, _) = running.lock().unwrap().take().unwrap();
    let status = child.wait().map_err(|e| e.to_string())?;
    read.map_err(|e| e.to_string())?;
    if status.success() {
        Ok(text)
    } else {
        Err(format!("{status}, having printed {:?}", String::from_utf8_lossy(&text)))
    }
}

fn hex(bytes: &[u8]) -> String {
    bytes.iter().map(|b| format!("{b:02x}")).collect()
}

// Compares one job; true when the texts are the same.
fn compare(printer: &str, bytes: &[u8], expected: &str, running: &Running) -> bool {
    let text = printed(printer, bytes, running);
    if text.as_ref().is_ok_and(|text| text == expected.as_bytes()) {
        return true;
    }
    println!("MISMATCH on job {}", hex(bytes));
    println!("numbers {:?}", job::read(bytes).map(|p| job::numbers(&p)));
    println!("brute force prints\n{expected}");
    match text {
        Ok(text) => println!("the program prints\n{}", String::from_utf8_lossy(&text)),
        Err(failure) => println!("the program fails: {failure}"),
    }
    false
}

// Jobs with known texts: the brute force must give the text, and so must the program.
fn check_cases(what: &str, cases: &[cases::Case], printer: &str, running: &Running) -> bool {
    let mut good = true;
    for case in cases {
        for (last, known) in [(ReadLast::Tap, &case.before), (ReadLast::Blocked, &case.text)] {
            let text = answer::answer(&case.bytes, last, usize::MAX).unwrap().text();
            if text != *known {
                println!("the brute force fails at '{}', {last:?} read last: {text}", case.name);
                good = false;
            }
        }
        if !compare(printer, &case.bytes, &case.text, running) {
            println!("that was '{}'", case.name);
            good = false;
        }
    }
    println!("{what}: {} jobs", cases.len());
    good
}

// The search against the enumeration of all lists, on tiny plans.
fn check_search(seed: u64) -> bool {
    let mut r = Random(seed);
    let (mut plans, mut lists, mut routes) = (0, 0, 0);
    while plans < 400 {
        let Some((_, p)) = make::problem(&mut r, STATES) else { continue };
        if p.cells() > 6 || p.buffers.len() > 2 {
            continue;
        }
        let visits = if p.cells() <= 3 { 8 } else { 6 };
        for read_last in [ReadLast::Tap, ReadLast::Blocked] {
            match naive::agrees(&Problem { read_last, ..p.clone() }, visits) {
                Ok(tried) => lists += tried,
                Err(text) => {
                    println!("search and enumeration differ: {text}");
                    return false;
                }
            }
        }
        routes += search::best(&p, STATES).unwrap().is_some() as u32;
        plans += 1;
    }
    println!("search against enumeration: {plans} tiny plans, {routes} with a route, {lists} lists, all agree");
    true
}

fn run(printer: &str, jobs: u64, seed: u64, states: usize) -> bool {
    let running: Running = Arc::new(Mutex::new(None));
    watch(running.clone());
    let start = Instant::now();
    let mut good = check_cases("document 01's cases", &worked::cases(), printer, &running);
    good &= check_cases("faults, ranges and full size", &cases::cases(), printer, &running);
    good &= check_search(seed);
    let mut r = Random(seed);
    let mut mix = mix::Mix::default();
    let mut mismatches = 0;
    while mix.jobs < jobs && mismatches < MISMATCHES {
        let Some(job) = make::job(&mut r, states) else {
            mix.too_large += 1;
            continue;
        };
        let answers = [ReadLast::Tap, ReadLast::Blocked].map(|last| answer::answer(&job.bytes, last, states));
        let [Ok(before), Ok(answer)] = answers else {
            mix.too_large += 1;
            continue;
        };
        if !compare(printer, &job.bytes, &answer.text(), &running) {
            mismatches += 1;
            println!("that was job number {} of seed {seed}", mix.jobs + 1);
        }
        mix.shapes[job.shape] += 1;
        mix.damaged += job.damaged as u64;
        mix.count(&job.bytes, &answer);
        if let Err(what) = mix.count_change(&before, &answer) {
            mismatches += 1;
            println!("MISMATCH on job {}\n{what}", hex(&job.bytes));
        }
        if mix.jobs % 5_000 == 0 && jobs > 5_000 {
            println!("{} jobs, {mismatches} mismatches, {} s", mix.jobs, start.elapsed().as_secs());
        }
    }
    mix.print();
    for class in mix.lacks().iter().filter(|_| jobs >= MIXED) {
        println!("POOR MIX, {class}");
        good = false;
    }
    let seconds = start.elapsed().as_secs_f64();
    println!("brute force, seed {seed}: {} jobs, {mismatches} mismatches, {seconds:.1} s", mix.jobs);
    good && mismatches == 0
}

fn main() -> ExitCode {
    let words: Vec<String> = std::env::args().skip(1).collect();
    if words == ["text"] {
        let mut bytes = Vec::new();
        std::io::stdin().read_to_end(&mut bytes).expect("standard input is read");
        print!("{}", answer::answer(&bytes, ReadLast::Blocked, usize::MAX).unwrap().text());
        return ExitCode::SUCCESS;
    }
    let number = |at: usize| words.get(at).and_then(|word| word.parse::<u64>().ok());
    let (Some(jobs), Some(seed)) = (number(1), number(2)) else {
        eprintln!("usage: brute PRINTER JOBS SEED [STATES], brute text < JOB or brute sample JOBS SEED");
        return ExitCode::from(2);
    };
    if words[0] == "sample" {
        let mut r = Random(seed);
        let drawn = std::iter::from_fn(|| Some(make::job(&mut r, STATES))).flatten();
        drawn.take(jobs as usize).for_each(|job| println!("{}", hex(&job.bytes)));
        return ExitCode::SUCCESS;
    }
    let states = number(3).map_or(STATES, |n| n as usize);
    if run(&words[0], jobs, seed, states) {
        ExitCode::SUCCESS
    } else {
        ExitCode::FAILURE
    }
}
