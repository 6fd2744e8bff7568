// Plan texts, jobs, routes and sheets: a text to job bytes and back, the route printer's answer with its words and
// drawings, the session player's between two clocks, and in words its verdict on a sheet and why there is no route.
// examples/README.md is its help.
// Nothing here decides any of that: target/bin/route_printer and target/bin/session_player, which are proved, do.

mod answer;
mod bytes;
mod causes;
mod cells;
mod crossing;
mod fields;
mod files;
mod job;
mod picture;
mod program;
mod reasons;
mod refusals;
mod route;
mod script;
mod sheet;
mod show;
mod spans;
mod svg;
mod table;
mod text;
mod verdict;
mod words;

use answer::Visit;
use files::{failure, Failure, Source, DONE, TEXT};
use job::Job;
use std::ffi::OsString;
use std::process::ExitCode;
use text::{Lines, Wrong};

const USAGE: &str = "usage: job check [TEXT]
       job write [TEXT]
       job read [JOB]
       job route PRINTER PLAYER TEXT [--picture] [--svg FILE]
       job script TEXT SHEET
       job verdict PLAYER TEXT SHEET
       job --help
       job --version";
const HELP: &str = include_str!("../../examples/README.md");
const VERSION: &str = include_str!("../VERSION");

// The job of a plan text.
pub fn read_text(from: &Source) -> Result<(Job, Lines), Failure> {
    let bytes = from.read()?;
    let read = text::decode(bytes).and_then(|text| text::parse(&text));
    read.or_else(|wrong| misread(from, wrong))
}

// The same where one clock is asked for; the words are what a net between two does not have.
pub fn read_one_clock(from: &Source, what: &str) -> Result<(Job, Lines), Failure> {
    let (job, lines) = read_text(from)?;
    if job.clocks.is_some() {
        let message = format!("a net between two clocks has no {what}");
        return misread(from, Wrong { line: lines.of("clocks"), message });
    }
    Ok((job, lines))
}

// The visits of a sheet.
pub fn read_sheet(from: &Source) -> Result<Vec<Visit>, Failure> {
    let bytes = from.read()?;
    let read = text::decode(bytes).and_then(|text| sheet::parse(&text));
    read.or_else(|wrong| misread(from, wrong))
}

fn misread<T>(from: &Source, wrong: Wrong) -> Result<T, Failure> {
    failure(TEXT, format!("{}:{}: {}", from.name(), wrong.line, wrong.message))
}

fn write(from: &Source) -> Result<u8, Failure> {
    let (job, _) = read_one_clock(from, "job; tools/route takes its text")?;
    files::print(&bytes::encode(&job))?;
    Ok(DONE)
}

fn read(from: &Source) -> Result<u8, Failure> {
    let bytes = from.read()?;
    let is_text = !bytes.is_empty() && bytes.iter().all(|b| matches!(b, b' '..=b'~' | b'\t' | b'\r' | b'\n'));
    let hint = if is_text { " (is it a plan text? 'job write' writes its job)" } else { "" };
    match bytes::decode(&bytes) {
        Ok(job) => files::print(show::text(&job).as_bytes())?,
        Err(message) => return failure(TEXT, format!("{}: {message}{hint}", from.name())),
    }
    Ok(DONE)
}

fn run(words: &[OsString]) -> Result<u8, Failure> {
    let known: Vec<&str> = words.iter().map(|word| word.to_str().unwrap_or("")).collect();
    match &known[..] {
        ["--help"] => files::print(HELP.as_bytes()).map(|()| DONE),
        ["--version"] => files::print(format!("job {VERSION}").as_bytes()).map(|()| DONE),
        ["check"] | ["check", _] => read_text(&Source::new(words.get(1))).map(|_| DONE),
        ["write"] | ["write", _] => write(&Source::new(words.get(1))),
        ["read"] | ["read", _] => read(&Source::new(words.get(1))),
        ["route", _, _, _, ..] => match route::drawings(&words[4..]) {
            Some(drawings) => route::run(&words[1], &words[2], &Source::new(words.get(3)), &drawings),
            None => failure(TEXT, USAGE.to_string()),
        },
        ["script", _, _] => verdict::write(&Source::new(words.get(1)), &Source::new(words.get(2))),
        ["verdict", _, _, _] => verdict::run(&words[1], &Source::new(words.get(2)), &Source::new(words.get(3))),
        _ => failure(TEXT, USAGE.to_string()),
    }
}

fn main() -> ExitCode {
    let words: Vec<OsString> = std::env::args_os().skip(1).collect();
    let status = run(&words).unwrap_or_else(|failure| {
        if !failure.message.is_empty() {
            files::complain(&failure.message);
        }
        failure.status
    });
    ExitCode::from(status)
}
