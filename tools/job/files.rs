// Input and output. Every read and every write is checked, and what cannot be done has status 4.

use crate::words::shown_name;
use std::ffi::{OsStr, OsString};
use std::io::{Error, ErrorKind, Read, Write};

// How the tool ends.
pub const DONE: u8 = 0; // for a route: found
pub const NONE: u8 = 1; // no legal route exists
pub const AT_FAULT: u8 = 1; // for a sheet: a visit is
pub const TEXT: u8 = 2; // usage, or a text or job that cannot be taken
pub const REFUSED: u8 = 3; // the planner refuses the job
pub const FAILED: u8 = 4; // input or output

pub struct Failure {
    pub status: u8,
    pub message: String, // for standard error; may be empty
}

pub fn failure<T>(status: u8, message: String) -> Result<T, Failure> {
    Err(Failure { status, message })
}

pub fn failed(file: &OsStr, error: &Error) -> Failure {
    Failure { status: FAILED, message: format!("{}: {error}", shown_name(file)) }
}

const LONGEST: u64 = 16 << 20; // bytes of a text or a job

// Where an input comes from: a file, or standard input.
pub struct Source<'a> {
    pub file: Option<&'a OsStr>,
}

impl<'a> Source<'a> {
    pub fn new(word: Option<&'a OsString>) -> Source<'a> {
        Source { file: word.map(|word| word.as_os_str()).filter(|word| *word != "-") }
    }

    pub fn name(&self) -> String {
        shown_name(self.file.unwrap_or(OsStr::new("standard input")))
    }

    pub fn read(&self) -> Result<Vec<u8>, Failure> {
        let mut bytes = Vec::new();
        let read = match self.file {
            Some(file) => std::fs::File::open(file).and_then(|f| f.take(LONGEST + 1).read_to_end(&mut bytes)),
            None => std::io::stdin().take(LONGEST + 1).read_to_end(&mut bytes),
        };
        read.map_err(|error| failed(OsStr::new(&self.name()), &error))?;
        if bytes.len() as u64 > LONGEST {
            return failure(TEXT, format!("{}: longer than {LONGEST} bytes; no plan or sheet is", self.name()));
        }
        Ok(bytes)
    }
}

// Who closes the pipe has read what was wanted: the status says that not all was written, no message does.
pub fn print(bytes: &[u8]) -> Result<(), Failure> {
    let mut out = std::io::stdout().lock();
    out.write_all(bytes).and_then(|()| out.flush()).map_err(|error| match error.kind() {
        ErrorKind::BrokenPipe => Failure { status: FAILED, message: String::new() },
        _ => failed(OsStr::new("standard output"), &error),
    })
}

// Standard error has nowhere to be reported to: the status tells.
pub fn complain(message: &str) {
    let _ = writeln!(std::io::stderr(), "{message}");
}

pub fn save(file: &OsStr, bytes: &[u8]) -> Result<(), Failure> {
    let written = std::fs::File::create(file).and_then(|mut f| f.write_all(bytes).and_then(|()| f.flush()));
    written.map_err(|error| failed(file, &error))
}
