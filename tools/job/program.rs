// A proved program run on an input.

use crate::files::{failed, Failure, FAILED};
use crate::words::shown_name;
use std::ffi::OsStr;
use std::io::{ErrorKind, Write};
use std::process::{Command, Stdio};

// What the program prints. Its status is 0 whatever happens, so a line on standard error counts as a failure.
pub fn printed(program: &OsStr, input: &[u8]) -> Result<String, Failure> {
    let broken = |what: String| Failure { status: FAILED, message: format!("{}: {what}", shown_name(program)) };
    let piped = || Stdio::piped();
    let mut child = Command::new(program)
        .stdin(piped())
        .stdout(piped())
        .stderr(piped())
        .spawn()
        .map_err(|error| failed(program, &error))?;
    let sent = child.stdin.take().unwrap().write_all(input);
    let output = child.wait_with_output().map_err(|error| failed(program, &error))?;
    let said = String::from_utf8_lossy(&output.stderr);
    if let Some(line) = said.lines().next() {
        return Err(broken(format!("it says: {}", shown_name(OsStr::new(line)))));
    }
    if !output.status.success() {
        return Err(broken(format!("it ended with {}", output.status)));
    }
    match sent {
        // the program ends as soon as its input is decided
        Err(error) if error.kind() != ErrorKind::BrokenPipe => Err(failed(program, &error)),
        _ => String::from_utf8(output.stdout).map_err(|_| broken("what it printed is no text".to_string())),
    }
}
