// Runs a program on input that does not come whole, or on output that is not taken at once; what it writes passes through.
//   feed pieces SIZE PROGRAM FILE         the file in pieces of so many bytes, then the end
//   feed interrupted TIMES PROGRAM FILE   half of the file, so many interrupted reads, the other half, the end
//   feed broken BYTES PROGRAM FILE        the file's first bytes, then a read that fails
//   feed blocked TIMES PROGRAM FILE       the whole file; its output is taken only after so many interrupted writes

use std::io::{Read, Write};
use std::os::fd::OwnedFd;
use std::os::unix::net::UnixStream;
use std::process::{Child, Command, ExitCode, Stdio};
use std::thread::sleep;
use std::time::Duration;

fn pause(milliseconds: u64) {
    sleep(Duration::from_millis(milliseconds));
}

fn signal(child: &Child, name: &str) {
    let sent = Command::new("kill").args([name, &child.id().to_string()]).status();
    assert!(sent.is_ok_and(|status| status.success()), "kill {name}");
}

// A read or write that waits on a socket with a timeout gives EINTR when its process is stopped and goes on.
fn interrupt(child: &Child) {
    pause(20);
    signal(child, "-STOP");
    pause(20);
    signal(child, "-CONT");
    pause(20);
}

fn code(child: &mut Child) -> ExitCode {
    let status = child.wait().expect("the program ends");
    ExitCode::from(status.code().unwrap_or(255) as u8)
}

fn blocked(times: usize, program: &str, file: &str) -> ExitCode {
    let input = std::fs::File::open(file).expect("the file is opened");
    let (theirs, mut ours) = UnixStream::pair().expect("a pair of sockets");
    theirs.set_write_timeout(Some(Duration::from_secs(60))).expect("a timeout");
    let output = Stdio::from(OwnedFd::from(theirs));
    let mut child = Command::new(program).stdin(input).stdout(output).spawn().expect("the program starts");
    pause(100);
    (0..times).for_each(|_| interrupt(&child));
    let mut bytes = Vec::new();
    ours.read_to_end(&mut bytes).expect("the output is read");
    std::io::stdout().write_all(&bytes).expect("standard output");
    code(&mut child)
}

fn main() -> ExitCode {
    let words: Vec<String> = std::env::args().skip(1).collect();
    let [mode, number, program, file] = &words[..] else {
        eprintln!("usage: feed pieces|interrupted|broken|blocked NUMBER PROGRAM FILE");
        return ExitCode::from(2);
    };
    let number: usize = number.parse().expect("a number");
    if mode == "blocked" {
        return blocked(number, program, file);
    }
    let bytes = std::fs::read(file).expect("the file is read");
    let (theirs, mut ours) = UnixStream::pair().expect("a pair of sockets");
    theirs.set_read_timeout(Some(Duration::from_secs(60))).expect("a timeout");
    (&theirs).write_all(&[0]).expect("a byte towards us: while it is unread, closing our side breaks theirs");
    let mut child = Command::new(program).stdin(Stdio::from(OwnedFd::from(theirs))).spawn().expect("the program starts");
    let mut send = |part: &[u8]| {
        let _ = ours.write_all(part); // a program that has read enough may have ended
    };
    match mode.as_str() {
        "pieces" => bytes.chunks(number).for_each(|piece| {
            send(piece);
            sleep(Duration::from_micros(200));
        }),
        "interrupted" => {
            let (first, last) = bytes.split_at(bytes.len() / 2);
            send(first);
            (0..number).for_each(|_| interrupt(&child));
            send(last);
        }
        _ => {
            send(&bytes[..number.min(bytes.len())]);
            pause(50);
        }
    }
    if mode != "broken" {
        ours.read_exact(&mut [0]).expect("the waiting byte");
    }
    drop(ours);
    code(&mut child)
}
