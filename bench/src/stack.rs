//! Stack bytes of a call: the stack below it is filled with one byte, and the deepest byte that the call changed is
//! looked up afterwards. A call with a known array on its stack must give that array's size back.

use crate::ours::Ours;
use crate::problem::{Crossing, Problem};
use std::hint::black_box;

/// Bytes filled below the caller. A call that reaches deeper changes the lowest one, and is reported as such.
const DEPTH: usize = 256 * 1024;

/// The x86-64 ABI's red zone: a function without calls of its own may use this much below the stack pointer.
const RED_ZONE: usize = 128;

const FILL: u8 = 0xA5;

/// Bytes of stack that `call` takes, its return address included. None where it took more than DEPTH.
/// Not inlined, so that filling, call and look have one stack pointer.
#[inline(never)]
fn stack_of(call: &mut dyn FnMut()) -> Option<usize> {
    let top: usize;
    // SAFETY: this thread's stack has room for DEPTH bytes below (`run`), and nothing of ours lies past the red zone.
    unsafe {
        std::arch::asm!(
            "lea rdi, [rsp - {depth}]",
            "mov rcx, {count}",
            "rep stosb",
            "mov {top}, rsp",
            depth = const DEPTH,
            count = const DEPTH - RED_ZONE,
            top = out(reg) top,
            inout("al") FILL => _,
            out("rdi") _,
            out("rcx") _,
            options(nostack)
        );
    }
    call();
    // SAFETY: the bytes lie in this thread's stack; they are only read.
    let changed = |depth: &usize| unsafe { ((top - depth) as *const u8).read_volatile() } != FILL;
    (RED_ZONE + 1..=DEPTH).rev().find(changed).filter(|depth| *depth < DEPTH)
}

/// A call with an array of N bytes on its stack.
#[inline(never)]
fn with_array<const N: usize>() {
    black_box(&mut [0u8; N]);
}

/// The measure itself: an array of N bytes is seen, with at most 256 bytes more.
fn sees<const N: usize>() -> bool {
    stack_of(&mut || with_array::<N>()).is_some_and(|bytes| (N..=N + 256).contains(&bytes))
}

/// A call on a loaded problem, with the visits lent or with none.
type Call = fn(&mut Ours, &Problem, bool);

fn route(ours: &mut Ours, p: &Problem, room: bool) {
    black_box(if room { ours.route(black_box(p)) } else { ours.no_room(black_box(p)) });
}

fn crossing(ours: &mut Ours, p: &Problem, room: bool) {
    black_box(if room { ours.crossing(black_box(p)) } else { ours.crossing_no_room(black_box(p)) });
}

/// The least and the most over these plans, with the visits lent and with none; as nets between two clocks they have equal
/// periods and a FIFO like the register.
fn range(ours: &mut Ours, problems: &[Problem], call: Call) -> Option<(usize, usize)> {
    let mut range = (usize::MAX, 0);
    for p in problems {
        ours.load_crossing(p, &Crossing { source_period: p.period, fifo: p.register });
        for room in [true, false] {
            let bytes = stack_of(&mut || call(ours, p, room))?;
            range = (range.0.min(bytes), range.1.max(bytes));
        }
    }
    Some(range)
}

fn measure(groups: &[(&str, Vec<Problem>)]) -> bool {
    if !(sees::<4096>() && sees::<65536>()) {
        println!("the measure does not see an array of known size");
        return false;
    }
    let mut ours = Ours::new();
    for (what, call) in [("route", route as Call), ("crossing", crossing)] {
        for (name, problems) in groups {
            let Some((least, most)) = range(&mut ours, problems, call) else {
                println!("{name}: a {what} call takes more than {DEPTH} bytes");
                return false;
            };
            println!("stack of a {what} call, {name} ({} plans): {least} to {most} bytes", problems.len());
        }
    }
    true
}

/// Each group of plans has a line for each call.
pub fn run(groups: Vec<(&'static str, Vec<Problem>)>) -> bool {
    let thread = std::thread::Builder::new().stack_size(8 * DEPTH);
    thread.spawn(move || measure(&groups)).is_ok_and(|t| t.join().unwrap_or(false))
}
