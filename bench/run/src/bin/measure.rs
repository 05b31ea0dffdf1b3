//! Runs a program on a file of requests some times, keeps what it writes, and prints the least processor time of a run in
//! nanoseconds and the peak memory in kilobytes: `measure REQUESTS WRITTEN PROGRAM WORD..`.

use std::fs::File;
use std::io;
use std::process::Command;

const ROUNDS: usize = 7;

#[repr(C)]
#[derive(Default)]
struct Time {
    seconds: i64,
    microseconds: i64,
}

/// The C library's `struct rusage`.
#[repr(C)]
#[derive(Default)]
struct Usage {
    user: Time,
    system: Time,
    peak: i64,
    others: [i64; 13],
}

extern "C" {
    fn wait4(process: i32, status: *mut i32, options: i32, usage: *mut Usage) -> i32;
}

impl Time {
    fn nanoseconds(&self) -> i64 {
        self.seconds * 1_000_000_000 + self.microseconds * 1_000
    }
}

fn main() -> io::Result<()> {
    let words: Vec<String> = std::env::args().skip(1).collect();
    let [requests, written, program, words @ ..] = &words[..] else {
        panic!("measure REQUESTS WRITTEN PROGRAM WORD..");
    };
    let (mut least, mut peak) = (i64::MAX, 0);
    for _ in 0..ROUNDS {
        let usage = run(requests, written, program, words)?;
        least = least.min(usage.user.nanoseconds() + usage.system.nanoseconds());
        peak = peak.max(usage.peak);
    }
    println!("{least} {peak}");
    Ok(())
}

/// Runs the program once.
fn run(requests: &str, written: &str, program: &str, words: &[String]) -> io::Result<Usage> {
    let (input, output) = (File::open(requests)?, File::create(written)?);
    let child = Command::new(program).args(words).stdin(input).stdout(output).spawn()?;
    let (mut status, mut usage) = (0, Usage::default());
    // Both places live through the call, and nothing else waits for the child.
    let ended = unsafe { wait4(child.id() as i32, &mut status, 0, &mut usage) };
    assert!(ended == child.id() as i32 && status == 0, "{program} ends with status 0");
    Ok(usage)
}
