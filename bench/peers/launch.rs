//! Runs a program, and writes its exit status, its nanoseconds and the most memory that it took, in KiB, to a file: what
//! wait4 says of a program begins with the memory of who starts it, and this takes next to none.
//!
//! usage: launch FILE PROGRAM [ARGUMENT..]
use std::fs;
use std::os::unix::process::ExitStatusExt;
use std::process::{Command, ExitStatus};
use std::time::Instant;

extern "C" {
    fn wait4(process: i32, status: *mut i32, options: i32, usage: *mut Usage) -> i32;
}

/// Linux's `struct rusage` where a long has 64 bits: two times, the most memory, and 13 more numbers.
#[repr(C)]
#[derive(Default)]
struct Usage {
    times: [i64; 4],
    most_memory: i64,
    others: [i64; 13],
}

fn main() {
    let mut words = std::env::args().skip(1);
    let file = words.next().expect("a file");
    let program = words.next().expect("a program");
    let start = Instant::now();
    let child = Command::new(program).args(words).spawn().expect("the program starts");
    let (mut status, mut usage) = (0, Usage::default());
    // SAFETY: both places are live and as large as wait4 wants them, and nothing else waits for this child.
    let waited = unsafe { wait4(child.id() as i32, &mut status, 0, &mut usage) };
    let took = start.elapsed().as_nanos();
    assert_eq!(waited, child.id() as i32, "the program was not waited for");
    let status = ExitStatus::from_raw(status).code().unwrap_or(-1);
    fs::write(file, format!("{status} {took} {}", usage.most_memory)).expect("the file is written");
}
