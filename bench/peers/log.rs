//! The updates and looks of the log on an `RwLock` round a supervisor in plain Rust, and the step of a supervisor alone.
use std::hint::black_box;
use std::sync::RwLock;
use std::time::Instant;

mod supervisor;
use supervisor::{template, Answer, Restart, Supervisor};

const LOOKS: u64 = 10_000_000;
const STEPS: u64 = 1_000_000;
const ARG: &str = "session-17";

fn filled(rows: u64) -> Supervisor {
    let mut sup = Supervisor::new(template(Restart::Permanent, 1, 65_536));
    for _ in 0..rows {
        sup.start(ARG, Answer::Running);
    }
    sup
}

/// A start and the termination of what it started, in turn; `next` is the number of the next child.
fn step(sup: &mut Supervisor, next: u64, turn: u64) {
    sup.see(0);
    if turn % 2 == 1 {
        black_box(sup.terminate(next + turn / 2));
    } else {
        black_box(sup.start(ARG, Answer::Running));
    }
}

fn time_locked(rows: u64) {
    let shared = RwLock::new(filled(rows));
    let start = Instant::now();
    for turn in 0..STEPS {
        step(&mut shared.write().unwrap(), rows + 1, turn);
    }
    let took = start.elapsed().as_nanos();
    println!("append and publish one entry, {rows} rows: {took} ns, {STEPS} times, answer true");
    let mut sum = 0u64;
    let start = Instant::now();
    for _ in 0..LOOKS {
        sum = sum.wrapping_add(black_box(shared.read().unwrap().counts().active));
    }
    let took = start.elapsed().as_nanos();
    println!("look of the counts, {rows} rows: {took} ns, {LOOKS} times, answer {sum}");
}

fn time_step(rows: u64) {
    let mut sup = filled(rows);
    let start = Instant::now();
    for turn in 0..STEPS {
        step(&mut sup, rows + 1, turn);
    }
    let took = start.elapsed().as_nanos();
    println!("one step, {rows} rows: {took} ns, {STEPS} times, answer {}", sup.counts().active);
}

fn main() {
    for rows in [1, 1000, 65_535] {
        time_locked(rows);
        time_step(rows);
    }
}
