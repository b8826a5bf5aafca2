//! The same work on an `RwLock` round a supervisor in plain Rust.
use std::hint::black_box;
use std::sync::atomic::{AtomicBool, Ordering};
use std::sync::RwLock;
use std::thread;
use std::time::Instant;

mod supervisor;
use supervisor::{template, Answer, Reply, Restart, Supervisor};

/// So many that a batch's 32 children fit below the most.
const ROWS: u64 = 65_504;
const COUNTS: u64 = 2_000_000;
const PAIRS: u64 = 500_000;
const BATCHES: u64 = 10_000;
/// Where the draws begin (a shift register of 64 bits).
const SEED: u64 = 88_172_645_463_325_252;
const ARG: &str = "connection-4711";

fn count_all(shared: &RwLock<Supervisor>) -> u64 {
    let mut sum = 0u64;
    for _ in 0..COUNTS {
        let counts = shared.read().unwrap().counts();
        sum = sum.wrapping_add(black_box(counts.active));
    }
    sum
}

/// Starts a child and ends it, each under the lock once.
fn start_and_terminate(shared: &RwLock<Supervisor>) -> bool {
    let started = shared.write().unwrap().start(ARG, Answer::Running);
    match started {
        Reply::Started(number) => shared.write().unwrap().terminate(number) == Reply::Ended,
        _ => false,
    }
}

/// Makes updates until it is over. How many it made.
fn write_until(shared: &RwLock<Supervisor>, over: &AtomicBool) -> u64 {
    let mut done = 0;
    while !over.load(Ordering::SeqCst) && start_and_terminate(shared) {
        done += 2;
    }
    done
}

fn read_all(shared: &RwLock<Supervisor>, threads: usize) -> u64 {
    thread::scope(|scope| {
        let readers: Vec<_> = (0..threads).map(|_| scope.spawn(|| count_all(shared))).collect();
        readers.into_iter().map(|it| it.join().unwrap()).fold(0, u64::wrapping_add)
    })
}

/// Returns how long that many updates take, and how many were made.
fn update_all(shared: &RwLock<Supervisor>) -> (u128, u64) {
    let mut done = 0;
    let start = Instant::now();
    for _ in 0..PAIRS {
        done += 2 * u64::from(start_and_terminate(shared));
    }
    (start.elapsed().as_nanos(), done)
}

fn time_updates(shared: &RwLock<Supervisor>, handles: u64) {
    let rows = shared.read().unwrap().counts().children;
    let (took, done) = update_all(shared);
    println!("update among {rows} rows, {handles} handles: {took} ns, {} times, answer {done}", 2 * PAIRS);
}

fn time_places(shared: &RwLock<Supervisor>, handles: u64) {
    let (took, done) = update_all(shared);
    println!("update, {handles} handles made: {took} ns, {} times, answer {done}", 2 * PAIRS);
}

/// Terminations of children that are drawn at random, and starts of others in their place.
fn time_drawn(shared: &RwLock<Supervisor>, handles: u64) {
    let mut alive: Vec<u64> = shared.read().unwrap().rows.keys().copied().collect();
    alive.sort_unstable();
    let rows = alive.len() as u64;
    let (mut drawn, mut done) = (SEED, 0);
    let start = Instant::now();
    for _ in 0..PAIRS {
        drawn ^= drawn << 13;
        drawn ^= drawn >> 7;
        drawn ^= drawn << 17;
        let place = ((drawn >> 32).wrapping_mul(rows) >> 32) as usize;
        let ended = shared.write().unwrap().terminate(alive[place]) == Reply::Ended;
        if let Reply::Started(next) = shared.write().unwrap().start(ARG, Answer::Running) {
            alive[place] = next;
            done += 2 * u64::from(ended);
        }
    }
    let took = start.elapsed().as_nanos();
    println!("update at random among {rows} rows, {handles} handles: {took} ns, {} times, answer {done}", 2 * PAIRS);
}

/// Batches of 32 starts and the terminations of these children, each batch under one lock.
fn time_batches(shared: &RwLock<Supervisor>, handles: u64, rows: u64) {
    let mut ended = 0u64;
    let start = Instant::now();
    for _ in 0..BATCHES {
        let mut sup = shared.write().unwrap();
        let first = sup.made() + 1;
        for _ in 0..32 {
            black_box(sup.start(ARG, Answer::Running));
        }
        for place in 0..32 {
            ended += u64::from(sup.terminate(first + place) == Reply::Ended);
        }
    }
    let took = start.elapsed().as_nanos();
    println!("operation in a batch of 64 among {rows} rows, {handles} handles: {took} ns, {} times, answer {ended}", 64 * BATCHES);
}

fn time_reads(shared: &RwLock<Supervisor>, threads: usize, handles: u64) {
    let start = Instant::now();
    let sum = read_all(shared, threads);
    let took = start.elapsed().as_nanos();
    println!("count, {threads} threads, {handles} handles: {took} ns, {COUNTS} times, answer {sum}");
    let over = AtomicBool::new(false);
    let start = Instant::now();
    let updates = thread::scope(|scope| {
        let writer = scope.spawn(|| write_until(shared, &over));
        black_box(read_all(shared, threads));
        over.store(true, Ordering::SeqCst);
        writer.join().unwrap()
    });
    let took = start.elapsed().as_nanos();
    println!("count, {threads} threads beside a writer, {handles} handles: {took} ns, {COUNTS} times, answer -");
    println!("update beside {threads} threads that count, {handles} handles: {took} ns, {updates} times, answer -");
}

fn made() -> RwLock<Supervisor> {
    RwLock::new(Supervisor::new(template(Restart::Temporary, 1, 65_536)))
}

fn fill(shared: &RwLock<Supervisor>) {
    for _ in 0..ROWS {
        shared.write().unwrap().start(ARG, Answer::Running);
    }
}

fn main() {
    // (a lock has no handles: each desk is compared with the same work)
    for handles in [2, 16] {
        let shared = made();
        time_updates(&shared, handles);
        time_batches(&shared, handles, 0);
        fill(&shared);
        time_updates(&shared, handles);
        time_drawn(&shared, handles);
        time_batches(&shared, handles, ROWS as u64);
    }
    for handles in [2, 9, 16, 33, 65, 1024] {
        time_places(&made(), handles);
    }
    for handles in [16, 65] {
        let shared = made();
        fill(&shared);
        for threads in [1, 2, 4] {
            time_reads(&shared, threads, handles);
        }
    }
}
