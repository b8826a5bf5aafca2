//! The same work in plain Rust: a supervisor behind an RwLock, and the standard library's queues between the driver and the
//! workers. It makes the same updates: a start for each child, a job, a body that ends at once, and an exit.
use std::hint::black_box;
use std::sync::atomic::{AtomicBool, AtomicU64, Ordering};
use std::sync::mpsc::{channel, sync_channel, Receiver, Sender, SyncSender};
use std::sync::{Mutex, RwLock};
use std::thread;
use std::time::Instant;

mod supervisor;
use supervisor::{template, Answer, Reply, Restart, Supervisor};

const CHILDREN: u64 = 65_536;

type Note = (u64, String);

#[derive(Default)]
struct Reading {
    over: AtomicBool,
    reads: AtomicU64,
    nanoseconds: AtomicU64,
}

/// Counts the children until the run is over, a thousand times between two looks at the flag.
fn read_until(supervisor: &RwLock<Supervisor>, reading: &Reading) {
    let start = Instant::now();
    let (mut reads, mut sum) = (0u64, 0u64);
    loop {
        for _ in 0..1000 {
            sum = sum.wrapping_add(supervisor.read().unwrap().counts().active);
            reads += 1;
        }
        if reading.over.load(Ordering::SeqCst) {
            break;
        }
    }
    black_box(sum);
    reading.nanoseconds.fetch_add(start.elapsed().as_nanos() as u64, Ordering::SeqCst);
    reading.reads.fetch_add(reads, Ordering::SeqCst);
}

/// Takes jobs, runs their bodies, which end at once, and posts their ends.
fn work(jobs: &Mutex<Receiver<Note>>, post: SyncSender<Note>) {
    loop {
        let job = jobs.lock().unwrap().recv();
        match job {
            Ok(note) => post.send(note).unwrap(),
            Err(_) => return,
        }
    }
}

/// Starts the children and enters their exits, up to 64 under one lock; how many exits there were.
fn drive(supervisor: &RwLock<Supervisor>, names: &[String], put_job: &Sender<Note>, inbox: &Receiver<Note>) -> u64 {
    for name in names {
        if let Reply::Started(number) = supervisor.write().unwrap().start(name, Answer::Running) {
            put_job.send((number, name.clone())).unwrap();
        }
    }
    let (mut exits, mut batch) = (0, Vec::with_capacity(64));
    while exits < CHILDREN {
        batch.extend(inbox.try_iter().take(64));
        if batch.is_empty() {
            thread::yield_now();
            continue;
        }
        let mut locked = supervisor.write().unwrap();
        for (number, _) in batch.drain(..) {
            exits += u64::from(matches!(locked.exit(number, true, |_| Answer::Running), Reply::Removed(_)));
        }
    }
    exits
}

/// The nanoseconds of one crew, and its exits.
fn run_crew(supervisor: &RwLock<Supervisor>, names: &[String], workers: usize) -> (u128, u64) {
    let start = Instant::now();
    let (put_job, jobs) = channel::<Note>();
    let jobs = Mutex::new(jobs);
    let (post, inbox) = sync_channel::<Note>(1024);
    let exits = thread::scope(|crew| {
        for _ in 0..workers {
            let post = post.clone();
            crew.spawn(|| work(&jobs, post));
        }
        drop(post);
        let exits = drive(supervisor, names, &put_job, &inbox);
        drop(put_job);
        exits
    });
    (start.elapsed().as_nanos(), exits)
}

fn measure(workers: usize, readers: usize) {
    let supervisor = RwLock::new(Supervisor::new(template(Restart::Temporary, 0, CHILDREN as usize)));
    let names: Vec<String> = (1..=CHILDREN).map(|n| format!("c{n}")).collect();
    let reading = Reading::default();
    let (took, exits) = thread::scope(|scope| {
        for _ in 0..readers {
            scope.spawn(|| read_until(&supervisor, &reading));
        }
        let ran = run_crew(&supervisor, &names, workers);
        reading.over.store(true, Ordering::SeqCst);
        ran
    });
    println!("child, {workers} workers, {readers} readers: {took} ns, {CHILDREN} times, answer {exits}");
    if readers > 0 {
        let reads = reading.reads.load(Ordering::SeqCst);
        let asked = reading.nanoseconds.load(Ordering::SeqCst);
        println!("read, {workers} workers, {readers} readers: {asked} ns, {reads} times, answer -");
    }
}

fn main() {
    for (workers, readers) in [(1, 0), (4, 0), (1, 2), (4, 2), (1, 4), (4, 4)] {
        measure(workers, readers);
    }
}
