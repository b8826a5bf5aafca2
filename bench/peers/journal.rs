//! The same work on an `RwLock` round a supervisor in plain Rust, which writes a line for each entry before the lock is let go.
use std::fmt::Write as _;
use std::fs::File;
use std::io::{self, BufWriter, Write};
use std::sync::RwLock;
use std::time::Instant;

mod supervisor;
use supervisor::{template, Answer, Reply, Restart, Supervisor};

const PAIRS: u64 = 500_000;
const BATCHES: u64 = 10_000;
const UPDATES: u64 = 2 * PAIRS;
const OPERATIONS: u64 = 64 * BATCHES;
const ARG: &str = "connection-4711";

/// A supervisor with the text that is to be written, and where to, if anywhere.
struct Kept<W: Write> {
    supervisor: Supervisor,
    file: Option<W>,
    text: String,
    serial: u64,
}

impl<W: Write> Kept<W> {
    fn new(file: Option<W>) -> Self {
        let mut kept = Kept { supervisor: made(), file, text: String::new(), serial: 0 };
        kept.text.push_str("history 2 temporary worker 1 5 65536 plain never\n");
        kept.write();
        kept
    }

    fn start(&mut self) -> Reply {
        if self.file.is_some() {
            writeln!(self.text, "1 {} 0 start {ARG} running", self.serial).unwrap();
        }
        self.serial += 1;
        self.supervisor.start(ARG, Answer::Running)
    }

    fn terminate(&mut self, number: u64) -> Reply {
        if self.file.is_some() {
            writeln!(self.text, "1 {} 0 terminate {number} ignore", self.serial).unwrap();
        }
        self.serial += 1;
        self.supervisor.terminate(number)
    }

    fn write(&mut self) {
        if let Some(file) = &mut self.file {
            file.write_all(self.text.as_bytes()).unwrap();
            self.text.clear();
        }
    }
}

fn made() -> Supervisor {
    Supervisor::new(template(Restart::Temporary, 1, 65_536))
}

fn time_updates<W: Write>(says: &str, file: Option<W>) {
    let shared = RwLock::new(Kept::new(file));
    let start = Instant::now();
    for _ in 0..PAIRS {
        let started = {
            let mut kept = shared.write().unwrap();
            let reply = kept.start();
            kept.write();
            reply
        };
        let Reply::Started(number) = started else { panic!("a child is started") };
        let mut kept = shared.write().unwrap();
        kept.terminate(number);
        kept.write();
    }
    println!("update {says}: {} ns, {UPDATES} times, answer -", start.elapsed().as_nanos());
}

fn time_batches<W: Write>(says: &str, file: Option<W>) {
    let shared = RwLock::new(Kept::new(file));
    let start = Instant::now();
    for _ in 0..BATCHES {
        let mut kept = shared.write().unwrap();
        let first = kept.supervisor.made() + 1;
        for _ in 0..32 {
            kept.start();
        }
        for place in 0..32 {
            kept.terminate(first + place);
        }
        kept.write();
    }
    let taken = start.elapsed().as_nanos();
    println!("operation in a batch of 64 {says}: {taken} ns, {OPERATIONS} times, answer -");
}

/// Steps a supervisor by a line, of which the operations are those of this program.
fn step(supervisor: &mut Supervisor, line: &str) {
    let words: Vec<&str> = line.split(' ').collect();
    match words[3] {
        "start" => {
            supervisor.start(words[4], Answer::Running);
        }
        _ => {
            supervisor.terminate(words[4].parse().unwrap());
        }
    }
}

fn time_recovery(text: &str) {
    let start = Instant::now();
    let mut supervisor = made();
    let mut count = 0;
    for line in text.lines().skip(1) {
        step(&mut supervisor, line);
        count += 1;
    }
    println!("entry recovered: {} ns, {UPDATES} times, answer {count}", start.elapsed().as_nanos());
}

fn main() -> io::Result<()> {
    let path = std::env::args().nth(1).expect("a path");
    time_updates("without a journal", None::<File>);
    time_batches("without a journal", None::<File>);
    time_batches("with a journal", Some(File::create(&path)?));
    time_updates("with a journal through a buffer", Some(BufWriter::new(File::create(&path)?)));
    time_updates("with a journal", Some(File::create(&path)?));
    time_recovery(&std::fs::read_to_string(&path)?);
    Ok(())
}
