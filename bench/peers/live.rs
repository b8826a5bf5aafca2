//! The same work in plain Rust: a supervisor behind an RwLock, a driver thread that enters exits, and children that are reached
//! by their numbers.
//!
//! Children are states behind mailboxes: whoever sends to one that is idle queues it, and four worker threads run what is queued.
//! A thread a child with a channel of std is the plainer program, but not for 65,536 children: the system has not as many
//! threads. So that is a program of its own, for 1,000 (`live 1000 threads`).
use std::collections::{HashMap, VecDeque};
use std::sync::atomic::{AtomicU64, Ordering};
use std::sync::mpsc::{channel, sync_channel, Receiver, Sender, SyncSender};
use std::sync::{Arc, Condvar, Mutex, RwLock};
use std::thread;
use std::time::{Duration, Instant};

mod supervisor;
use supervisor::{template, Answer, Reply, Restart, Supervisor};

const SINGLES: u64 = 1000;
const ASKED: u64 = 20_000;
const COUNTS: u64 = 1_000_000;
const SENT: u64 = 400_000;
const WORKERS: usize = 4;
const IDLE: u64 = 2;
const MOST: u64 = 65_536;

enum Message {
    Ask(SyncSender<u64>),
    Count(u64),
    End,
    Crash,
}

/// Events of which one thread waits for the last.
#[derive(Default)]
struct Tally {
    seen: AtomicU64,
    wanted: AtomicU64,
    lock: Mutex<()>,
    bell: Condvar,
}

impl Tally {
    fn want(&self, more: u64) {
        self.wanted.fetch_add(more, Ordering::SeqCst);
    }

    fn is_full(&self) -> bool {
        self.seen.load(Ordering::SeqCst) >= self.wanted.load(Ordering::SeqCst)
    }

    fn add(&self) {
        if self.seen.fetch_add(1, Ordering::SeqCst) + 1 == self.wanted.load(Ordering::SeqCst) {
            let _guard = self.lock.lock().unwrap();
            self.bell.notify_one();
        }
    }

    fn wait(&self) {
        let mut guard = self.lock.lock().unwrap();
        while !self.is_full() {
            guard = self.bell.wait(guard).unwrap();
        }
    }
}

#[derive(Default)]
struct Board {
    began: Tally,
    heard: Tally,
}

/// How a child ended.
#[derive(Clone, Copy, PartialEq)]
enum End {
    Normal,
    Crash,
}

/// What a child does with a message, and how it ends by it.
#[derive(Default)]
struct State {
    asked: u64,
    counted: u64,
}

impl State {
    fn hear(&mut self, board: &Board, message: Message) -> Option<End> {
        match message {
            Message::Ask(answer) => {
                self.asked += 1;
                let _ = answer.send(self.asked);
                None
            }
            Message::Count(all) => {
                self.counted += 1;
                if self.counted == all {
                    board.heard.add();
                }
                None
            }
            Message::End => Some(End::Normal),
            Message::Crash => Some(End::Crash),
        }
    }
}

/// The thread that runs children.
trait Runs: Send + Sync {
    fn begin(&self, number: u64);
    /// Whether the child was there.
    fn send(&self, number: u64, message: Message) -> bool;
}

/// A child of the pool. It is queued, or run, by at most one at a time.
struct Child {
    number: u64,
    inner: Mutex<Inner>,
}

#[derive(Default)]
struct Inner {
    mailbox: VecDeque<Message>,
    is_queued: bool,
    is_running: bool,
    state: State,
}

/// Children as states behind mailboxes.
struct Pool {
    board: Arc<Board>,
    children: RwLock<HashMap<u64, Arc<Child>>>,
    queue: Mutex<Sender<Arc<Child>>>,
    exits: Mutex<Sender<(u64, End)>>,
}

impl Runs for Pool {
    fn begin(&self, number: u64) {
        let inner = Mutex::new(Inner { is_queued: true, ..Inner::default() });
        let child = Arc::new(Child { number, inner });
        self.children.write().unwrap().insert(number, child.clone());
        self.queue.lock().unwrap().send(child).unwrap();
    }

    fn send(&self, number: u64, message: Message) -> bool {
        let Some(child) = self.children.read().unwrap().get(&number).cloned() else {
            return false;
        };
        let mut inner = child.inner.lock().unwrap();
        inner.mailbox.push_back(message);
        if !inner.is_queued {
            inner.is_queued = true;
            drop(inner);
            self.queue.lock().unwrap().send(child).unwrap();
        }
        true
    }
}

impl Pool {
    /// Takes one message after another, up to 128 of them; a child that has more is queued again.
    fn run(&self, child: Arc<Child>) {
        let mut inner = child.inner.lock().unwrap();
        if !inner.is_running {
            inner.is_running = true;
            self.board.began.add();
        }
        for _ in 0..128 {
            let Some(message) = inner.mailbox.pop_front() else {
                inner.is_queued = false;
                return;
            };
            if let Some(end) = inner.state.hear(&self.board, message) {
                drop(inner);
                self.children.write().unwrap().remove(&child.number);
                self.exits.lock().unwrap().send((child.number, end)).unwrap();
                return;
            }
        }
        drop(inner);
        self.queue.lock().unwrap().send(child).unwrap();
    }

    fn work(&self, queue: &Mutex<Receiver<Arc<Child>>>) {
        loop {
            let next = queue.lock().unwrap().recv();
            match next {
                Ok(child) => self.run(child),
                Err(_) => return,
            }
        }
    }
}

/// A thread for each child.
struct Threads {
    board: Arc<Board>,
    children: RwLock<HashMap<u64, Sender<Message>>>,
    exits: Mutex<Sender<(u64, End)>>,
}

impl Runs for Threads {
    fn begin(&self, number: u64) {
        let (sender, mailbox) = channel();
        let (board, exits) = (self.board.clone(), self.exits.lock().unwrap().clone());
        self.children.write().unwrap().insert(number, sender);
        thread::spawn(move || {
            board.began.add();
            let mut state = State::default();
            for message in mailbox {
                if let Some(end) = state.hear(&board, message) {
                    exits.send((number, end)).unwrap();
                    return;
                }
            }
        });
    }

    fn send(&self, number: u64, message: Message) -> bool {
        match self.children.read().unwrap().get(&number) {
            Some(child) => child.send(message).is_ok(),
            None => false,
        }
    }
}

/// Enters the exits, and runs what is restarted, until there is no child that could send one.
fn drive(supervisor: &RwLock<Supervisor>, runs: &dyn Runs, clock: Instant, exits: &Receiver<(u64, End)>) {
    for (number, end) in exits {
        let mut locked = supervisor.write().unwrap();
        locked.see(clock.elapsed().as_secs());
        let reply = locked.exit(number, end == End::Normal, |_| Answer::Running);
        drop(locked);
        if let Reply::Restarted(_, number) = reply {
            runs.begin(number);
        }
    }
}

fn tell(what: &str, alive: u64, took: Duration, times: u64, answer: u64) {
    println!("{what}, {alive} alive: {} ns, {times} times, answer {answer}", took.as_nanos());
}

fn tell_loose(what: &str, alive: u64, took: Duration, times: u64) {
    println!("{what}, {alive} alive: {} ns, {times} times, answer -", took.as_nanos());
}

fn resident() -> u64 {
    let text = std::fs::read_to_string("/proc/self/statm").unwrap();
    text.split(' ').nth(1).unwrap().parse::<u64>().unwrap() * 4096
}

/// The processor time of all threads, in nanoseconds.
fn processor_time() -> u64 {
    let tasks = std::fs::read_dir("/proc/self/task").unwrap().flatten();
    let texts = tasks.flat_map(|task| std::fs::read_to_string(task.path().join("schedstat")));
    texts.map(|text| text.split(' ').next().unwrap().parse::<u64>().unwrap()).sum()
}

/// What is timed, by one thread.
struct Timing<'a> {
    supervisor: &'a RwLock<Supervisor>,
    runs: &'a dyn Runs,
    board: &'a Board,
    clock: Instant,
    alive: u64,
    /// Whether the messages are not sent once more, between counts.
    is_short: bool,
}

impl Timing<'_> {
    fn start(&self) {
        let mut locked = self.supervisor.write().unwrap();
        locked.see(self.clock.elapsed().as_secs());
        let reply = locked.start("session-17", Answer::Running);
        drop(locked);
        match reply {
            Reply::Started(number) => self.runs.begin(number),
            _ => panic!("no child was started"),
        }
    }

    fn send(&self, number: u64, message: Message) {
        assert!(self.runs.send(number, message), "a child is not there");
    }

    fn count(&self) -> u64 {
        self.supervisor.read().unwrap().counts().active
    }

    fn await_count(&self, wanted: u64) {
        while self.count() != wanted {
            thread::yield_now();
        }
    }

    fn time_starts(&self) {
        let (before, start) = (resident(), Instant::now());
        self.board.began.want(self.alive);
        (0..self.alive).for_each(|_| self.start());
        self.board.began.wait();
        tell("start, all at once", self.alive, start.elapsed(), self.alive, self.count());
        thread::sleep(Duration::from_millis(100));
        let bytes = resident().saturating_sub(before);
        println!("memory of an idle child, {0} alive: {bytes} bytes, {0} times, answer -", self.alive);
    }

    fn time_idle(&self) {
        let before = processor_time();
        thread::sleep(Duration::from_secs(IDLE));
        let took = Duration::from_nanos(processor_time() - before);
        tell("processor time of an idle second", self.alive, took, IDLE, self.alive);
    }

    fn time_counts(&self) {
        let start = Instant::now();
        let sum: u64 = (0..COUNTS).map(|_| self.count()).sum();
        assert_eq!(sum, COUNTS * self.alive);
        tell_loose("count, all idle", self.alive, start.elapsed(), COUNTS);
    }

    fn ask(&self, number: u64) -> u64 {
        let (sender, receiver) = sync_channel(1);
        self.send(number, Message::Ask(sender));
        receiver.recv().unwrap()
    }

    fn time_answers(&self) {
        let start = Instant::now();
        let sum = (0..ASKED).map(|turn| self.ask(turn * 617 % self.alive + 1)).sum();
        tell("message and answer", self.alive, start.elapsed(), ASKED, sum);
    }

    fn each(&self) -> u64 {
        (SENT / self.alive).max(4)
    }

    fn time_sends(&self) {
        let each = self.each();
        self.board.heard.want(self.alive);
        let start = Instant::now();
        for _ in 0..each {
            (1..=self.alive).for_each(|number| self.send(number, Message::Count(each)));
        }
        self.board.heard.wait();
        let sent = each * self.alive;
        tell("message, until all are heard", self.alive, start.elapsed(), sent, sent);
    }

    /// Sends as much again, and counts the children a hundred times between a thousand messages. Only the counts are timed.
    fn time_counts_beside(&self) {
        let each = self.each();
        self.board.heard.want(self.alive);
        let (mut took, mut counts, mut sent) = (Duration::ZERO, 0, 0);
        for _ in 0..each {
            for number in 1..=self.alive {
                self.send(number, Message::Count(each * 2));
                sent += 1;
                if sent % 1000 == 0 {
                    let start = Instant::now();
                    counts += (0..100).filter(|_| self.count() == self.alive).count() as u64;
                    took += start.elapsed();
                }
            }
        }
        self.board.heard.wait();
        tell_loose("count beside messages", self.alive, took, counts);
    }

    fn time_restarts(&self) {
        let start = Instant::now();
        for number in 1..=SINGLES {
            self.board.began.want(1);
            self.send(number, Message::Crash);
            self.board.began.wait();
        }
        tell("crash and restart, one at a time", self.alive, start.elapsed(), SINGLES, self.count());
    }

    fn time_single_exits(&self) {
        let start = Instant::now();
        for place in 1..=SINGLES {
            self.send(SINGLES + place, Message::End);
            self.await_count(self.alive - place);
        }
        tell("exit, one at a time", self.alive, start.elapsed(), SINGLES, self.count());
    }

    fn time_single_starts(&self) {
        let (all, mut making) = (Instant::now(), Duration::ZERO);
        for _ in 0..SINGLES {
            self.board.began.want(1);
            let one = Instant::now();
            self.start();
            making += one.elapsed();
            self.board.began.wait();
        }
        let (took, active) = (all.elapsed(), self.count());
        tell("start, one at a time", self.alive, making, SINGLES, active);
        tell("start and first turn, one at a time", self.alive, took, SINGLES, active);
    }

    fn time_exits(&self) {
        let start = Instant::now();
        (1..=self.alive).for_each(|place| self.send(2 * SINGLES + place, Message::End));
        self.await_count(0);
        tell("exit, all at once", self.alive, start.elapsed(), self.alive, self.count());
    }

    fn time_all(&self) {
        self.time_starts();
        if self.alive == MOST {
            self.time_idle();
        }
        self.time_counts();
        self.time_answers();
        self.time_sends();
        if !self.is_short {
            self.time_counts_beside();
        }
        self.time_restarts();
        self.time_single_exits();
        self.time_single_starts();
        self.time_exits();
    }
}

fn main() {
    let words: Vec<String> = std::env::args().collect();
    let alive: u64 = words[1].parse().expect("how many are alive");
    let board = Arc::new(Board::default());
    let (post, exits) = channel();
    let (put, queue) = channel();
    let (exits_in, queue) = (Mutex::new(post), Mutex::new(queue));
    let children = RwLock::new(HashMap::new());
    let pool = Pool { board: board.clone(), children, queue: Mutex::new(put), exits: exits_in };
    let threads = Threads {
        board: board.clone(),
        children: RwLock::new(HashMap::new()),
        exits: Mutex::new(pool.exits.lock().unwrap().clone()),
    };
    let is_short = words.len() > 2;
    let runs: &dyn Runs = if is_short { &threads } else { &pool };
    let supervisor = RwLock::new(Supervisor::new(template(Restart::Transient, SINGLES as usize, 65_536)));
    let clock = Instant::now();
    let supervisor = &supervisor;
    thread::scope(|scope| {
        for _ in 0..WORKERS {
            scope.spawn(|| pool.work(&queue));
        }
        scope.spawn(move || drive(supervisor, runs, clock, &exits));
        Timing { supervisor, runs, board: &board, clock, alive, is_short }.time_all();
        // (the workers and the driver wait for more)
        std::process::exit(0);
    });
}
