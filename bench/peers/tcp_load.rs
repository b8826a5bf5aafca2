//! Starts a server of connections, drives it from a few threads, and tells its figures. It is the same program for all servers.
//!
//! usage: tcp_load SERVER [WORD..]
//!
//! The server is given two more words: the port on which it is to listen, and how many connections it has to take at once. What it
//! says of a connection is docs/GUIDE.md's: `child NUMBER` first, then `N TEXT` to the line TEXT, which is its Nth.
use std::fs;
use std::io::{BufRead, BufReader, Read, Write};
use std::net::{Ipv4Addr, TcpListener, TcpStream};
use std::process::{Child, Command, Stdio};
use std::thread::{self, JoinHandle};
use std::time::{Duration, Instant};

const THREADS: usize = 4;
const MOST: usize = 2000;
const OPEN: usize = 1000;
const SOME: usize = 200;
/// How many connections are made one after another.
const SINGLES: usize = 1000;
/// How many messages go over one connection, and how many over many.
const BY_ONE: usize = 10_000;
const BY_MANY: usize = 20_000;
/// How long the server may take until it has seen what was done last.
const PAUSE: Duration = Duration::from_millis(100);

/// A connection, and how many lines it sent.
struct Connection {
    lines: BufReader<TcpStream>,
    heard: String,
    sent: u64,
}

impl Connection {
    /// Hears a line, without its end.
    fn hear(&mut self) -> &str {
        self.heard.clear();
        self.lines.read_line(&mut self.heard).expect("a line comes");
        self.heard.trim_end_matches('\n')
    }

    /// Sends a line, and hears its answer.
    fn ask(&mut self, text: &str) {
        let stream = self.lines.get_mut();
        stream.write_all(format!("{text}\n").as_bytes()).expect("the line is sent");
        self.sent += 1;
        let wanted = format!("{} {text}", self.sent);
        assert_eq!(self.hear(), wanted, "the answer");
    }
}

/// A server that runs. It ends with its owner.
struct Server {
    process: Child,
    /// The thread that reads what it says.
    said: Option<JoinHandle<String>>,
    port: u16,
    /// How many connections were made. As many children were.
    made: u64,
}

impl Server {
    /// Starts a server, and waits until it listens.
    fn start(words: &[String]) -> Server {
        let free = TcpListener::bind((Ipv4Addr::LOCALHOST, 0)).expect("a port is free");
        let port = free.local_addr().expect("it has an address").port();
        drop(free);
        let mut command = Command::new(&words[0]);
        command.args(&words[1..]).arg(port.to_string()).arg(MOST.to_string());
        let mut process = command.stdout(Stdio::piped()).spawn().expect("the server starts");
        let mut out = process.stdout.take().expect("its output is read");
        let said = Some(thread::spawn(move || {
            let mut said = String::new();
            out.read_to_string(&mut said).expect("its output is read");
            said
        }));
        let mut server = Server { process, said, port, made: 0 };
        while TcpStream::connect((Ipv4Addr::LOCALHOST, port)).is_err() {
            if let Some(ended) = server.process.try_wait().expect("the server is seen") {
                panic!("the server ended before it listened, with {}: {}", ended, server.said());
            }
            thread::sleep(Duration::from_millis(10));
        }
        server.made += 1;
        thread::sleep(PAUSE);
        server
    }

    /// Makes a connection, and hears the number of its child, which is one more than that of the connection before.
    fn connect(&mut self) -> Connection {
        let stream = TcpStream::connect((Ipv4Addr::LOCALHOST, self.port)).expect("a connection is made");
        let lines = BufReader::with_capacity(64, stream);
        let mut made = Connection { lines, heard: String::new(), sent: 0 };
        self.made += 1;
        let wanted = format!("child {}", self.made);
        assert_eq!(made.hear(), wanted, "the child of a connection");
        made
    }

    /// What it said, once it has ended.
    fn said(&mut self) -> String {
        self.said.take().and_then(|it| it.join().ok()).expect("its output was read")
    }

    /// How many bytes of memory it has.
    fn resident(&self) -> u64 {
        let text = fs::read_to_string(format!("/proc/{}/statm", self.process.id())).expect("its memory is known");
        let pages: u64 = text.split(' ').nth(1).and_then(|it| it.parse().ok()).expect("its memory is known");
        pages * 4096
    }

    /// Lets it end, and compares its account with what was done here.
    fn quit(mut self) {
        self.connect().ask("quit");
        assert!(self.process.wait().expect("it ends").success(), "the server ended with a fault");
        let said = self.said();
        let wanted = format!("{0} connections, {0} children", self.made);
        assert!(said.contains(&wanted), "the server said: {}", said);
        assert!(!said.contains("sound false"), "the server said: {}", said);
    }
}

impl Drop for Server {
    fn drop(&mut self) {
        let _ = self.process.kill();
        let _ = self.process.wait();
    }
}

/// Sends that many lines over each connection, and hears each answer before the next line of the same thread. Each thread has its
/// part of the connections, which it serves in turn. Returns how many lines were sent.
fn talk(connections: &mut [Connection], rounds: usize) -> usize {
    let part = connections.len().div_ceil(THREADS);
    thread::scope(|scope| {
        for ours in connections.chunks_mut(part) {
            scope.spawn(move || {
                for _ in 0..rounds {
                    ours.iter_mut().for_each(|it| it.ask("hello"));
                }
            });
        }
    });
    connections.len() * rounds
}

/// Tells how long a message takes over the connections that are open.
fn time_messages(connections: &mut [Connection], messages: usize) {
    let start = Instant::now();
    let sent = talk(connections, messages / connections.len());
    let took = start.elapsed().as_nanos();
    let answers: u64 = connections.iter().map(|it| it.sent).sum();
    println!("message and answer, {} open: {took} ns, {sent} times, answer {answers}", connections.len());
}

/// Tells how long it takes to connect, to hear the number of the child, and to close.
fn time_connections(server: &mut Server) {
    let start = Instant::now();
    for _ in 0..SINGLES {
        server.connect();
    }
    let took = start.elapsed().as_nanos();
    println!("connection, one after another: {took} ns, {SINGLES} times, answer {}", server.made);
}

fn main() {
    let words: Vec<String> = std::env::args().skip(1).collect();
    assert!(!words.is_empty(), "usage: tcp_load SERVER [WORD..]");
    let mut server = Server::start(&words);
    let before = server.resident();
    let mut connections: Vec<Connection> = (0..OPEN).map(|_| server.connect()).collect();
    thread::sleep(PAUSE);
    let bytes = server.resident().saturating_sub(before);
    println!("memory of an idle connection: {bytes} bytes, {OPEN} times, answer -");
    for (open, messages) in [(OPEN, BY_MANY), (SOME, BY_MANY), (1, BY_ONE)] {
        connections.truncate(open);
        thread::sleep(PAUSE);
        time_messages(&mut connections, messages);
    }
    drop(connections);
    thread::sleep(PAUSE);
    time_connections(&mut server);
    server.quit();
}
