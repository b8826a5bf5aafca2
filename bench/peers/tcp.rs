//! The same server in plain Rust: a thread for each connection, and a supervisor under a lock.
//!
//! usage: tcp PORT MOST
use std::io::{self, BufRead, BufReader, Write};
use std::net::{Ipv4Addr, TcpListener, TcpStream};
use std::sync::atomic::{AtomicBool, Ordering};
use std::sync::{Arc, Mutex};
use std::thread;
use std::time::Instant;

mod supervisor;
use supervisor::{template, Answer, Reply, Restart, Supervisor, Template};

/// What the threads share.
struct Server {
    port: u16,
    clock: Instant,
    supervisor: Mutex<Supervisor>,
    quits: AtomicBool,
}

impl Server {
    fn start(&self) -> Reply {
        let mut locked = self.supervisor.lock().unwrap();
        locked.see(self.clock.elapsed().as_secs());
        locked.start("connection", Answer::Running)
    }

    fn exit(&self, number: u64, is_clean: bool) -> Reply {
        let mut locked = self.supervisor.lock().unwrap();
        locked.see(self.clock.elapsed().as_secs());
        locked.exit(number, is_clean, |_| Answer::Running)
    }

    /// Lets the thread that accepts connections see that it is to end, by one connection more.
    fn quit(&self) {
        self.quits.store(true, Ordering::SeqCst);
        let _ = TcpStream::connect((Ipv4Addr::LOCALHOST, self.port));
    }

    /// A session. Returns whether it ended as its connection did, and did not crash.
    fn session(&self, number: u64, lines: &mut BufReader<TcpStream>) -> io::Result<bool> {
        lines.get_mut().write_all(format!("child {number}\n").as_bytes())?;
        let mut line = String::new();
        for count in 1u64.. {
            line.clear();
            match lines.read_line(&mut line)? {
                0 => break,
                _ if line == "crash\n" => return Ok(false),
                _ => lines.get_mut().write_all(format!("{count} {line}").as_bytes())?,
            }
            if line == "quit\n" {
                self.quit();
            }
        }
        Ok(true)
    }

    /// The sessions of a connection: one after another, as long as they crash and are restarted.
    fn serve(&self, mut number: u64, stream: TcpStream) {
        let mut lines = BufReader::with_capacity(4096, stream);
        loop {
            let is_clean = self.session(number, &mut lines).unwrap_or(true);
            let Reply::Restarted(_, next) = self.exit(number, is_clean) else {
                return;
            };
            number = next;
        }
    }
}

fn main() -> io::Result<()> {
    let mut words = std::env::args().skip(1);
    let port = words.next().expect("a port").parse().expect("a port");
    let most = words.next().expect("a number").parse().expect("a number");
    let rules = Template { period: 60, ..template(Restart::Transient, 1000, most) };
    let supervisor = Mutex::new(Supervisor::new(rules));
    let server = Arc::new(Server { port, clock: Instant::now(), supervisor, quits: AtomicBool::new(false) });
    let listener = TcpListener::bind((Ipv4Addr::LOCALHOST, port))?;
    let mut accepted = 0;
    for stream in listener.incoming() {
        let mut stream = stream?;
        if server.quits.load(Ordering::SeqCst) {
            break;
        }
        accepted += 1;
        match server.start() {
            Reply::Started(number) => {
                let server = server.clone();
                thread::spawn(move || server.serve(number, stream));
            }
            _ => stream.write_all(b"refused\n")?,
        }
    }
    let made = server.supervisor.lock().unwrap().made();
    println!("{accepted} connections, {made} children");
    Ok(())
}
