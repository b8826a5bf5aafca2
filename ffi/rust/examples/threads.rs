//! 500 children, each a thread: 200 of them crash once and are restarted, 100 end, the starts of 3 restarts fail and are tried again,
//! and then one crashes too often: all end, and are joined.
use sapyguendo::{Begun, Exit, Fault, Host, Ready, Reply, Restart, Stop, Template, Text, Thread, Threads};
use std::sync::atomic::{AtomicUsize, Ordering};
use std::time::Duration;

static CRASHES: AtomicUsize = AtomicUsize::new(0);
static OVER: AtomicUsize = AtomicUsize::new(0);

/// What a child does, by the first letter of its name.
fn work(name: &Text, stop: &Stop) -> Result<(), String> {
    match name.as_bytes()[0] {
        b'c' if CRASHES.fetch_add(1, Ordering::SeqCst) < 200 => panic!("{name} has crashed"),
        b'e' => return Ok(()),
        b'w' => return Err("at once".into()),
        _ => {}
    }
    while !stop.is_asked() {
        std::thread::park();
    }
    OVER.fetch_add(1, Ordering::SeqCst);
    Ok(())
}

// ---- the supervisor

/// Threads, whose starts fail 3 times once all have crashed.
struct Flaky<H>(H, u32);

impl<H: Host<Child = Thread>> Host for Flaky<H> {
    type Child = Thread;

    fn begin(&mut self, name: &Text, exit: Exit) -> Begun<Thread> {
        if name.starts_with('c') && CRASHES.load(Ordering::SeqCst) >= 200 && self.1 > 0 {
            self.1 -= 1;
            return Begun::Failed(11);
        }
        self.0.begin(name, exit)
    }

    fn end(&mut self, children: Vec<Thread>) {
        self.0.end(children);
    }

    fn now(&mut self) -> u64 {
        self.0.now()
    }
}

fn main() -> Result<(), Fault> {
    std::panic::set_hook(Box::new(|_| {}));
    let template = Template { intensity: 300, ..Template::new(Restart::Transient, 1000) };
    let mut sup = Ready::open(&template, Flaky(Threads::new(work), 3))?;
    for child in 0..499 {
        let kind = if child < 200 { 'c' } else if child < 300 { 'e' } else { 'p' };
        assert!(matches!(sup.start(&format!("{kind}-{child}"))?, Reply::Started(_)));
    }
    let (mut restarted, mut failed, mut removed) = (0, 0, 0);
    while (restarted, removed) != (200, 100) {
        for reply in sup.turn(Duration::from_millis(100))? {
            restarted += matches!(reply, Reply::Restarted(..)) as u32;
            failed += matches!(reply, Reply::Restarting(..)) as u32;
            removed += matches!(reply, Reply::Removed(_)) as u32;
        }
    }
    let _ = sup.start("w-499")?;
    while !sup.is_down() {
        let _ = sup.turn(Duration::from_millis(100))?;
    }
    println!("{restarted} restarted, {failed} failed, {removed} removed, {} joined", OVER.load(Ordering::SeqCst));
    Ok(())
}
