//! A supervisor that begins, restarts and ends its children itself.
use crate::{Begun, Children, Fault, Operation, Reason, Reply, Template, Text};
use std::collections::{HashMap, VecDeque};
use std::fmt::Display;
use std::panic::{catch_unwind, AssertUnwindSafe};
use std::sync::atomic::{AtomicBool, Ordering};
use std::sync::mpsc::{channel, Receiver, Sender};
use std::sync::Arc;
use std::thread::{Builder, JoinHandle};
use std::time::{Duration, Instant};

/// Says what children are: how one begins, how they are ended, and what time it is.
pub trait Host {
    /// What the supervisor keeps of a child, such as the means to end it.
    type Child;

    /// Begins a child with this argument. It reports its end by `exit`.
    fn begin(&mut self, argument: &Text, exit: Exit) -> Begun<Self::Child>;

    /// Ends these children, each of which may have ended by itself.
    fn end(&mut self, children: Vec<Self::Child>);

    /// Returns the moment in seconds.
    fn now(&mut self) -> u64;
}

/// Reports the end of a child, once. If it is dropped before, the child crashed.
pub struct Exit {
    birth: u64,
    reason: Reason,
    to: Sender<(u64, Reason)>,
}

impl Exit {
    /// Reports that the child ended for this reason.
    pub fn report(mut self, reason: Reason) {
        self.reason = reason;
    }
}

impl Drop for Exit {
    fn drop(&mut self) {
        // (a supervisor that is gone needs no report)
        let _ = self.to.send((self.birth, self.reason));
    }
}

/// A supervisor of a host's children. It works while [`Ready::turn`] is called, and ends its children when it is dropped.
///
/// ```no_run
/// use sapyguendo::{Ready, Reply, Restart, Template, Threads};
/// use std::time::Duration;
///
/// let threads = Threads::new(|session, stop| if stop.is_asked() { Ok(()) } else { Err(format!("{session} is lost")) });
/// let mut sup = Ready::open(&Template::new(Restart::Transient, 1000), threads)?;
/// assert_eq!(sup.start("session-17")?, Reply::Started(1));
/// while !sup.is_down() {
///     for reply in sup.turn(Duration::from_secs(1))? {
///         println!("{reply}"); // restarted 1 2, and then gave_up
///     }
/// }
/// # Ok::<(), sapyguendo::Fault>(())
/// ```
pub struct Ready<H: Host> {
    host: H,
    children: Children<(u64, H::Child)>,
    // The number of each child that runs, by its birth: an exit may be reported before the child has its number.
    numbers: HashMap<u64, u64>,
    births: u64,
    exits: (Sender<(u64, Reason)>, Receiver<(u64, Reason)>),
    // The children that wait for another try, and from which moment on.
    retries: Vec<(u64, u64)>,
    // What is to be entered: the exit of a birth, or a retry of a number.
    due: VecDeque<(u64, Option<Reason>)>,
}

impl<H: Host> Ready<H> {
    /// Opens a supervisor without children, or answers [`Fault::BadTemplate`] or [`Fault::OutOfMemory`].
    pub fn open(template: &Template, host: H) -> Result<Self, Fault> {
        let children = Children::open(template)?;
        Ok(Ready { host, children, numbers: HashMap::new(), births: 0, exits: channel(), retries: Vec::new(), due: VecDeque::new() })
    }

    /// Begins a child with this argument.
    pub fn start(&mut self, argument: &str) -> Result<Reply, Fault> {
        self.enter(Operation::Start(Text::new(argument)?))
    }

    /// Ends the child with this number.
    pub fn terminate(&mut self, number: u64) -> Result<Reply, Fault> {
        self.enter(Operation::Terminate(number))
    }

    /// Ends all children, and the supervisor.
    pub fn stop(&mut self) -> Result<Reply, Fault> {
        self.enter(Operation::Stop)
    }

    /// Enters the exits that were reported and the retries that are due, and returns the replies. It waits at most this long for
    /// an exit. A restart that failed is tried again from the next second on. What a fault keeps out is entered by the next turn.
    pub fn turn(&mut self, wait: Duration) -> Result<Vec<Reply>, Fault> {
        let mut next = if self.due.is_empty() { self.exits.1.recv_timeout(wait).ok() } else { None };
        while let Some((birth, reason)) = next {
            self.due.push_back((birth, Some(reason)));
            next = self.exits.1.try_recv().ok();
        }
        let now = self.host.now();
        while let Some(at) = self.retries.iter().position(|(moment, _)| *moment <= now) {
            self.due.push_back((self.retries.remove(at).1, None));
        }
        let mut replies = Vec::new();
        while let Some((of, reason)) = self.due.front().copied() {
            let operation = match reason {
                None => Some(Operation::Retry(of)),
                // (one that was terminated has no number)
                Some(reason) => self.numbers.get(&of).map(|number| Operation::Exit(*number, reason)),
            };
            match operation.map(|operation| self.enter(operation)) {
                Some(Ok(reply)) => replies.push(reply),
                Some(Err(fault)) if replies.is_empty() => return Err(fault),
                Some(Err(_)) => break,
                None => {}
            }
            self.due.pop_front();
        }
        Ok(replies)
    }

    /// Returns what is kept of the child with this number, if it runs.
    pub fn get(&mut self, number: u64) -> Option<&mut H::Child> {
        self.children.get(number).map(|(_, child)| child)
    }

    /// Returns whether the supervisor gave up, was stopped or went down with a significant child. Its children have ended then.
    pub fn is_down(&mut self) -> bool {
        self.children.is_down()
    }

    fn enter(&mut self, operation: Operation) -> Result<Reply, Fault> {
        self.births += 1;
        let (birth, moment, host) = (self.births, self.host.now(), &mut self.host);
        let exit = || Exit { birth, reason: Reason::crash(), to: self.exits.0.clone() };
        let entered = self.children.update(moment, operation, |argument, _| match host.begin(argument, exit()) {
            Begun::Running(child) => Begun::Running((birth, child)),
            Begun::Ignore => Begun::Ignore,
            Begun::Failed(code) => Begun::Failed(code),
        });
        let (reply, over) = match entered {
            Ok(done) => (Ok(done.reply), done.old.into_iter().chain(done.left.into_iter().map(|(_, child)| child)).collect()),
            Err(refused) => (Err(refused.fault), Vec::from_iter(refused.unused)),
        };
        match reply {
            Ok(Reply::Started(number) | Reply::Restarted(_, number)) => drop(self.numbers.insert(birth, number)),
            Ok(Reply::Restarting(number, _)) => self.retries.push((moment.saturating_add(1), number)),
            _ => {}
        }
        for (birth, _) in &over {
            self.numbers.remove(birth);
        }
        self.host.end(over.into_iter().map(|(_, child)| child).collect());
        reply
    }
}

impl<H: Host> Drop for Ready<H> {
    fn drop(&mut self) {
        if self.stop().is_err() {
            let over = self.children.take_all();
            self.host.end(over.into_iter().map(|(_, child)| child).collect());
        }
    }
}

/// A host whose children are threads, each of which runs one function to its end. One that answers an error or panics has crashed.
pub struct Threads<F> {
    body: Arc<F>,
    began: Instant,
}

/// A thread that runs a child.
pub struct Thread {
    stop: Stop,
    handle: JoinHandle<()>,
}

impl Thread {
    /// Returns the thread, such as to unpark it.
    pub fn thread(&self) -> &std::thread::Thread {
        self.handle.thread()
    }
}

/// Says to a child whether it is asked to end. It is unparked then.
#[derive(Clone, Debug, Default)]
pub struct Stop(Arc<AtomicBool>);

impl Stop {
    /// Returns whether the child is asked to end.
    pub fn is_asked(&self) -> bool {
        self.0.load(Ordering::Acquire)
    }
}

impl<F> Threads<F> {
    /// Makes a host whose children run this function with their argument. It ends soon after it is asked to.
    pub fn new<E: Display>(body: F) -> Threads<F>
    where
        F: Fn(&Text, &Stop) -> Result<(), E> + Send + Sync + 'static,
    {
        Threads { body: Arc::new(body), began: Instant::now() }
    }
}

impl<F, E: Display> Host for Threads<F>
where
    F: Fn(&Text, &Stop) -> Result<(), E> + Send + Sync + 'static,
{
    type Child = Thread;

    /// Spawns a thread. If there is none, the start fails with the system's error number.
    fn begin(&mut self, argument: &Text, exit: Exit) -> Begun<Thread> {
        let (stop, body, argument) = (Stop::default(), Arc::clone(&self.body), *argument);
        let heard = stop.clone();
        let run = move || {
            exit.report(match catch_unwind(AssertUnwindSafe(|| body(&argument, &heard))) {
                Ok(Ok(())) => Reason::Normal,
                Ok(Err(error)) => Reason::from_error(error),
                Err(panic) => Reason::from_error(message_of(&*panic)),
            })
        };
        match Builder::new().name(argument.to_string()).spawn(run) {
            Ok(handle) => Begun::Running(Thread { stop, handle }),
            Err(error) => Begun::Failed(error.raw_os_error().unwrap_or(0) as u32),
        }
    }

    /// Asks the threads to end, and joins them.
    fn end(&mut self, children: Vec<Thread>) {
        for child in &children {
            child.stop.0.store(true, Ordering::Release);
            child.thread().unpark();
        }
        for child in children {
            // (what it panicked with was reported)
            let _ = child.handle.join();
        }
    }

    /// Returns the seconds since the host was made.
    fn now(&mut self) -> u64 {
        self.began.elapsed().as_secs()
    }
}

fn message_of(panic: &(dyn std::any::Any + Send)) -> &str {
    panic.downcast_ref::<&str>().copied().or_else(|| panic.downcast_ref::<String>().map(String::as_str)).unwrap_or("panic")
}
