//! The ready supervisor: over a host that is a table, and over threads.
use sapyguendo::{Begun, Exit, Fault, Host, Ready, Reason, Reply, Restart, Stop, Template, Text, Threads};
use std::cell::{Cell, RefCell};
use std::rc::Rc;
use std::sync::atomic::{AtomicUsize, Ordering};
use std::sync::Arc;
use std::time::{Duration, Instant};

const NO_WAIT: Duration = Duration::ZERO;

/// A host whose children are entries of a table.
#[derive(Clone, Default)]
struct Table {
    exits: Rc<RefCell<Vec<Option<Exit>>>>,
    ended: Rc<RefCell<Vec<usize>>>,
    fails: Rc<Cell<bool>>,
    now: Rc<Cell<u64>>,
}

impl Table {
    fn exit(&self, child: usize, reason: Reason) {
        self.exits.borrow_mut()[child].take().unwrap().report(reason);
    }
}

impl Host for Table {
    type Child = usize;

    fn begin(&mut self, argument: &Text, exit: Exit) -> Begun<usize> {
        if argument.as_str() == "ignored" {
            return Begun::Ignore;
        }
        if self.fails.get() {
            return Begun::Failed(5);
        }
        self.exits.borrow_mut().push(Some(exit));
        Begun::Running(self.exits.borrow().len() - 1)
    }

    fn end(&mut self, children: Vec<usize>) {
        self.ended.borrow_mut().extend(children);
    }

    fn now(&mut self) -> u64 {
        self.now.get()
    }
}

fn opened(template: Template) -> (Ready<Table>, Table) {
    let table = Table::default();
    (Ready::open(&template, table.clone()).unwrap(), table)
}

#[test]
fn a_child_that_crashed_begins_again_and_one_that_is_done_does_not() {
    let (mut sup, table) = opened(Template::new(Restart::Transient, 9));
    assert_eq!(sup.start("a"), Ok(Reply::Started(1)));
    assert_eq!(sup.start("b"), Ok(Reply::Started(2)));
    assert_eq!(sup.start("ignored"), Ok(Reply::Undefined));
    table.exit(0, Reason::crash());
    table.exit(1, Reason::Normal);
    assert_eq!(sup.turn(NO_WAIT), Ok(vec![Reply::Restarted(1, 3), Reply::Removed(2)]));
    assert_eq!((sup.get(3).copied(), sup.get(1).copied()), (Some(2), None));
    // what it kept of both was given to the host
    assert_eq!(*table.ended.borrow(), [0, 1]);
    // one that drops its exit has crashed
    table.exits.borrow_mut()[2] = None;
    assert_eq!(sup.turn(NO_WAIT), Ok(vec![Reply::GaveUp]));
    assert!(sup.is_down());
    assert_eq!(*table.ended.borrow(), [0, 1, 2]);
}

#[test]
fn one_that_was_terminated_has_no_further_exit() {
    let (mut sup, table) = opened(Template::new(Restart::Permanent, 9));
    assert_eq!(sup.start("a"), Ok(Reply::Started(1)));
    assert_eq!(sup.terminate(1), Ok(Reply::Ended));
    table.exit(0, Reason::Normal);
    assert_eq!(sup.turn(NO_WAIT), Ok(vec![]));
    assert_eq!(sup.terminate(1), Ok(Reply::NotFound));
}

#[test]
fn a_restart_that_failed_is_tried_again() {
    let (mut sup, table) = opened(Template { intensity: 3, ..Template::new(Restart::Permanent, 9) });
    assert_eq!(sup.start("a"), Ok(Reply::Started(1)));
    table.fails.set(true);
    table.exit(0, Reason::Normal);
    assert_eq!(sup.turn(NO_WAIT), Ok(vec![Reply::Restarting(1, 5)]));
    assert_eq!(sup.turn(NO_WAIT), Ok(vec![]));
    table.now.set(1);
    assert_eq!(sup.turn(NO_WAIT), Ok(vec![Reply::Restarting(1, 5)]));
    table.now.set(2);
    table.fails.set(false);
    assert_eq!(sup.turn(NO_WAIT), Ok(vec![Reply::Restarted(1, 2)]));
    table.now.set(9);
    assert_eq!(sup.turn(NO_WAIT), Ok(vec![]));
}

#[test]
fn what_can_not_be_entered_is_not_lost() {
    let (mut sup, table) = opened(Template { entries: 3, ..Template::new(Restart::Temporary, 9) });
    assert_eq!(sup.start("a"), Ok(Reply::Started(1)));
    assert_eq!(sup.start("b"), Ok(Reply::Started(2)));
    table.exit(0, Reason::Normal);
    table.exit(1, Reason::Normal);
    assert_eq!(sup.turn(NO_WAIT), Ok(vec![Reply::Removed(1)]));
    for _ in 0..2 {
        assert_eq!(sup.turn(NO_WAIT), Err(Fault::HistoryFull));
    }
    assert_eq!((sup.get(2).copied(), sup.get(1)), (Some(1), None));
}

#[test]
fn a_turn_without_an_exit_waits() {
    let (mut sup, _table) = opened(Template::new(Restart::Temporary, 9));
    assert_eq!(sup.start("a"), Ok(Reply::Started(1)));
    assert_eq!(sup.terminate(1), Ok(Reply::Ended));
    let began = Instant::now();
    assert_eq!(sup.turn(Duration::from_millis(30)), Ok(vec![]));
    assert!(began.elapsed() >= Duration::from_millis(30));
}

#[test]
fn a_drop_ends_all() {
    let (mut sup, table) = opened(Template { entries: 2, ..Template::new(Restart::Permanent, 9) });
    assert_eq!(sup.start("a"), Ok(Reply::Started(1)));
    assert_eq!(sup.start("b"), Ok(Reply::Started(2)));
    // (the history is full: no stop can be entered)
    assert!(sup.stop().is_err());
    drop(sup);
    assert_eq!(*table.ended.borrow(), [0, 1]);
    let (mut sup, table) = opened(Template::new(Restart::Permanent, 9));
    assert_eq!(sup.start("a"), Ok(Reply::Started(1)));
    drop(sup);
    assert_eq!(*table.ended.borrow(), [0]);
}

/// Turns until this holds.
fn until<H: Host>(sup: &mut Ready<H>, mut holds: impl FnMut(Reply) -> bool) {
    let began = Instant::now();
    while !sup.turn(Duration::from_millis(20)).unwrap().into_iter().any(&mut holds) {
        assert!(began.elapsed() < Duration::from_secs(60), "it does not come");
    }
}

#[test]
fn threads_are_restarted_and_joined() {
    let (begun, over) = (Arc::new(AtomicUsize::new(0)), Arc::new(AtomicUsize::new(0)));
    let (counted, done) = (Arc::clone(&begun), Arc::clone(&over));
    let body = move |argument: &Text, stop: &Stop| -> Result<(), String> {
        let turn = counted.fetch_add(1, Ordering::SeqCst);
        match argument.as_str() {
            "panics" if turn < 100 => panic!("a crash of {turn}"),
            "fails" if turn < 100 => Err(format!("no {turn}")),
            "ends" => Ok(()),
            _ => {
                while !stop.is_asked() {
                    std::thread::park();
                }
                done.fetch_add(1, Ordering::SeqCst);
                Ok(())
            }
        }
    };
    std::panic::set_hook(Box::new(|_| {}));
    let mut sup = Ready::open(&Template { intensity: 1000, ..Template::new(Restart::Transient, 500) }, Threads::new(body)).unwrap();
    assert_eq!(sup.start("panics"), Ok(Reply::Started(1)));
    assert_eq!(sup.start("fails"), Ok(Reply::Started(2)));
    let mut restarts = 0;
    until(&mut sup, |reply| {
        restarts += matches!(reply, Reply::Restarted(..)) as usize;
        restarts == 100
    });
    for _ in 0..50 {
        assert!(matches!(sup.start("parks"), Ok(Reply::Started(_))));
    }
    let Ok(Reply::Started(number)) = sup.start("ends") else { panic!("no start") };
    until(&mut sup, |reply| reply == Reply::Removed(number));
    assert_eq!(sup.terminate(number - 1), Ok(Reply::Ended));
    assert_eq!(over.load(Ordering::SeqCst), 1);
    // those that run: both that crashed, and 49
    assert_eq!(sup.stop(), Ok(Reply::Stopped));
    assert_eq!(over.load(Ordering::SeqCst), 52);
    assert_eq!(begun.load(Ordering::SeqCst), 153);
}

#[test]
fn threads_that_crash_too_often_take_the_others_down() {
    let over = Arc::new(AtomicUsize::new(0));
    let done = Arc::clone(&over);
    let body = move |argument: &Text, stop: &Stop| -> Result<(), &str> {
        if argument.as_str() == "fails" {
            return Err("at once");
        }
        while !stop.is_asked() {
            std::thread::park_timeout(Duration::from_millis(5));
        }
        done.fetch_add(1, Ordering::SeqCst);
        Ok(())
    };
    let mut sup = Ready::open(&Template::new(Restart::Permanent, 9), Threads::new(body)).unwrap();
    for name in ["a", "b", "fails"] {
        assert!(matches!(sup.start(name), Ok(Reply::Started(_))));
    }
    until(&mut sup, |reply| reply == Reply::GaveUp);
    assert_eq!((sup.is_down(), over.load(Ordering::SeqCst)), (true, 2));
    assert_eq!(sup.start("c"), Ok(Reply::Down));
}
