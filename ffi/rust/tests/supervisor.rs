//! What the wrapper adds: types, faults, one call at a time, and that a supervisor is closed.
use sapyguendo::{version, Answer, Counts, Entry, Fault, Kind, Operation, Reason, Reply, Restart, Row, Seen, Supervisor, Template, Text};
use std::sync::{Arc, Mutex};

fn running(_: &Text, _: u64) -> Answer {
    Answer::Running
}

fn text(it: &str) -> Text {
    Text::new(it).unwrap()
}

#[test]
fn a_transient_child_is_restarted_after_a_crash_alone() {
    let mut asked = Vec::new();
    let mut sup = Supervisor::open(&Template::new(Restart::Transient, 10), |argument: &Text, moment| {
        asked.push((*argument, moment));
        Answer::Running
    })
    .unwrap();
    assert_eq!(sup.start_child(0, "a"), Ok(Reply::Started(1)));
    assert_eq!(sup.start_child(0, "b"), Ok(Reply::Started(2)));
    assert_eq!(sup.exit(1, 1, Reason::Other(text("crash"))), Ok(Reply::Restarted(1, 3)));
    assert_eq!(sup.exit(2, 2, Reason::ShutdownWith(text("bye"))), Ok(Reply::Removed(2)));
    assert_eq!(sup.counts(), Seen::Up(Counts { specs: 1, active: 1, supervisors: 0, workers: 1 }));
    let row = Row { number: 3, is_running: true, arg: text("a") };
    assert_eq!(sup.child(3), Seen::Up(Some(row)));
    assert_eq!(sup.child(1), Seen::Up(None));
    assert_eq!(sup.which(), Ok(Seen::Up(vec![row])));
    assert_eq!(sup.stamp(), 4);
    assert_eq!(sup.stop(3), Ok(Reply::Stopped));
    assert_eq!((sup.is_down(), sup.counts(), sup.child(3), sup.which()), (true, Seen::Down, Seen::Down, Ok(Seen::Down)));
    assert_eq!(sup.start_child(4, "c"), Ok(Reply::Down));
    drop(sup);
    assert_eq!(asked, [(text("a"), 0), (text("b"), 0), (text("a"), 1)]);
}

#[test]
fn a_failed_restart_waits_for_a_retry() {
    let mut sup = Supervisor::open(&Template::new(Restart::Permanent, 10), |_: &Text, moment| if moment == 1 { Answer::Failed(7) } else { Answer::Running }).unwrap();
    assert_eq!(sup.start_child(0, "a"), Ok(Reply::Started(1)));
    assert_eq!(sup.exit(1, 1, Reason::Normal), Ok(Reply::Restarting(1, 7)));
    assert_eq!(sup.child(1), Seen::Up(Some(Row { number: 1, is_running: false, arg: text("a") })));
    assert_eq!(sup.retry(9, 1), Ok(Reply::Restarted(1, 2)));
    assert_eq!(sup.terminate_child(9, 2), Ok(Reply::Ended));
    assert_eq!(sup.terminate_child(9, 2), Ok(Reply::NotFound));
}

#[test]
fn what_would_be_asked_changes_nothing() {
    let mut asked = 0;
    let mut sup = Supervisor::open(&Template::new(Restart::Transient, 10), |_: &Text, _| {
        asked += 1;
        Answer::Running
    })
    .unwrap();
    assert_eq!(sup.start_child(0, "a"), Ok(Reply::Started(1)));
    assert_eq!(sup.asks(0, Operation::Start(text("b"))), Ok(Some(text("b"))));
    assert_eq!(sup.asks(0, Operation::Exit(1, Reason::Other(text("crash")))), Ok(Some(text("a"))));
    for operation in [Operation::Exit(1, Reason::Normal), Operation::Terminate(1), Operation::Retry(1), Operation::Stop] {
        assert_eq!(sup.asks(0, operation), Ok(None));
    }
    assert_eq!((sup.stamp(), sup.is_down()), (1, false));
    drop(sup);
    assert_eq!(asked, 1);
}

#[test]
fn an_entry_is_run_again_as_it_is() {
    let mut sup = Supervisor::open(&Template::new(Restart::Permanent, 10), |_: &Text, _| panic!("nobody is asked")).unwrap();
    let entry = |operation, answer| Entry { handle: 4, serial: 0, moment: 1, operation, answer };
    assert_eq!(sup.step(&entry(Operation::Start(text("a")), Answer::Running)), Ok(Reply::Started(1)));
    assert_eq!(sup.step(&entry(Operation::Exit(1, Reason::Normal), Answer::Failed(9))), Ok(Reply::Restarting(1, 9)));
    assert_eq!(sup.step(&entry(Operation::Retry(1), Answer::Running)), Ok(Reply::GaveUp));
    assert!(sup.is_down());
}

#[test]
fn an_update_says_what_it_entered() {
    let mut sup = Supervisor::open(&Template::new(Restart::Permanent, 10), |_: &Text, moment| Answer::Failed(moment as u32)).unwrap();
    assert_eq!(sup.stop(0), Ok(Reply::Stopped));
    let operation = Operation::Start(text("a"));
    let entry = Entry { handle: 0, serial: 1, moment: 5, operation, answer: Answer::Ignore };
    assert_eq!(sup.update(5, operation), Ok((Reply::Down, entry)));
    let mut sup = Supervisor::open(&Template::new(Restart::Permanent, 10), |_: &Text, moment| Answer::Failed(moment as u32)).unwrap();
    let entry = Entry { serial: 0, answer: Answer::Failed(5), ..entry };
    assert_eq!(sup.update(5, operation), Ok((Reply::StartFailed(5), entry)));
}

#[test]
fn what_is_out_of_range_is_refused_and_changes_nothing() {
    let refused = |template: Template| Supervisor::open(&template, running).err();
    let usual = Template::new(Restart::Transient, 10);
    assert_eq!(refused(Template { max: 0, ..usual }), Some(Fault::BadTemplate));
    assert_eq!(refused(Template { period: 86_401, ..usual }), Some(Fault::BadTemplate));
    assert_eq!(refused(Template { significant: true, ..usual }), Some(Fault::BadTemplate));
    let mut sup = Supervisor::open(&Template { entries: 2, kind: Kind::Supervisor, ..usual }, running).unwrap();
    for bad in ["", "a b", "\u{e9}", &"x".repeat(41)] {
        assert_eq!(sup.start_child(0, bad), Err(Fault::BadLine));
    }
    assert_eq!(sup.exit(0, 1, Reason::Other(text("shutdown:x"))), Err(Fault::BadLine));
    assert_eq!(sup.stamp(), 0);
    assert_eq!(sup.start_child(0, &"x".repeat(40)), Ok(Reply::Started(1)));
    assert_eq!(sup.stop(u64::MAX), Ok(Reply::Stopped));
    assert_eq!(sup.stop(0), Err(Fault::HistoryFull));
    assert_eq!(sup.stamp(), 2);
}

#[test]
fn an_entry_is_a_line_and_a_line_an_entry() {
    let template = Template { significant: true, auto_shutdown: sapyguendo::AutoShutdown::All, ..Template::new(Restart::Transient, 10) };
    assert_eq!(template.line(), "history 2 transient worker 1 5 10 significant all\n");
    let longest = "z".repeat(40);
    let operations = [
        (Operation::Start(text("session-17")), "start session-17"),
        (Operation::Exit(u64::MAX, Reason::ShutdownWith(text(&longest))), "exit 18446744073709551615 shutdown:zzzzzzzzzzzzzzzzzzzzzzzzzzzzzzzzzzzzzzzz"),
        (Operation::Exit(1, Reason::Normal), "exit 1 normal"),
        (Operation::Exit(1, Reason::Shutdown), "exit 1 shutdown"),
        (Operation::Exit(1, Reason::Other(text("crash"))), "exit 1 crash"),
        (Operation::Retry(2), "retry 2"),
        (Operation::Terminate(3), "terminate 3"),
        (Operation::Stop, "stop"),
    ];
    for (operation, spelled) in operations {
        for (answer, said) in [(Answer::Running, "running"), (Answer::Ignore, "ignore"), (Answer::Failed(u32::MAX), "failed 4294967295")] {
            let entry = Entry { handle: u64::MAX, serial: u64::MAX, moment: u64::MAX, operation, answer };
            let line = entry.line().unwrap();
            assert_eq!(line, format!("18446744073709551615 18446744073709551615 18446744073709551615 {spelled} {said}\n"));
            assert_eq!(Entry::read(&format!("{line}more")), Ok((entry, "more")));
        }
    }
    for bad in ["", "0 0 0 stop ignore", "0 0 0 stop\n", "0 0 0 start a b ignore\n", "00 0 0 stop ignore\n"] {
        assert_eq!(Entry::read(bad), Err(Fault::BadLine));
    }
}

#[test]
fn two_threads_share_one_by_a_mutex() {
    let sup = Supervisor::open(&Template { max: 1000, ..Template::new(Restart::Temporary, 1000) }, running).unwrap();
    let shared = Arc::new(Mutex::new(sup));
    let threads: Vec<_> = (0..2)
        .map(|_| {
            let shared = Arc::clone(&shared);
            std::thread::spawn(move || {
                for moment in 0..20_000 {
                    let Ok(Reply::Started(number)) = shared.lock().unwrap().start_child(moment, "a") else { panic!("no start") };
                    assert!(matches!(shared.lock().unwrap().child(number), Seen::Up(Some(_))));
                    assert_eq!(shared.lock().unwrap().exit(moment, number, Reason::Normal), Ok(Reply::Removed(number)));
                }
            })
        })
        .collect();
    for thread in threads {
        thread.join().unwrap();
    }
    let mut sup = shared.lock().unwrap();
    assert_eq!((sup.stamp(), sup.which()), (80_000, Ok(Seen::Up(Vec::new()))));
}

#[test]
fn one_that_is_dropped_gives_its_memory_back() {
    let resident = || std::fs::read_to_string("/proc/self/statm").map_or(0, |it| it.split(' ').nth(1).unwrap().parse::<u64>().unwrap());
    let open = || {
        for _ in 0..2_000 {
            let mut sup = Supervisor::open(&Template::new(Restart::Permanent, 1000), running).unwrap();
            let _ = sup.start_child(0, "a").unwrap();
            sup.which().unwrap();
        }
        resident()
    };
    let (first, last) = (open(), open());
    assert!(last < first + 2_000, "{first} pages, then {last}");
}

#[test]
fn the_version_is_the_library_s() {
    assert_eq!(version(), 200);
}
