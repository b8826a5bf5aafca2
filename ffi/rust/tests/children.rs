//! Whether each value of a child comes back once: with its restart, its end, or when the supervisor goes down.
use sapyguendo::{Answer, Begun, Children, Fault, Operation, Reason, Reply, Restart, Template, Text};

fn text(it: &str) -> Text {
    Text::new(it).unwrap()
}

fn start(name: &str) -> Operation {
    Operation::Start(text(name))
}

fn open(template: Template) -> Children<String> {
    Children::open(&template).unwrap()
}

/// Enters an operation that begins a child with this value.
fn enter(children: &mut Children<String>, operation: Operation, value: &str) -> (Reply, Option<String>, Option<String>, Vec<(u64, String)>) {
    let done = children.update(0, operation, |_, _| Begun::Running(value.to_string())).unwrap();
    let left = done.left.into_iter().map(|(row, value)| (row.number, value)).collect();
    (done.reply, done.old, done.unused, left)
}

fn some(it: &str) -> Option<String> {
    Some(it.to_string())
}

#[test]
fn a_value_comes_back_with_the_restart_and_the_end() {
    let mut all = open(Template { intensity: 9, ..Template::new(Restart::Transient, 3) });
    assert_eq!(enter(&mut all, start("a"), "a1"), (Reply::Started(1), None, None, vec![]));
    assert_eq!(enter(&mut all, start("b"), "b1"), (Reply::Started(2), None, None, vec![]));
    assert_eq!(enter(&mut all, start("c"), "c1"), (Reply::Started(3), None, None, vec![]));
    assert_eq!(enter(&mut all, start("d"), "d1"), (Reply::Full, None, None, vec![]));
    assert_eq!(enter(&mut all, Operation::Exit(1, Reason::crash()), "a2"), (Reply::Restarted(1, 4), some("a1"), None, vec![]));
    assert_eq!(enter(&mut all, Operation::Exit(2, Reason::Normal), "-"), (Reply::Removed(2), some("b1"), None, vec![]));
    assert_eq!(enter(&mut all, Operation::Exit(2, Reason::crash()), "-"), (Reply::Stray(2), None, None, vec![]));
    assert_eq!(enter(&mut all, Operation::Terminate(3), "-"), (Reply::Ended, some("c1"), None, vec![]));
    assert_eq!(enter(&mut all, Operation::Terminate(3), "-"), (Reply::NotFound, None, None, vec![]));
    assert_eq!((all.get(4).cloned(), all.get(1).cloned(), all.get(3).cloned()), (some("a2"), None, None));
    // (slots are used again)
    for number in 5..5_000 {
        assert_eq!(enter(&mut all, start("e"), "e1").0, Reply::Started(number));
        assert_eq!(enter(&mut all, Operation::Terminate(number), "-").1, some("e1"));
    }
    assert_eq!(enter(&mut all, Operation::Stop, "-"), (Reply::Stopped, None, None, vec![(4, "a2".into())]));
    assert_eq!(enter(&mut all, Operation::Stop, "-"), (Reply::Down, None, None, vec![]));
    assert!(all.is_down());
}

#[test]
fn a_child_that_waits_for_another_try_has_none() {
    let mut all = open(Template::new(Restart::Permanent, 3));
    assert_eq!(enter(&mut all, start("a"), "a1").0, Reply::Started(1));
    assert_eq!(enter(&mut all, start("b"), "b1").0, Reply::Started(2));
    let done = all.update(0, Operation::Exit(1, Reason::Normal), |_, _| Begun::Failed(7)).unwrap();
    assert_eq!((done.reply, done.old, done.entry.answer), (Reply::Restarting(1, 7), some("a1"), Answer::Failed(7)));
    assert_eq!(all.get(1), None);
    let done = all.update(20, Operation::Retry(1), |argument, _| Begun::Running(argument.to_string())).unwrap();
    assert_eq!((done.reply, done.old, done.unused), (Reply::Restarted(1, 3), None, None));
    assert_eq!(all.get(3).cloned(), some("a"));
    let done = all.update(40, Operation::Exit(3, Reason::Normal), |_, _| Begun::Ignore).unwrap();
    assert_eq!((done.reply, done.old), (Reply::Ignored(3), some("a")));
}

#[test]
fn all_come_back_when_it_gives_up() {
    let mut all = open(Template::new(Restart::Permanent, 9));
    for name in ["a", "b", "c"] {
        assert!(matches!(enter(&mut all, start(name), name).0, Reply::Started(_)));
    }
    assert_eq!(enter(&mut all, Operation::Exit(2, Reason::crash()), "b2").0, Reply::Restarted(2, 4));
    // the child that crashed is not asked about again: what it was comes back as `old`, and the others are left
    let (reply, old, unused, left) = enter(&mut all, Operation::Exit(1, Reason::crash()), "a2");
    assert_eq!((reply, old, unused), (Reply::GaveUp, some("a"), None));
    assert_eq!(left, vec![(3, "c".to_string()), (4, "b2".to_string())]);
}

#[test]
fn a_significant_child_that_ends_leaves_the_others() {
    let template = Template { significant: true, auto_shutdown: sapyguendo::AutoShutdown::Any, ..Template::new(Restart::Temporary, 9) };
    let mut all = open(template);
    for name in ["a", "b", "c"] {
        assert!(matches!(enter(&mut all, start(name), name).0, Reply::Started(_)));
    }
    assert_eq!(enter(&mut all, Operation::Exit(2, Reason::crash()), "-"), (Reply::ShutDown(2), some("b"), None, vec![(1, "a".into()), (3, "c".into())]));
}

#[test]
fn what_was_begun_meanwhile_is_taken_or_comes_back() {
    let mut all = open(Template::new(Restart::Permanent, 2));
    let (first, second) = (all.ask(0, start("a")).unwrap(), all.ask(0, start("b")).unwrap());
    assert_eq!(first.argument(), Some(&text("a")));
    assert_eq!(enter(&mut all, start("c"), "c").0, Reply::Started(1));
    // the rules ask for the same again
    let done = all.enter(first, Begun::Running("a".into())).unwrap();
    assert_eq!((done.reply, done.unused, done.entry.serial), (Reply::Started(2), None, 1));
    // and now there is no room
    let done = all.enter(second, Begun::Running("b".into())).unwrap();
    assert_eq!((done.reply, done.unused, done.entry.answer), (Reply::Full, some("b"), Answer::Ignore));
    // a child that ended meanwhile is not restarted
    let exit = all.ask(0, Operation::Exit(2, Reason::crash())).unwrap();
    assert_eq!(enter(&mut all, Operation::Terminate(2), "-").1, some("a"));
    let done = all.enter(exit, Begun::Running("a2".into())).unwrap();
    assert_eq!((done.reply, done.old, done.unused), (Reply::Stray(2), None, some("a2")));
}

#[test]
fn a_full_history_begins_nothing_and_loses_nothing() {
    let mut all = open(Template { entries: 1, ..Template::new(Restart::Permanent, 2) });
    let early = all.ask(0, start("b")).unwrap();
    assert_eq!(enter(&mut all, start("a"), "a").0, Reply::Started(1));
    let refused = all.update(0, start("b"), |_, _| panic!("it has begun")).unwrap_err();
    assert_eq!((refused.fault, refused.unused), (Fault::HistoryFull, None));
    let refused = all.enter(early, Begun::Running("b".into())).unwrap_err();
    assert_eq!((refused.fault, refused.unused), (Fault::HistoryFull, some("b")));
    assert_eq!(all.get(1).cloned(), some("a"));
}

#[test]
fn each_value_comes_back_once_of_many_operations() {
    let mut all: Children<u64> = Children::open(&Template { intensity: 1000, ..Template::new(Restart::Transient, 40) }).unwrap();
    let (mut seed, mut made, mut back) = (7_u64, 0_u64, Vec::new());
    let mut next = |below: u64| {
        seed = seed.wrapping_mul(6_364_136_223_846_793_005).wrapping_add(1_442_695_040_888_963_407);
        (seed >> 33) % below
    };
    let mut listed = 1;
    for moment in 0..20_000 {
        let number = listed + next(60);
        let operation = match next(6) {
            0 | 1 => start("a"),
            2 => Operation::Exit(number, Reason::crash()),
            3 => Operation::Exit(number, Reason::Normal),
            4 => Operation::Terminate(number),
            _ => Operation::Retry(number),
        };
        let failed = next(4) == 0;
        let done = all
            .update(moment, operation, |_, _| {
                if failed {
                    return Begun::Failed(1);
                }
                made += 1;
                Begun::Running(made)
            })
            .unwrap();
        assert_eq!(done.unused, None);
        back.extend(done.old);
        listed = all.which().unwrap().up().and_then(|rows| rows.first().map(|row| row.number)).unwrap_or(listed);
    }
    let done = all.update(20_000, Operation::Stop, |_, _| Begun::Ignore).unwrap();
    back.extend(done.left.into_iter().map(|(_, value)| value));
    back.sort_unstable();
    assert_eq!(back, (1..=made).collect::<Vec<_>>());
    assert!(made > 1_000);
}
