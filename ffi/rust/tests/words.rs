//! The words that are written and read: templates, entries, reasons, replies, texts as keys.
use sapyguendo::{Answer, AutoShutdown, Entry, Fault, Kind, Operation, Reason, Reply, Restart, Seen, Supervisor, Template, Text};
use std::collections::{BTreeSet, HashMap};

fn text(it: &str) -> Text {
    Text::new(it).unwrap()
}

fn running(_: &Text, _: u64) -> Answer {
    Answer::Running
}

#[test]
fn a_template_is_its_line() {
    let usual = Template::new(Restart::Temporary, 65_536);
    let marked = Template { significant: true, auto_shutdown: AutoShutdown::Any, kind: Kind::Supervisor, intensity: 0, ..usual };
    for template in [usual, marked] {
        assert_eq!(template.to_string().parse(), Ok(template));
    }
    assert_eq!("history 1 temporary worker 1 5 65536".parse(), Ok(usual));
    for bad in ["", "history 2 temporary worker 1 5 10", "history 2 always worker 1 5 10 plain never", "history 2 temporary worker 01 5 10 plain never",
        "history 2 temporary worker +1 5 10 plain never", "history 2 temporary worker 1 5 10 marked never", "history 2 temporary worker 1 5 18446744073709551616 plain never"]
    {
        assert_eq!(bad.parse::<Template>(), Err(Fault::BadLine), "{bad}");
    }
}

#[test]
fn the_wrong_field_of_a_template_is_named() {
    let usual = Template::new(Restart::Transient, 10);
    let named = [
        (Template { intensity: 1001, ..usual }, "intensity"),
        (Template { period: 0, ..usual }, "period"),
        (Template { period: 86_401, ..usual }, "period"),
        (Template { max: 0, ..usual }, "max"),
        (Template { max: 65_537, ..usual }, "max"),
        (Template { entries: 0, ..usual }, "entries"),
        (Template { entries: (1 << 62) + 1, ..usual }, "entries"),
        (Template { significant: true, ..usual }, "significant"),
        (Template { significant: true, auto_shutdown: AutoShutdown::All, ..Template::new(Restart::Permanent, 1) }, "significant"),
    ];
    for (template, field) in named {
        assert_eq!(template.wrong_field(), Some(field));
        assert_eq!(Supervisor::open(&template, running).err(), Some(Fault::BadTemplate));
    }
    for template in [usual, Template { significant: true, auto_shutdown: AutoShutdown::All, ..usual }, Template { intensity: 1000, period: 86_400, max: 65_536, ..usual }] {
        assert_eq!(template.wrong_field(), None);
        assert!(Supervisor::open(&template, running).is_ok());
    }
}

#[test]
fn an_entry_and_a_reply_are_written() {
    let entry = Entry { handle: 1, serial: 2, moment: 3, operation: Operation::Exit(4, Reason::ShutdownWith(text("bye"))), answer: Answer::Failed(5) };
    assert_eq!(entry.to_string(), "1 2 3 exit 4 shutdown:bye failed 5");
    assert_eq!(entry.to_string().parse(), Ok(entry));
    assert_eq!("1 2 3 stop ignore\nmore".parse::<Entry>(), Err(Fault::BadLine));
    let written = [Reply::Started(1), Reply::StartFailed(2), Reply::Restarted(3, 4), Reply::Restarting(5, 6), Reply::Ended, Reply::GaveUp, Reply::NotFound];
    let texts: Vec<String> = written.iter().map(Reply::to_string).collect();
    assert_eq!(texts, ["ok 1", "error start_failed 2", "restarted 3 4", "restarting 5 6", "ok", "gave_up", "error not_found"]);
    assert_eq!([Reason::Normal, Reason::Shutdown, Reason::ShutdownWith(text("x")), Reason::crash()].map(|it| it.to_string()), ["normal", "shutdown", "shutdown:x", "crash"]);
    assert_eq!((Restart::Transient.to_string(), "any".parse(), "some".parse::<AutoShutdown>()), ("transient".into(), Ok(AutoShutdown::Any), Err(Fault::BadLine)));
}

#[test]
fn any_message_is_a_word() {
    let long = "division by zero in a function of a long name";
    for (message, word) in [("division by zero", "division_by_zero"), ("", "crash:"), ("normal", "crash:normal"), ("shutdown:x", "crash:shutdown:x"),
        ("caf\u{e9}\n", "caf__"), (long, "division_by_zero_in_a_function_of_a_long")]
    {
        assert_eq!(Reason::from_error(message), Reason::Other(text(word)));
        let mut sup = Supervisor::open(&Template::new(Restart::Temporary, 1), running).unwrap();
        assert_eq!(sup.start_child(0, "a"), Ok(Reply::Started(1)));
        assert_eq!(sup.exit(0, 1, Reason::from_error(message)), Ok(Reply::Removed(1)));
    }
    assert_eq!(Reason::from_error(&"\u{1F600}".repeat(100)).to_string(), "_".repeat(40));
}

#[test]
fn a_text_is_a_key_by_its_characters() {
    let map = HashMap::from([(text("b"), 1), (text("session-17"), 2)]);
    assert_eq!((map.get("session-17"), map.get("b"), map.get("a")), (Some(&2), Some(&1), None));
    let words = ["b", "ab", "a", "aa", "a~", "B"];
    let (ordered, wanted): (BTreeSet<Text>, BTreeSet<&str>) = (words.iter().map(|it| text(it)).collect(), words.into_iter().collect());
    assert!(ordered.iter().map(Text::as_str).eq(wanted));
    assert!(ordered.contains("a~"));
}

#[test]
fn a_history_text_is_run_again() {
    let history = "history 2 permanent worker 1 5 2 plain never\n0 0 0 start a running\n0 1 1 exit 1 normal running\n";
    let mut sup = Supervisor::replay(history, running).unwrap();
    assert_eq!((sup.stamp(), sup.which().unwrap().up().map(|rows| rows.len())), (2, Some(1)));
    assert_eq!(sup.exit(2, 2, Reason::Normal), Ok(Reply::GaveUp));
    let wrong = |text: &str| Supervisor::replay(text, running).err();
    assert_eq!(wrong(""), Some((Fault::BadLine, 1)));
    assert_eq!(wrong("history 2 permanent worker 1 5 0 plain never\n"), Some((Fault::BadTemplate, 1)));
    assert_eq!(wrong(&format!("{history}0 2 2 begin\n")), Some((Fault::BadLine, 4)));
    assert_eq!(wrong(history.trim_end()), Some((Fault::BadLine, 3)));
    assert!(matches!(Supervisor::replay(history.split_inclusive('\n').next().unwrap(), running).unwrap().counts(), Seen::Up(_)));
}
