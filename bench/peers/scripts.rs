//! `supload script` and `supload replay` as one would write them in plain Rust: std's HashMap, one BufReader, one
//! BufWriter. Each line is read once, into an operation whose words are borrowed from the text. It reads well-formed
//! texts alone.
use std::io::{self, BufRead, BufReader, BufWriter, Write};

mod supervisor;
use supervisor::{Answer, AutoShutdown, Reply, Restart, Supervisor, Template};

enum Operation<'t> {
    Start(&'t str),
    Exit(u64, bool),
    Retry(u64),
    Terminate(u64),
    Stop,
}

/// An entry of a history: its moment, its operation and what the start function answered.
struct Entry<'t> {
    moment: u64,
    operation: Operation<'t>,
    answer: Answer,
}

fn ask(arg: &str, moment: u64) -> Answer {
    if arg == "ignore" {
        return Answer::Ignore;
    }
    if arg == "fail" {
        return Answer::Failed(1);
    }
    if let Some((from, to)) = arg.strip_prefix("gap:").and_then(|gap| gap.split_once(':')) {
        if let (Ok(from), Ok(to)) = (from.parse::<u64>(), to.parse::<u64>()) {
            if from <= moment && moment < to {
                return Answer::Failed(1);
            }
        }
    }
    Answer::Running
}

fn template(header: &[&str]) -> Template {
    Template {
        restart: match header[0] {
            "permanent" => Restart::Permanent,
            "transient" => Restart::Transient,
            _ => Restart::Temporary,
        },
        is_worker: header[1] == "worker",
        intensity: header[2].parse().unwrap(),
        period: header[3].parse().unwrap(),
        max: header[4].parse().unwrap(),
        significant: header.get(5) == Some(&"significant"),
        auto: match header.get(6) {
            Some(&"any") => AutoShutdown::Any,
            Some(&"all") => AutoShutdown::All,
            _ => AutoShutdown::Never,
        },
    }
}

fn operation<'t>(verb: &str, words: &mut impl Iterator<Item = &'t str>) -> Operation<'t> {
    if verb == "stop" {
        return Operation::Stop;
    }
    let word = words.next().unwrap();
    if verb == "start" {
        return Operation::Start(word);
    }
    let number: u64 = word.parse().unwrap();
    match verb {
        "exit" => {
            let reason = words.next().unwrap();
            let is_clean = reason == "normal" || reason == "shutdown" || reason.starts_with("shutdown:");
            Operation::Exit(number, is_clean)
        }
        "retry" => Operation::Retry(number),
        _ => Operation::Terminate(number),
    }
}

fn step(
    sup: &mut Supervisor,
    moment: u64,
    operation: &Operation,
    ask: impl FnOnce(&str) -> Answer,
    out: &mut impl Write,
) -> io::Result<()> {
    sup.see(moment);
    if sup.down {
        return writeln!(out, "error down");
    }
    let reply = match operation {
        Operation::Start(arg) => {
            // (the start function is not asked if there is no place)
            let answer = if sup.rows.len() == sup.template.max { Answer::Ignore } else { ask(arg) };
            sup.start(arg, answer)
        }
        Operation::Exit(number, is_clean) => sup.exit(*number, *is_clean, ask),
        Operation::Retry(number) => sup.retry(*number, ask),
        Operation::Terminate(number) => sup.terminate(*number),
        Operation::Stop => {
            sup.end_all();
            return writeln!(out, "stopped");
        }
    };
    write_reply(&reply, out)
}

fn write_reply(reply: &Reply, out: &mut impl Write) -> io::Result<()> {
    match reply {
        Reply::Started(number) => writeln!(out, "ok {number}"),
        Reply::Undefined => writeln!(out, "ok undefined"),
        Reply::StartFailed(code) => writeln!(out, "error start_failed {code}"),
        Reply::Full => writeln!(out, "error full"),
        Reply::Stray(number) => writeln!(out, "stray {number}"),
        Reply::Restarted(number, next) => writeln!(out, "restarted {number} {next}"),
        Reply::Ignored(number) => writeln!(out, "ignored {number}"),
        Reply::Restarting(number, code) => writeln!(out, "restarting {number} {code}"),
        Reply::Removed(number) => writeln!(out, "removed {number}"),
        Reply::GaveUp => writeln!(out, "gave_up"),
        Reply::ShutDown(number) => writeln!(out, "shut_down {number}"),
        Reply::Ended => writeln!(out, "ok"),
        Reply::NotFound => writeln!(out, "error not_found"),
    }
}

fn query(sup: &Supervisor, verb: &str, out: &mut impl Write) -> io::Result<()> {
    if sup.down {
        return writeln!(out, "error down");
    }
    if verb == "count" {
        let counts = sup.counts();
        let (all, active) = (counts.children, counts.active);
        let (supervisors, workers) = if sup.template.is_worker { (0, all) } else { (all, 0) };
        return writeln!(out, "count specs 1 active {active} supervisors {supervisors} workers {workers}");
    }
    let mut numbers: Vec<_> = sup.rows.keys().copied().collect();
    numbers.sort_unstable();
    for number in &numbers {
        let child = &sup.rows[number];
        let status = if child.running { "running" } else { "restarting" };
        writeln!(out, "child {number} {status} {}", child.arg)?;
    }
    writeln!(out, "end {}", numbers.len())
}

fn line(sup: &mut Supervisor, line: &str, out: &mut impl Write) -> io::Result<()> {
    let mut words = line.split(' ');
    let verb = words.next().unwrap_or("");
    match verb {
        "terminate_id" | "delete_child" | "restart_child" => writeln!(out, "error simple_one_for_one"),
        "which" | "count" => query(sup, verb, out),
        _ => {
            let moment: u64 = words.next().unwrap().parse().unwrap();
            let operation = operation(verb, &mut words);
            step(sup, moment, &operation, |arg| ask(arg, moment), out)
        }
    }
}

fn entry(line: &str) -> Entry<'_> {
    let mut words = line.split(' ').skip(2);
    let moment: u64 = words.next().unwrap().parse().unwrap();
    let verb = words.next().unwrap();
    let operation = operation(verb, &mut words);
    let answer = match words.next().unwrap() {
        "running" => Answer::Running,
        "ignore" => Answer::Ignore,
        _ => Answer::Failed(words.next().unwrap().parse().unwrap()),
    };
    Entry { moment, operation, answer }
}

/// Reads the whole history, and then writes the reply of each entry.
fn replay(input: &mut impl BufRead, out: &mut impl Write) -> io::Result<()> {
    let mut text = String::new();
    input.read_to_string(&mut text)?;
    let mut lines = text.lines();
    let header: Vec<&str> = lines.next().unwrap().split(' ').skip(2).collect();
    let entries: Vec<Entry> = lines.map(entry).collect();
    let mut sup = Supervisor::growing(template(&header));
    for entry in &entries {
        step(&mut sup, entry.moment, &entry.operation, |_| entry.answer, out)?;
    }
    out.flush()
}

fn script(input: &mut impl BufRead, out: &mut impl Write) -> io::Result<()> {
    let mut text = String::new();
    input.read_line(&mut text)?;
    let header: Vec<&str> = text.trim_end_matches('\n').split(' ').skip(1).collect();
    let mut sup = Supervisor::growing(template(&header));
    loop {
        text.clear();
        if input.read_line(&mut text)? == 0 {
            return out.flush();
        }
        line(&mut sup, text.trim_end_matches('\n'), out)?;
    }
}

fn main() -> io::Result<()> {
    let mut input = BufReader::with_capacity(65_536, io::stdin().lock());
    let mut out = BufWriter::with_capacity(65_536, io::stdout().lock());
    match std::env::args().nth(1).as_deref() {
        Some("replay") => replay(&mut input, &mut out),
        _ => script(&mut input, &mut out),
    }
}
