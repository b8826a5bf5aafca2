//! Answers a script (docs/FORMATS.md) as `supload script` does, by the library: standard input to standard output, a fault to
//! standard error. With a file's name, it writes the history there as a history text, which `supload replay` answers likewise.
use sapyguendo::{Answer, Entry, Fault, Seen, Supervisor, Template, Text};
use std::fmt::Write as _;
use std::io::{Read, Write};
use std::process::ExitCode;

fn number(word: &str) -> Result<u64, Fault> {
    let is_plain = word.bytes().all(|byte| byte.is_ascii_digit()) && (word == "0" || !word.starts_with('0'));
    if is_plain { word.parse().map_err(|_| Fault::BadLine) } else { Err(Fault::BadLine) }
}

/// Reads a script's header, which is a history's first line but for the word with which it begins.
fn template(line: &str) -> Result<Template, Fault> {
    let words = line.strip_prefix("sup ").ok_or(Fault::BadLine)?;
    let version = if words.split(' ').count() == 5 { 1 } else { 2 };
    format!("history {version} {words}").parse()
}

/// The start function of scripts.
fn start(argument: &Text, moment: u64) -> Answer {
    let is_gap = |bounds: &str| {
        let (from, to) = bounds.split_once(':')?;
        Some(number(from).ok()? <= moment && moment < number(to).ok()?)
    };
    let gap = argument.strip_prefix("gap:").and_then(is_gap).unwrap_or(false);
    match argument.as_str() {
        "ignore" => Answer::Ignore,
        "fail" => Answer::Failed(1),
        _ if gap => Answer::Failed(1),
        _ => Answer::Running,
    }
}

/// The entry of an operation, which the library reads: a line `start 5 a` is the history's line `0 0 5 start a ignore`.
fn operation(verb: &str, rest: &str) -> Result<Entry, Fault> {
    let line = match rest.split_once(' ') {
        Some((moment, after)) => format!("0 0 {moment} {verb} {after} ignore\n"),
        None => format!("0 0 {rest} {verb} ignore\n"),
    };
    match Entry::read(&line)? {
        (entry, "") => Ok(entry),
        _ => Err(Fault::BadLine),
    }
}

type Session = Supervisor<fn(&Text, u64) -> Answer>;

fn answer(sup: &mut Session, line: &str, out: &mut String, history: &mut String) -> Result<(), Fault> {
    match line.split_once(' ') {
        None if line == "which" => match sup.which()? {
            Seen::Up(rows) => {
                for row in &rows {
                    let status = if row.is_running { "running" } else { "restarting" };
                    let _ = writeln!(out, "child {} {status} {}", row.number, row.arg);
                }
                let _ = writeln!(out, "end {}", rows.len());
            }
            Seen::Down => out.push_str("error down\n"),
        },
        None if line == "count" => match sup.counts() {
            Seen::Up(it) => {
                let _ = writeln!(out, "count specs {} active {} supervisors {} workers {}", it.specs, it.active, it.supervisors, it.workers);
            }
            Seen::Down => out.push_str("error down\n"),
        },
        None => return Err(Fault::BadLine),
        Some(("terminate_id" | "delete_child" | "restart_child", text)) => {
            Text::new(text)?;
            out.push_str("error simple_one_for_one\n");
        }
        Some((verb, rest)) => {
            let read = operation(verb, rest)?;
            let (reply, entry) = sup.update(read.moment, read.operation)?;
            history.push_str(&entry.line()?);
            let _ = writeln!(out, "{reply}");
        }
    }
    Ok(())
}

fn run(text: &str, out: &mut String, history: &mut String) -> Result<(), (Fault, usize)> {
    let mut lines = text.strip_suffix('\n').unwrap_or(text).split('\n');
    let open = |line: &str| {
        let template = template(line)?;
        let sup: Session = Supervisor::open(&template, start as fn(&Text, u64) -> Answer)?;
        Ok((sup, template.line()))
    };
    let (mut sup, header) = open(lines.next().unwrap_or("")).map_err(|fault| (fault, 1))?;
    history.push_str(&header);
    for (index, line) in lines.enumerate() {
        answer(&mut sup, line, out, history).map_err(|fault| (fault, index + 2))?;
    }
    Ok(())
}

fn main() -> ExitCode {
    let mut given = Vec::new();
    if std::io::stdin().read_to_end(&mut given).is_err() {
        return ExitCode::from(3);
    }
    let (mut out, mut history) = (String::new(), String::new());
    let ran = run(&String::from_utf8_lossy(&given), &mut out, &mut history);
    let written = std::io::stdout().write_all(out.as_bytes());
    let kept = std::env::args().nth(1).map_or(Ok(()), |file| std::fs::write(file, &history));
    if written.is_err() || kept.is_err() {
        return ExitCode::from(3);
    }
    match ran {
        Ok(()) => ExitCode::SUCCESS,
        Err((fault, line)) => {
            eprintln!("fault {} line {line}", fault.number());
            ExitCode::from(if matches!(fault, Fault::BadTemplate | Fault::BadLine) { 2 } else { 4 })
        }
    }
}
