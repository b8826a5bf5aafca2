//! The library in Rust beside a `HashMap` in Rust: a crash until the child is restarted, and a start with its termination, among that
//! many children, each with a value of the caller's. Prints for each the medians of the rounds in ns, and that of their ratios.
use sapyguendo::{Begun, Children, Operation, Reason, Reply, Restart, Template, Text};
use std::collections::{HashMap, VecDeque};
use std::time::Instant;

const ROUNDS: usize = 9;
const TURNS: u64 = 200_000;
const INTENSITY: u64 = 1000;
const PERIOD: u64 = 1;

struct Child {
    arg: Text,
    value: u64,
}

/// OTP's rules for permanent children: numbers that are never used again, and a window of restarts.
struct Plain {
    children: HashMap<u64, Child>,
    made: u64,
    moments: VecDeque<u64>,
}

impl Plain {
    fn start(&mut self, arg: Text, value: u64) -> u64 {
        self.made += 1;
        self.children.insert(self.made, Child { arg, value });
        self.made
    }

    /// Restarts a child with a new value, and returns its number and the old value.
    fn exit(&mut self, moment: u64, number: u64, value: u64) -> Option<(u64, u64)> {
        if self.moments.len() == INTENSITY as usize {
            if moment - self.moments[0] <= PERIOD {
                return None;
            }
            self.moments.pop_front();
        }
        self.moments.push_back(moment);
        let Child { arg, value: old } = self.children.remove(&number)?;
        Some((self.start(arg, value), old))
    }
}

fn filled(rows: u64) -> (Children<u64>, Plain, Vec<u64>) {
    let arg = Text::new("session-17").unwrap();
    let template = Template { intensity: INTENSITY, period: PERIOD, ..Template::new(Restart::Permanent, 65_536) };
    let mut children = Children::open(&template).unwrap();
    let mut plain = Plain { children: HashMap::with_capacity(65_536), made: 0, moments: VecDeque::with_capacity(INTENSITY as usize) };
    for value in 1..=rows {
        assert_eq!(children.update(0, Operation::Start(arg), |_, _| Begun::Running(value)).unwrap().reply, Reply::Started(plain.start(arg, value)));
    }
    (children, plain, (1..=rows).collect())
}

fn nanoseconds(mut turn: impl FnMut(u64)) -> f64 {
    let began = Instant::now();
    (0..TURNS).for_each(&mut turn);
    began.elapsed().as_nanos() as f64 / TURNS as f64
}

fn main() {
    let (arg, mut sum) = (Text::new("session-17").unwrap(), 0);
    for rows in [1_000, 60_000] {
        let (mut crashes, mut starts) = (Vec::new(), Vec::new());
        for _ in 0..ROUNDS {
            let (mut children, mut plain, numbers) = filled(rows);
            let (mut first, mut second) = (numbers.clone(), numbers);
            let ours = nanoseconds(|turn| {
                let number = &mut first[(turn % rows) as usize];
                let done = children.update(turn / 500, Operation::Exit(*number, Reason::crash()), |_, _| Begun::Running(turn)).unwrap();
                let Reply::Restarted(_, next) = done.reply else { panic!("{}", done.reply) };
                *number = next;
                sum += done.old.unwrap();
            });
            let peer = nanoseconds(|turn| {
                let number = &mut second[(turn % rows) as usize];
                let (next, old) = plain.exit(turn / 500, *number, turn).unwrap();
                *number = next;
                sum += old;
            });
            crashes.push((ours / peer, ours, peer));
            let ours = nanoseconds(|turn| {
                let done = children.update(TURNS, Operation::Start(arg), |_, _| Begun::Running(turn)).unwrap();
                let Reply::Started(number) = done.reply else { panic!("{}", done.reply) };
                sum += children.update(TURNS, Operation::Terminate(number), |_, _| Begun::Ignore).unwrap().old.unwrap();
            });
            let peer = nanoseconds(|turn| {
                let number = plain.start(arg, turn);
                sum += plain.children.remove(&number).unwrap().value;
            });
            starts.push((ours / peer, ours, peer));
        }
        for (what, all) in [("crash until restarted", crashes), ("start and termination", starts)] {
            let median = |of: fn(&(f64, f64, f64)) -> f64| {
                let mut all: Vec<f64> = all.iter().map(of).collect();
                all.sort_by(f64::total_cmp);
                all[ROUNDS / 2]
            };
            println!("| Rust: {what} among {rows} children | {:.2} | {:.0} | {:.0} |", median(|it| it.0), median(|it| it.1), median(|it| it.2));
        }
    }
    eprintln!("{sum}");
}
