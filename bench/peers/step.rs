//! The steps of one supervisor in plain Rust.
use std::time::Instant;

mod supervisor;
use supervisor::{template, Answer, Reply, Restart, Supervisor};

const TURNS: u64 = 1_000_000;
const COUNTS: u64 = 20_000_000;
/// Where the draws begin (a shift register of 64 bits).
const SEED: u64 = 88_172_645_463_325_252;
const SUPERVISORS: u64 = 64;
const ARG: &str = "session-17";

fn filled(rows: u64, max: usize) -> Supervisor {
    let mut sup = Supervisor::new(template(Restart::Permanent, 1000, max));
    for _ in 0..rows {
        sup.start(ARG, Answer::Running);
    }
    sup
}

/// One restart; the number under which the child runs now.
fn restart_one(sup: &mut Supervisor, moment: u64, number: u64) -> Option<u64> {
    sup.see(moment);
    match sup.exit(number, true, |_| Answer::Running) {
        Reply::Restarted(old, _) => Some(old + 1),
        _ => None,
    }
}

/// Restarts the oldest child again and again, each under the next number.
fn restart(sup: &mut Supervisor, turns: u64) -> u64 {
    let (mut restarted, mut oldest) = (0, 1);
    for turn in 0..turns {
        if let Some(next) = restart_one(sup, turn, oldest) {
            restarted += 1;
            oldest = next;
        }
    }
    restarted
}

/// The next number that is drawn.
fn draw(mut drawn: u64) -> u64 {
    drawn ^= drawn << 13;
    drawn ^= drawn >> 7;
    drawn ^= drawn << 17;
    drawn
}

/// One of that many places.
fn place_of(drawn: u64, places: usize) -> usize {
    ((drawn >> 32).wrapping_mul(places as u64) >> 32) as usize
}

/// Restarts children that are drawn at random, each under the next number. `gone` then has the numbers before.
fn restart_drawn(sup: &mut Supervisor, alive: &mut [u64], gone: &mut [u64], turns: u64) -> u64 {
    let (mut restarted, mut drawn) = (0, SEED);
    for turn in 0..turns {
        drawn = draw(drawn);
        let place = place_of(drawn, alive.len());
        sup.see(turn);
        if let Reply::Restarted(old, next) = sup.exit(alive[place], true, |_| Answer::Running) {
            restarted += 1;
            alive[place] = next;
            gone[place] = old;
        }
    }
    restarted
}

/// Exits of children that are gone, drawn at random.
fn exit_gone(sup: &mut Supervisor, gone: &[u64], turns: u64) -> u64 {
    let (mut stray, mut drawn) = (0, SEED);
    for turn in 0..turns {
        drawn = draw(drawn);
        sup.see(turn);
        let number = gone[place_of(drawn, gone.len())];
        stray += u64::from(matches!(sup.exit(number, true, |_| Answer::Running), Reply::Stray(_)));
    }
    stray
}

fn start_and_terminate(sup: &mut Supervisor, turns: u64) -> u64 {
    let mut ended = 0;
    for turn in 0..turns {
        sup.see(turn);
        if let Reply::Started(number) = sup.start(ARG, Answer::Running) {
            ended += u64::from(sup.terminate(number) == Reply::Ended);
        }
    }
    ended
}

/// Counts the children of these supervisors in turn, so that no count can stand for the next.
fn count(sups: &[Supervisor], turns: u64) -> u64 {
    let mut sum = 0u64;
    for turn in 0..turns {
        if let Some(sup) = sups.get((turn % SUPERVISORS) as usize) {
            if !sup.down {
                sum = sum.wrapping_add(sup.counts().active);
            }
        }
    }
    sum
}

/// Times some work, and writes its figure.
fn tell(label: &str, times: u64, work: impl FnOnce() -> u64) {
    let start = Instant::now();
    let answer = work();
    let took = start.elapsed().as_nanos();
    println!("{label}: {took} ns, {times} times, answer {answer}");
}

fn longest(sup: &mut Supervisor, turns: u64) -> u128 {
    let (mut most, mut oldest) = (0, 1);
    for turn in 0..turns {
        let start = Instant::now();
        let next = restart_one(sup, turn, oldest);
        most = most.max(start.elapsed().as_nanos());
        oldest = next.unwrap_or(oldest);
    }
    most
}

fn main() {
    for rows in [10u64, 1000, 65_535] {
        let mut sup = filled(rows, rows as usize + 1);
        tell(&format!("restart among {rows} rows"), TURNS, || restart(&mut sup, TURNS));
        tell(&format!("start and termination among {rows} rows"), TURNS, || start_and_terminate(&mut sup, TURNS));
        let mut sup = filled(rows, rows as usize + 1);
        let mut alive: Vec<_> = (1..=rows).collect();
        let mut gone = alive.clone();
        tell(&format!("restart at random among {rows} rows"), TURNS, || restart_drawn(&mut sup, &mut alive, &mut gone, TURNS));
        tell(&format!("exit of a child that is gone, among {rows} rows"), TURNS, || exit_gone(&mut sup, &gone, TURNS));
    }
    let sups: Vec<_> = (1..=SUPERVISORS).map(|rows| filled(rows, 1000)).collect();
    tell("count of 64 supervisors in turn", COUNTS, || count(&sups, COUNTS));
    let most = longest(&mut filled(65_535, 65_536), 200_000);
    println!("the longest of 200000 restarts among 65535 rows: {most} ns, 1 times, answer -");
}
