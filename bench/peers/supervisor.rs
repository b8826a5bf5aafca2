//! One supervisor in plain Rust, which all peers use: the rules of docs/SUPERVISOR.md as one would write them with the
//! standard library's `HashMap`. It is what the speed of the proved crates is compared with, and is no part of them.
#![allow(dead_code)]
use std::collections::{HashMap, VecDeque};

#[derive(Clone, Copy, PartialEq)]
pub enum Restart {
    Permanent,
    Transient,
    Temporary,
}

#[derive(Clone, Copy, PartialEq)]
pub enum AutoShutdown {
    Never,
    Any,
    All,
}

pub struct Template {
    pub restart: Restart,
    pub is_worker: bool,
    pub intensity: usize,
    pub period: u64,
    pub max: usize,
    pub significant: bool,
    pub auto: AutoShutdown,
}

/// A template of workers that are restarted in this way.
pub fn template(restart: Restart, intensity: usize, max: usize) -> Template {
    Template { restart, is_worker: true, intensity, period: 1, max, significant: false, auto: AutoShutdown::Never }
}

/// What the start function answers.
#[derive(Clone, Copy)]
pub enum Answer {
    Running,
    Ignore,
    Failed(u32),
}

pub struct Child {
    pub running: bool,
    pub arg: String,
}

#[derive(PartialEq)]
pub enum Reply {
    Started(u64),
    Undefined,
    StartFailed(u32),
    Full,
    Stray(u64),
    Restarted(u64, u64),
    Ignored(u64),
    Restarting(u64, u32),
    Removed(u64),
    GaveUp,
    ShutDown(u64),
    Ended,
    NotFound,
}

#[derive(Clone, Copy)]
pub struct Counts {
    pub active: u64,
    pub children: u64,
}

pub struct Supervisor {
    pub template: Template,
    pub rows: HashMap<u64, Child>,
    pub down: bool,
    running: u64,
    made: u64,
    latest: u64,
    attempts: VecDeque<u64>,
}

impl Supervisor {
    /// A supervisor whose table is made at once for all the rows that it may have, as ours is.
    pub fn new(template: Template) -> Supervisor {
        let rows = HashMap::with_capacity(template.max);
        Supervisor { rows, ..Supervisor::growing(template) }
    }

    /// A supervisor whose table grows with its rows.
    pub fn growing(template: Template) -> Supervisor {
        let rows = HashMap::new();
        Supervisor { template, rows, down: false, running: 0, made: 0, latest: 0, attempts: VecDeque::new() }
    }

    /// Takes a moment in; time never goes back.
    pub fn see(&mut self, moment: u64) {
        self.latest = self.latest.max(moment);
    }

    pub fn start(&mut self, arg: &str, answer: Answer) -> Reply {
        if self.rows.len() == self.template.max {
            return Reply::Full;
        }
        match answer {
            Answer::Running => Reply::Started(self.list(arg.to_string())),
            Answer::Ignore => Reply::Undefined,
            Answer::Failed(code) => Reply::StartFailed(code),
        }
    }

    /// The exit of a child; the start function is asked only if the child is to be restarted.
    pub fn exit(&mut self, number: u64, is_clean: bool, ask: impl FnOnce(&str) -> Answer) -> Reply {
        if !self.rows.get(&number).is_some_and(|child| child.running) {
            return Reply::Stray(number);
        }
        let is_again = match self.template.restart {
            Restart::Permanent => true,
            Restart::Transient => !is_clean,
            Restart::Temporary => false,
        };
        if is_again {
            return self.attempt(number, ask);
        }
        self.remove(number);
        let auto = self.template.auto;
        let is_last = auto == AutoShutdown::Any || auto == AutoShutdown::All && self.rows.is_empty();
        if self.template.significant && is_last {
            self.end_all();
            return Reply::ShutDown(number);
        }
        Reply::Removed(number)
    }

    pub fn retry(&mut self, number: u64, ask: impl FnOnce(&str) -> Answer) -> Reply {
        if self.rows.get(&number).is_some_and(|child| !child.running) {
            self.attempt(number, ask)
        } else {
            Reply::NotFound
        }
    }

    pub fn terminate(&mut self, number: u64) -> Reply {
        match self.remove(number) {
            Some(_) => Reply::Ended,
            None => Reply::NotFound,
        }
    }

    pub fn end_all(&mut self) {
        self.rows.clear();
        self.running = 0;
        self.down = true;
    }

    pub fn counts(&self) -> Counts {
        Counts { active: self.running, children: self.rows.len() as u64 }
    }

    /// The number that the latest child was given.
    pub fn made(&self) -> u64 {
        self.made
    }

    fn list(&mut self, arg: String) -> u64 {
        self.made += 1;
        self.running += 1;
        self.rows.insert(self.made, Child { running: true, arg });
        self.made
    }

    fn remove(&mut self, number: u64) -> Option<Child> {
        let child = self.rows.remove(&number)?;
        self.running -= u64::from(child.running);
        Some(child)
    }

    fn attempt(&mut self, number: u64, ask: impl FnOnce(&str) -> Answer) -> Reply {
        let at = self.latest;
        while self.attempts.front().is_some_and(|made| at - made > self.template.period) {
            self.attempts.pop_front();
        }
        self.attempts.push_back(at);
        if self.attempts.len() > self.template.intensity {
            self.end_all();
            return Reply::GaveUp;
        }
        match ask(&self.rows[&number].arg) {
            Answer::Running => {
                let arg = self.remove(number).map(|child| child.arg).unwrap_or_default();
                Reply::Restarted(number, self.list(arg))
            }
            Answer::Ignore => {
                self.remove(number);
                Reply::Ignored(number)
            }
            Answer::Failed(code) => {
                if let Some(child) = self.rows.get_mut(&number) {
                    self.running -= u64::from(child.running);
                    child.running = false;
                }
                Reply::Restarting(number, code)
            }
        }
    }
}
