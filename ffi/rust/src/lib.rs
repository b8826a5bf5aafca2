//! A supervisor of one thread, by the rules of Erlang/OTP's strategy `simple_one_for_one`: a template, of which children are
//! started by argument, end and are started again.
//!
//! The rules are those of libsapyguendo, which is proved. This crate makes what `sapyguendo.h` asks of a caller impossible to
//! break: a supervisor can't be copied, is used by one call at a time, and is closed when it is dropped. Threads share one by a
//! `Mutex`.
//!
//! - [`Supervisor`] keeps the rules alone, and has a start function.
//! - [`Children`] keeps a value of the caller's for each child as well, and says who remains when it goes down.
//! - [`Ready`] begins, restarts and ends the children itself, over a [`Host`]; [`Threads`] is one whose children are threads.
//!
//! Any operation answers [`Fault::HistoryFull`] after as many entries as the template allows, [`Fault::BadLine`] if a text of it
//! is none, and may answer [`Fault::OutOfMemory`]. Nothing has changed after a fault.
#![warn(missing_docs)]

mod children;
mod raw;
mod ready;
mod words;

use std::io::Write;

pub use children::{Asked, Begun, Children, Done, Refused};
pub use ready::{Exit, Host, Ready, Stop, Thread, Threads};
pub use words::{Answer, AutoShutdown, Counts, Entry, Fault, Kind, Operation, Reason, Reply, Restart, Row, Seen, Template, Text};

/// A supervisor, with its start function. Its queries are those of [`Rules`].
///
/// ```
/// use sapyguendo::{Answer, Reason, Reply, Restart, Supervisor, Template};
///
/// let mut sup = Supervisor::open(&Template::new(Restart::Transient, 1000), |_session, _moment| Answer::Running)?;
/// assert_eq!(sup.start_child(0, "session-17")?, Reply::Started(1));
/// assert_eq!(sup.exit(3, 1, Reason::crash())?, Reply::Restarted(1, 2));
/// # Ok::<(), sapyguendo::Fault>(())
/// ```
pub struct Supervisor<S> {
    rules: Rules,
    start: S,
}

/// What the rules know: how many entries there were, and which children are listed.
// It is open until it is dropped.
pub struct Rules(raw::Sup);

// SAFETY: what the handle owns may go to another thread, which is proved of it; each call takes the handle by `&mut`, so there is
// one at a time.
unsafe impl Send for Rules {}

impl Drop for Rules {
    fn drop(&mut self) {
        // SAFETY: the handle is open, and never used again.
        unsafe { raw::sup_close(&mut self.0) };
    }
}

impl Rules {
    fn open(template: &Template) -> Result<Rules, Fault> {
        assert_eq!(version(), raw::VERSION, "libsapyguendo.a is not of this crate's version");
        let mut closed = raw::zeros::<raw::Sup>();
        let mut room = [0; raw::MOST_LINE];
        let mut left = &mut room[..];
        writeln!(left, "{template}").expect("there is room");
        let size = raw::MOST_LINE - left.len();
        // SAFETY: the line has that many bytes, and the handle is closed.
        Fault::of(unsafe { raw::sup_open(&mut closed, room.as_ptr(), size, template.entries) })?;
        Ok(Rules(closed))
    }

    fn ask(&mut self, entry: &Entry) -> Result<Option<Text>, Fault> {
        let mut asked = raw::zeros::<raw::Text>();
        // SAFETY: here and below the handle is open, and all else is of its type.
        Fault::of(unsafe { raw::sup_asks(&mut self.0, &entry.spelled(), &mut asked) })?;
        Ok((asked.len > 0).then(|| Text::told(&asked)))
    }

    /// Enters an entry after as many others as its serial says, and replies nothing if there are more.
    fn step_at(&mut self, entry: &Entry, token: &mut u64) -> Result<Option<Reply>, Fault> {
        let mut reply = raw::zeros::<raw::Reply>();
        // SAFETY: as above.
        match unsafe { raw::sup_step_at(&mut self.0, &entry.spelled(), entry.serial, token, &mut reply) } {
            raw::STALE => Ok(None),
            fault => Fault::of(fault).map(|()| Some(Reply::told(&reply))),
        }
    }

    fn told(&mut self) -> raw::Counts {
        let mut counts = raw::zeros();
        // SAFETY: as above. It is refused of a closed handle alone.
        unsafe { raw::sup_count(&mut self.0, &mut counts) };
        counts
    }

    /// Returns how many children there are.
    pub fn counts(&mut self) -> Seen<Counts> {
        let raw::Counts { specs, active, supervisors, workers, is_down, .. } = self.told();
        if is_down { Seen::Down } else { Seen::Up(Counts { specs, active, supervisors, workers }) }
    }

    /// Returns how many entries there were.
    pub fn stamp(&mut self) -> u64 {
        self.told().stamp
    }

    /// Returns whether the supervisor gave up, was stopped or went down with a significant child.
    pub fn is_down(&mut self) -> bool {
        self.told().is_down
    }

    /// Returns the listed child with this number.
    pub fn child(&mut self, number: u64) -> Seen<Option<Row>> {
        let mut row = raw::zeros();
        // SAFETY: as above. It is refused of a closed handle alone.
        unsafe { raw::sup_child(&mut self.0, number, &mut row) };
        Row::seen(&row)
    }

    /// Returns the listed children in ascending order of number, or [`Fault::OutOfMemory`].
    pub fn which(&mut self) -> Result<Seen<Vec<Row>>, Fault> {
        self.rows(raw::sup_row)
    }

    /// Returns the rows that a call tells one by one.
    fn rows(&mut self, call: unsafe extern "C" fn(*mut raw::Sup, u64, *mut raw::Row) -> u32) -> Result<Seen<Vec<Row>>, Fault> {
        let mut rows = Vec::new();
        loop {
            let mut row = raw::zeros();
            // SAFETY: as above.
            Fault::of(unsafe { call(&mut self.0, rows.len() as u64, &mut row) })?;
            match Row::seen(&row) {
                Seen::Down => return Ok(Seen::Down),
                Seen::Up(None) => return Ok(Seen::Up(rows)),
                Seen::Up(Some(row)) => {
                    rows.try_reserve(1).map_err(|_| Fault::OutOfMemory)?;
                    rows.push(row);
                }
            }
        }
    }
}

/// Gives a type the queries of its rules.
macro_rules! has_rules {
    ($($name:ident)*) => {
        $(impl<T> std::ops::Deref for $name<T> {
            type Target = Rules;

            fn deref(&self) -> &Rules {
                &self.rules
            }
        }

        impl<T> std::ops::DerefMut for $name<T> {
            fn deref_mut(&mut self) -> &mut Rules {
                &mut self.rules
            }
        })*
    };
}

has_rules! { Supervisor Children }

impl<S: FnMut(&Text, u64) -> Answer> Supervisor<S> {
    /// Opens a supervisor, or answers [`Fault::BadTemplate`] or [`Fault::OutOfMemory`]. `start` starts a child with an argument at
    /// a moment in seconds, or says why it does not. It is called if the rules ask for it: for a start, and for a restart.
    pub fn open(template: &Template, start: S) -> Result<Self, Fault> {
        Ok(Supervisor { rules: Rules::open(template)?, start })
    }

    /// Runs a history text again: opens a supervisor of the template in its first line, and enters the entries of the others. A
    /// fault comes with the number of its line, from 1 on.
    pub fn replay(text: &str, start: S) -> Result<Self, (Fault, usize)> {
        let (first, mut rest) = text.split_once('\n').ok_or((Fault::BadLine, 1))?;
        let mut sup = first.parse().and_then(|template| Supervisor::open(&template, start)).map_err(|fault| (fault, 1))?;
        let mut line = 1;
        while !rest.is_empty() {
            line += 1;
            let (entry, after) = Entry::read(rest).map_err(|fault| (fault, line))?;
            let _ = sup.step(&entry).map_err(|fault| (fault, line))?;
            rest = after;
        }
        Ok(sup)
    }

    /// Starts a child with this argument, and replies as OTP's `start_child`.
    pub fn start_child(&mut self, moment: u64, argument: &str) -> Result<Reply, Fault> {
        self.update(moment, Operation::Start(Text::new(argument)?)).map(|(reply, _)| reply)
    }

    /// Enters that a child ended by itself, which may start it again.
    pub fn exit(&mut self, moment: u64, number: u64, reason: Reason) -> Result<Reply, Fault> {
        self.update(moment, Operation::Exit(number, reason)).map(|(reply, _)| reply)
    }

    /// Tries the failed restart of a child again.
    pub fn retry(&mut self, moment: u64, number: u64) -> Result<Reply, Fault> {
        self.update(moment, Operation::Retry(number)).map(|(reply, _)| reply)
    }

    /// Ends a child, and replies as OTP's `terminate_child`. The caller ends what the child was for.
    pub fn terminate_child(&mut self, moment: u64, number: u64) -> Result<Reply, Fault> {
        self.update(moment, Operation::Terminate(number)).map(|(reply, _)| reply)
    }

    /// Ends all children, and the supervisor.
    pub fn stop(&mut self, moment: u64) -> Result<Reply, Fault> {
        self.update(moment, Operation::Stop).map(|(reply, _)| reply)
    }

    /// Enters an operation: asks the start function if the rules ask it, and returns the entry beside the reply, for a history
    /// text ([`Entry::line`]). Its handle is 0, and its serial is the number of the entries before.
    pub fn update(&mut self, moment: u64, operation: Operation) -> Result<(Reply, Entry), Fault> {
        let mut entry = Entry::asking(self.stamp(), moment, operation);
        if let Some(argument) = self.rules.ask(&entry)? {
            entry.answer = (self.start)(&argument, moment);
        }
        Ok((self.step(&entry)?, entry))
    }

    /// Enters an entry as it is, with its answer: so a history is run again.
    pub fn step(&mut self, entry: &Entry) -> Result<Reply, Fault> {
        let mut reply = raw::zeros();
        // SAFETY: as above.
        Fault::of(unsafe { raw::sup_step(&mut self.rules.0, &entry.spelled(), &mut reply) })?;
        Ok(Reply::told(&reply))
    }

    /// Returns the argument that the start function would be asked about.
    pub fn asks(&mut self, moment: u64, operation: Operation) -> Result<Option<Text>, Fault> {
        self.rules.ask(&Entry::asking(0, moment, operation))
    }
}

/// Returns the version of the library: 100 is 0.1.0.
pub fn version() -> u32 {
    // SAFETY: it takes nothing.
    unsafe { raw::sup_version() }
}
