//! A supervisor that keeps a value of the caller's for each child.
use crate::raw;
use crate::{Answer, Entry, Fault, Operation, Reply, Row, Rules, Template, Text};

/// What a start function answers, with the child that it has begun.
#[derive(Clone, Copy, Debug, PartialEq, Eq)]
pub enum Begun<T> {
    /// The child runs.
    Running(T),
    /// There is no child to run, which is no failure.
    Ignore,
    /// The start failed, with a code of the caller's.
    Failed(u32),
}

/// What came of an operation.
#[derive(Clone, Debug, PartialEq, Eq)]
#[must_use = "children may be left to end"]
#[non_exhaustive]
pub struct Done<T> {
    /// What the supervisor replies.
    pub reply: Reply,
    /// The entry, for a history text ([`Entry::line`]).
    pub entry: Entry,
    /// The value of the child that ended, or that another has replaced.
    pub old: Option<T>,
    /// The child that was begun, if the rules did not ask for it any more. The caller ends it.
    pub unused: Option<T>,
    /// If the supervisor went down: the other children that were listed before, in ascending order of number. The caller ends them.
    pub left: Vec<(Row, T)>,
}

/// Why an operation was refused. Nothing has changed, and what was begun comes back.
#[derive(Clone, Debug, PartialEq, Eq)]
#[non_exhaustive]
pub struct Refused<T> {
    /// Why.
    pub fault: Fault,
    /// The child that was begun. The caller ends it.
    pub unused: Option<T>,
}

/// A question of the rules: it is answered by [`Children::enter`].
#[derive(Clone, Copy, Debug, PartialEq, Eq)]
#[must_use = "nothing is entered before the answer"]
pub struct Asked {
    entry: Entry,
    argument: Option<Text>,
}

impl Asked {
    /// Returns the argument of the child that is to be begun, if one is.
    pub fn argument(&self) -> Option<&Text> {
        self.argument.as_ref()
    }
}

/// A supervisor that keeps a value of the caller's for each child, such as the means to end it.
///
/// ```
/// use sapyguendo::{Begun, Children, Operation, Reply, Restart, Template, Text};
///
/// let mut children = Children::open(&Template::new(Restart::Transient, 10))?;
/// let start = Operation::Start(Text::new("session-17")?);
/// let done = children.update(0, start, |argument, _moment| Begun::Running(argument.len())).unwrap();
/// assert_eq!((done.reply, children.get(1).copied()), (Reply::Started(1), Some(10)));
/// # Ok::<(), sapyguendo::Fault>(())
/// ```
pub struct Children<T> {
    pub(crate) rules: Rules,
    // A child's token is its slot's index and one. A slot that is not free belongs to a listed child, whose value it lacks while
    // the child waits for another try.
    slots: Vec<Option<T>>,
    free: Vec<usize>,
}

impl<T> Children<T> {
    /// Opens a supervisor without children, or answers [`Fault::BadTemplate`] or [`Fault::OutOfMemory`].
    pub fn open(template: &Template) -> Result<Children<T>, Fault> {
        Ok(Children { rules: Rules::open(template)?, slots: Vec::new(), free: Vec::new() })
    }

    /// Enters an operation: `begin` begins a child with an argument at a moment, if the rules ask for one.
    pub fn update(&mut self, moment: u64, operation: Operation, begin: impl FnOnce(&Text, u64) -> Begun<T>) -> Result<Done<T>, Refused<T>> {
        let asked = self.ask(moment, operation).map_err(|fault| Refused { fault, unused: None })?;
        let begun = asked.argument().map_or(Begun::Ignore, |argument| begin(argument, moment));
        self.enter(asked, begun)
    }

    /// Asks which child an operation begins. The answer is handed to [`Children::enter`], and others may use the supervisor in
    /// between: so a lock that it is under can be released while the child is begun.
    pub fn ask(&mut self, moment: u64, operation: Operation) -> Result<Asked, Fault> {
        let serial = self.rules.stamp();
        let entry = Entry::asking(serial, moment, operation);
        Ok(Asked { entry, argument: self.rules.ask(&entry)? })
    }

    /// Enters an operation with what was begun. If something was entered since it was asked, the rules are asked again: if they ask
    /// for the same, the child is taken, and else it comes back as `unused`.
    pub fn enter(&mut self, mut asked: Asked, begun: Begun<T>) -> Result<Done<T>, Refused<T>> {
        let (answer, mut new) = match begun {
            Begun::Running(child) => (Answer::Running, Some(child)),
            Begun::Ignore => (Answer::Ignore, None),
            Begun::Failed(code) => (Answer::Failed(code), None),
        };
        match self.enter_answer(&mut asked, answer) {
            Err(fault) => Err(Refused { fault, unused: new }),
            Ok((reply, slot)) => {
                let old = self.follow(reply, slot, &mut new);
                let left = if matches!(reply, Reply::GaveUp | Reply::ShutDown(_) | Reply::Stopped) { self.take_left() } else { Vec::new() };
                Ok(Done { reply, entry: asked.entry, old, unused: new, left })
            }
        }
    }

    /// Enters an operation with the answer, as long as the rules ask for it, and returns the slot of its child.
    fn enter_answer(&mut self, asked: &mut Asked, answer: Answer) -> Result<(Reply, Option<usize>), Fault> {
        let Asked { entry, argument } = asked;
        if self.free.is_empty() {
            self.slots.try_reserve(1).and_then(|()| self.free.try_reserve(self.slots.len() + 1)).map_err(|_| Fault::OutOfMemory)?;
            self.free.push(self.slots.len());
            self.slots.push(None);
        }
        loop {
            entry.answer = if argument.is_some() { answer } else { Answer::Ignore };
            let mut token = self.free.last().map_or(0, |slot| *slot as u64 + 1);
            if let Some(reply) = self.rules.step_at(entry, &mut token)? {
                return Ok((reply, index_of(token)));
            }
            entry.serial = self.rules.stamp();
            *argument = self.rules.ask(entry)?;
        }
    }

    /// Gives the child of an entry its new value, and returns the old one.
    fn follow(&mut self, reply: Reply, slot: Option<usize>, new: &mut Option<T>) -> Option<T> {
        let slot = slot?;
        match reply {
            Reply::Started(_) => {
                self.free.pop();
                self.slots[slot] = new.take();
                None
            }
            Reply::Restarted(..) => std::mem::replace(&mut self.slots[slot], new.take()),
            Reply::Removed(_) | Reply::Ignored(_) | Reply::Ended => {
                self.free.push(slot);
                self.slots[slot].take()
            }
            Reply::Restarting(..) | Reply::GaveUp | Reply::ShutDown(_) => self.slots[slot].take(),
            _ => None,
        }
    }

    /// Takes the values of those out that were listed before the supervisor went down.
    fn take_left(&mut self) -> Vec<(Row, T)> {
        let listed = self.rules.rows(raw::sup_left).expect("there is memory for those who remain");
        let child_of = |row: Row| Some((row, self.slot_of(row.number)?.take()?));
        listed.up().into_iter().flatten().filter_map(child_of).collect()
    }

    /// Takes all values out.
    pub(crate) fn take_all(&mut self) -> Vec<T> {
        self.slots.iter_mut().filter_map(Option::take).collect()
    }

    fn slot_of(&mut self, number: u64) -> Option<&mut Option<T>> {
        let mut token = 0;
        // SAFETY: the handle is open, and the token is a number.
        unsafe { raw::sup_token(&mut self.rules.0, number, &mut token) };
        self.slots.get_mut(index_of(token)?)
    }

    /// Returns the value of the child with this number, if it runs.
    pub fn get(&mut self, number: u64) -> Option<&mut T> {
        self.slot_of(number)?.as_mut()
    }
}

/// Returns the index of the slot with this token, if it is one.
fn index_of(token: u64) -> Option<usize> {
    usize::try_from(token).ok()?.checked_sub(1)
}
