//! The words of a supervisor: texts, templates, operations, entries, replies and rows.
use crate::raw;
use std::borrow::Borrow;
use std::fmt;
use std::hash::{Hash, Hasher};
use std::str::FromStr;

/// Why a call was refused. Nothing has changed then.
#[derive(Clone, Copy, Debug, PartialEq, Eq)]
#[non_exhaustive]
pub enum Fault {
    /// Memory was refused.
    OutOfMemory = 1,
    /// The history has as many entries as the template allows.
    HistoryFull = 2,
    /// A number of the template is out of its range, or its children can't be significant ([`Template::wrong_field`] says which).
    BadTemplate = 7,
    /// A text is not 1 to 40 bytes from 0x21 to 0x7E, a word spells another reason, or a line is no entry or no template.
    BadLine = 9,
}

impl Fault {
    /// Returns the number of the fault, as `sapyguendo.h` has it.
    pub fn number(self) -> u32 {
        self as u32
    }

    pub(crate) fn of(number: u32) -> Result<(), Fault> {
        match number {
            raw::DONE => Ok(()),
            1 => Err(Fault::OutOfMemory),
            2 => Err(Fault::HistoryFull),
            7 => Err(Fault::BadTemplate),
            9 => Err(Fault::BadLine),
            // The wrapper's supervisor is open, its room is large enough, and it has read the stamp.
            _ => unreachable!("fault {number} of libsapyguendo"),
        }
    }
}

impl fmt::Display for Fault {
    fn fmt(&self, f: &mut fmt::Formatter<'_>) -> fmt::Result {
        f.write_str(match self {
            Fault::OutOfMemory => "out of memory",
            Fault::HistoryFull => "the history is full",
            Fault::BadTemplate => "no template has these parts",
            Fault::BadLine => "a text or a line that spells nothing",
        })
    }
}

impl std::error::Error for Fault {}

/// A text: 1 to 40 bytes, each from 0x21 to 0x7E. It is found in a map by its `str`.
// (unused bytes are zeros, so that the order is that of the characters)
#[derive(Clone, Copy, PartialEq, Eq, PartialOrd, Ord)]
pub struct Text {
    bytes: [u8; 40],
    len: u8,
}

impl Text {
    /// Returns the text of these characters, or [`Fault::BadLine`] if they are none.
    pub fn new(text: &str) -> Result<Text, Fault> {
        let visible = text.bytes().all(|byte| byte.is_ascii_graphic());
        if text.is_empty() || text.len() > 40 || !visible {
            return Err(Fault::BadLine);
        }
        let mut bytes = [0; 40];
        bytes[..text.len()].copy_from_slice(text.as_bytes());
        Ok(Text { bytes, len: text.len() as u8 })
    }

    /// Returns the characters.
    pub fn as_str(&self) -> &str {
        std::str::from_utf8(&self.bytes[..usize::from(self.len)]).expect("a text is ASCII")
    }

    pub(crate) fn told(text: &raw::Text) -> Text {
        Text { bytes: text.bytes, len: text.len as u8 }
    }

    pub(crate) fn spelled(self) -> raw::Text {
        raw::Text { len: u64::from(self.len), bytes: self.bytes }
    }
}

impl std::ops::Deref for Text {
    type Target = str;

    fn deref(&self) -> &str {
        self.as_str()
    }
}

impl Borrow<str> for Text {
    fn borrow(&self) -> &str {
        self
    }
}

impl Hash for Text {
    fn hash<H: Hasher>(&self, state: &mut H) {
        self.as_str().hash(state);
    }
}

impl fmt::Display for Text {
    fn fmt(&self, f: &mut fmt::Formatter<'_>) -> fmt::Result {
        f.pad(self)
    }
}

impl fmt::Debug for Text {
    fn fmt(&self, f: &mut fmt::Formatter<'_>) -> fmt::Result {
        fmt::Debug::fmt(self.as_str(), f)
    }
}

impl TryFrom<&str> for Text {
    type Error = Fault;

    fn try_from(text: &str) -> Result<Text, Fault> {
        Text::new(text)
    }
}

/// Makes enums whose variants are words of the formats, by which they are written and read.
macro_rules! words {
    ($($(#[$about:meta])* $name:ident { $($(#[$doc:meta])* $variant:ident = $word:literal,)* })*) => {
        $($(#[$about])*
        #[derive(Clone, Copy, Debug, PartialEq, Eq, PartialOrd, Ord, Hash)]
        pub enum $name {
            $($(#[$doc])* $variant,)*
        }

        impl fmt::Display for $name {
            fn fmt(&self, f: &mut fmt::Formatter<'_>) -> fmt::Result {
                f.pad(match self { $($name::$variant => $word,)* })
            }
        }

        impl FromStr for $name {
            type Err = Fault;

            fn from_str(word: &str) -> Result<$name, Fault> {
                match word { $($word => Ok($name::$variant),)* _ => Err(Fault::BadLine) }
            }
        })*
    };
}

words! {
    /// When a child that ended is started again.
    Restart {
        /// After each end.
        Permanent = "permanent",
        /// After a crash.
        Transient = "transient",
        /// Never.
        Temporary = "temporary",
    }

    /// What the children are counted as.
    Kind {
        /// The children do the work.
        Worker = "worker",
        /// The children are supervisors themselves.
        Supervisor = "supervisor",
    }

    /// Which ends of significant children take the supervisor down.
    AutoShutdown {
        /// None.
        Never = "never",
        /// That of the first.
        Any = "any",
        /// That of the last.
        All = "all",
    }
}

/// The template of which all children are instances.
#[derive(Clone, Copy, Debug, PartialEq, Eq, Hash)]
pub struct Template {
    /// When a child that ended is started again.
    pub restart: Restart,
    /// What the children are counted as.
    pub kind: Kind,
    /// 0 to 1000 restarts are allowed ..
    pub intensity: u64,
    /// .. within 1 to 86,400 seconds.
    pub period: u64,
    /// 1 to 65,536 children at a time. The supervisor takes its memory for all of them at once.
    pub max: u64,
    /// 1 to 2^62 entries of the history.
    pub entries: u64,
    /// Whether the end of a child can take the supervisor down.
    pub significant: bool,
    /// Which ends of significant children do.
    pub auto_shutdown: AutoShutdown,
}

impl Template {
    /// Returns OTP's defaults, except for the restart: workers, of which one restart within 5 seconds is allowed.
    pub fn new(restart: Restart, max: u64) -> Template {
        Template {
            restart,
            kind: Kind::Worker,
            intensity: 1,
            period: 5,
            max,
            entries: 1 << 62,
            significant: false,
            auto_shutdown: AutoShutdown::Never,
        }
    }

    /// Returns the first line of a history text of this template, with its line feed.
    pub fn line(&self) -> String {
        format!("{self}\n")
    }

    /// Returns the name of a field for which [`Fault::BadTemplate`] is answered, if there is one.
    pub fn wrong_field(&self) -> Option<&'static str> {
        let stands = !self.significant || self.restart != Restart::Permanent && self.auto_shutdown != AutoShutdown::Never;
        let fields = [
            ("intensity", self.intensity <= 1000),
            ("period", (1..=86_400).contains(&self.period)),
            ("max", (1..=65_536).contains(&self.max)),
            ("entries", (1..=1 << 62).contains(&self.entries)),
            ("significant", stands),
        ];
        fields.into_iter().find(|(_, fits)| !fits).map(|(field, _)| field)
    }
}

/// Writes the first line of a history text of this template, without its line feed.
impl fmt::Display for Template {
    fn fmt(&self, f: &mut fmt::Formatter<'_>) -> fmt::Result {
        let Template { restart, kind, intensity, period, max, auto_shutdown, .. } = self;
        let mark = if self.significant { "significant" } else { "plain" };
        write!(f, "history 2 {restart} {kind} {intensity} {period} {max} {mark} {auto_shutdown}")
    }
}

/// Reads the first line of a history text, without its line feed.
impl FromStr for Template {
    type Err = Fault;

    fn from_str(line: &str) -> Result<Template, Fault> {
        let line = line.strip_prefix("history 1 ").map_or(line.to_string(), |parts| format!("history 2 {parts} plain never"));
        let words: Vec<&str> = line.split(' ').collect();
        let [_, _, restart, kind, intensity, period, max, mark, auto_shutdown] = words[..] else { return Err(Fault::BadLine) };
        let number = |word: &str| word.parse().map_err(|_| Fault::BadLine);
        let limits = Template { intensity: number(intensity)?, period: number(period)?, ..Template::new(restart.parse()?, number(max)?) };
        let (kind, significant, auto_shutdown) = (kind.parse()?, mark == "significant", auto_shutdown.parse()?);
        let template = Template { kind, significant, auto_shutdown, ..limits };
        // (a sign, a leading zero, another mark and another version are written otherwise)
        if template.to_string() == line { Ok(template) } else { Err(Fault::BadLine) }
    }
}

/// Why a child ended.
#[derive(Clone, Copy, Debug, PartialEq, Eq, Hash)]
pub enum Reason {
    /// It was done.
    Normal,
    /// It was asked to end.
    Shutdown,
    /// It was asked to end, for this.
    ShutdownWith(Text),
    /// A crash. The text is not `normal`, not `shutdown` and does not begin with `shutdown:`.
    Other(Text),
}

impl Reason {
    /// Returns a crash without a text of its own: `Other` with the text `crash`.
    pub fn crash() -> Reason {
        Reason::Other(Text::new("crash").expect("it is a text"))
    }

    /// Returns a crash with the first 40 characters of a message, in which each that no text may have is a `_`. One that would
    /// spell another reason begins with `crash:`.
    pub fn from_error(message: impl fmt::Display) -> Reason {
        let mut word: String = message.to_string().chars().map(|it| if it.is_ascii_graphic() { it } else { '_' }).collect();
        if matches!(word.as_str(), "" | "normal" | "shutdown") || word.starts_with("shutdown:") {
            word.insert_str(0, "crash:");
        }
        word.truncate(40);
        Reason::Other(Text::new(&word).expect("it is a text"))
    }
}

/// Writes the reason as a history text has it.
impl fmt::Display for Reason {
    fn fmt(&self, f: &mut fmt::Formatter<'_>) -> fmt::Result {
        match self {
            Reason::Normal => f.write_str("normal"),
            Reason::Shutdown => f.write_str("shutdown"),
            Reason::ShutdownWith(term) => write!(f, "shutdown:{term}"),
            Reason::Other(word) => write!(f, "{word}"),
        }
    }
}

/// What is entered.
#[derive(Clone, Copy, Debug, PartialEq, Eq, Hash)]
pub enum Operation {
    /// A child is to be started with this argument.
    Start(Text),
    /// The child with this number ended by itself.
    Exit(u64, Reason),
    /// The failed restart of the child with this number is to be tried again.
    Retry(u64),
    /// The child with this number is to be ended.
    Terminate(u64),
    /// All are to be ended.
    Stop,
}

/// What the start function answered.
#[derive(Clone, Copy, Debug, PartialEq, Eq, Hash)]
pub enum Answer {
    /// The child runs.
    Running,
    /// There is no child to run, which is no failure.
    Ignore,
    /// The start failed, with a code of the caller's.
    Failed(u32),
}

/// An entry of a history.
#[derive(Clone, Copy, Debug, PartialEq, Eq, Hash)]
pub struct Entry {
    /// Of whom it is.
    pub handle: u64,
    /// How many that handle entered before.
    pub serial: u64,
    /// In seconds.
    pub moment: u64,
    /// What is entered.
    pub operation: Operation,
    /// What the start function answered, if it was asked.
    pub answer: Answer,
}

impl Entry {
    /// Returns the entry as a line of a history text, with its line feed.
    /// It is refused if a reason's text is no word, or for memory.
    pub fn line(&self) -> Result<String, Fault> {
        let (mut room, mut len) = ([0; raw::MOST_LINE], 0);
        // SAFETY: the entry and the length are of their types, and the room has that many bytes.
        Fault::of(unsafe { raw::sup_write_entry(&self.spelled(), room.as_mut_ptr(), room.len(), &mut len) })?;
        Ok(String::from_utf8_lossy(&room[..len as usize]).into_owned())
    }

    /// Returns the entry of the first line of a text, which ends with a line feed, and the text after it.
    pub fn read(text: &str) -> Result<(Entry, &str), Fault> {
        let (mut entry, mut len) = (raw::zeros(), 0);
        // SAFETY: the text has that many bytes, and the other two are places of their types.
        Fault::of(unsafe { raw::sup_read_entry(text.as_ptr(), text.len(), &mut entry, &mut len) })?;
        Ok((Entry::told(&entry), &text[len as usize..]))
    }

    /// Returns the entry by which the start function is asked.
    pub(crate) fn asking(serial: u64, moment: u64, operation: Operation) -> Entry {
        Entry { handle: 0, serial, moment, operation, answer: Answer::Ignore }
    }

    pub(crate) fn spelled(&self) -> raw::Entry {
        let (operation, number, reason, text) = match self.operation {
            Operation::Start(argument) => (0, 0, 0, Some(argument)),
            Operation::Exit(number, Reason::Normal) => (1, number, 0, None),
            Operation::Exit(number, Reason::Shutdown) => (1, number, 1, None),
            Operation::Exit(number, Reason::ShutdownWith(term)) => (1, number, 2, Some(term)),
            Operation::Exit(number, Reason::Other(word)) => (1, number, 3, Some(word)),
            Operation::Retry(number) => (2, number, 0, None),
            Operation::Terminate(number) => (3, number, 0, None),
            Operation::Stop => (4, 0, 0, None),
        };
        let (answer, code) = match self.answer {
            Answer::Running => (0, 0),
            Answer::Ignore => (1, 0),
            Answer::Failed(code) => (2, code),
        };
        let text = text.map_or_else(raw::zeros, Text::spelled);
        raw::Entry { handle: self.handle, serial: self.serial, moment: self.moment, number, operation, reason, answer, code, text }
    }

    fn told(entry: &raw::Entry) -> Entry {
        let (number, text) = (entry.number, Text::told(&entry.text));
        let operation = match (entry.operation, entry.reason) {
            (0, _) => Operation::Start(text),
            (1, 0) => Operation::Exit(number, Reason::Normal),
            (1, 1) => Operation::Exit(number, Reason::Shutdown),
            (1, 2) => Operation::Exit(number, Reason::ShutdownWith(text)),
            (1, _) => Operation::Exit(number, Reason::Other(text)),
            (2, _) => Operation::Retry(number),
            (3, _) => Operation::Terminate(number),
            _ => Operation::Stop,
        };
        let answer = match entry.answer {
            0 => Answer::Running,
            1 => Answer::Ignore,
            _ => Answer::Failed(entry.code),
        };
        Entry { handle: entry.handle, serial: entry.serial, moment: entry.moment, operation, answer }
    }
}

/// Writes the entry as a line of a history text, without its line feed.
impl fmt::Display for Entry {
    fn fmt(&self, f: &mut fmt::Formatter<'_>) -> fmt::Result {
        f.write_str(self.line().map_err(|_| fmt::Error)?.trim_end())
    }
}

/// Reads a line of a history text, without its line feed.
impl FromStr for Entry {
    type Err = Fault;

    fn from_str(line: &str) -> Result<Entry, Fault> {
        Entry::read(&format!("{line}\n")).and_then(|(entry, rest)| if rest.is_empty() { Ok(entry) } else { Err(Fault::BadLine) })
    }
}

/// Makes the replies: the kind's number in C, its fields, and its text.
macro_rules! replies {
    ($($(#[$doc:meta])* $kind:literal $name:ident $(($($field:ident: $type:ty),*))? = $text:literal,)*) => {
        /// What a supervisor replies to an entry: numbers are of children, and codes the start function's.
        #[derive(Clone, Copy, Debug, PartialEq, Eq, Hash)]
        #[must_use = "the supervisor may have given up"]
        #[non_exhaustive]
        pub enum Reply {
            $($(#[$doc])* $name $(($($type),*))?,)*
        }

        impl Reply {
            pub(crate) fn told(reply: &raw::Reply) -> Reply {
                match reply.kind {
                    $($kind => Reply::$name $(($(reply.$field),*))?,)*
                    kind => unreachable!("reply {kind} of libsapyguendo"),
                }
            }
        }

        /// Writes the reply as `supload script` does.
        impl fmt::Display for Reply {
            fn fmt(&self, f: &mut fmt::Formatter<'_>) -> fmt::Result {
                match self {
                    $(Reply::$name $(($($field),*))? => write!(f, $text),)*
                }
            }
        }
    };
}

replies! {
    /// The child was started under this number.
    0 Started(number: u64) = "ok {number}",
    /// The start function ignored the start.
    1 Undefined = "ok undefined",
    /// The start function failed, with this code.
    2 StartFailed(code: u32) = "error start_failed {code}",
    /// There are as many children as there may be.
    3 Full = "error full",
    /// The child ended, and is not started again.
    4 Removed(number: u64) = "removed {number}",
    /// The end of this significant child took the supervisor down.
    5 ShutDown(number: u64) = "shut_down {number}",
    /// The first child was started again, as the second.
    6 Restarted(number: u64, next: u64) = "restarted {number} {next}",
    /// The restart of this child failed with this code, and waits for a retry.
    7 Restarting(number: u64, code: u32) = "restarting {number} {code}",
    /// The start function ignored the restart of this child, which is not listed any more.
    8 Ignored(number: u64) = "ignored {number}",
    /// No child with this number runs.
    9 Stray(number: u64) = "stray {number}",
    /// No child with this number is listed, or waits for a retry.
    10 NotFound = "error not_found",
    /// The child was ended.
    11 Ended = "ok",
    /// The supervisor was stopped.
    12 Stopped = "stopped",
    /// There were more restarts within the period than are allowed: the supervisor went down.
    13 GaveUp = "gave_up",
    /// The supervisor is down.
    14 Down = "error down",
}

/// How many children there are.
#[derive(Clone, Copy, Debug, PartialEq, Eq, Hash)]
pub struct Counts {
    /// How many templates: 1.
    pub specs: u64,
    /// How many children run.
    pub active: u64,
    /// How many are listed, if they are supervisors.
    pub supervisors: u64,
    /// How many are listed, if they are workers.
    pub workers: u64,
}

/// A listed child.
#[derive(Clone, Copy, Debug, PartialEq, Eq, Hash)]
pub struct Row {
    /// Its number.
    pub number: u64,
    /// Whether it runs, or waits for another try.
    pub is_running: bool,
    /// Its argument.
    pub arg: Text,
}

impl Row {
    pub(crate) fn seen(row: &raw::Row) -> Seen<Option<Row>> {
        match row.status {
            0 => Seen::Up(None),
            3 => Seen::Down,
            status => Seen::Up(Some(Row { number: row.number, is_running: status == 1, arg: Text::told(&row.arg) })),
        }
    }
}

/// What a query answers: a value while the supervisor is up.
#[derive(Clone, Copy, Debug, PartialEq, Eq, Hash)]
pub enum Seen<T> {
    /// The value.
    Up(T),
    /// The supervisor is down.
    Down,
}

impl<T> Seen<T> {
    /// Returns the value, if the supervisor is up.
    pub fn up(self) -> Option<T> {
        match self {
            Seen::Up(value) => Some(value),
            Seen::Down => None,
        }
    }
}
