//! The same notes through a `Mutex` round a `VecDeque`, in plain Rust: what the inbox is compared with.
use std::collections::VecDeque;
use std::sync::Mutex;
use std::thread;
use std::time::Instant;

const NOTES: u64 = 2_000_000;
const CAPACITY: usize = 1024;

#[allow(dead_code)]
#[derive(Clone, Copy)]
struct Text {
    bytes: [u8; 40],
    len: usize,
}

#[allow(dead_code)]
enum Reason {
    Normal,
    Shutdown,
    ShutdownWith(Text),
    Other(Text),
}

#[allow(dead_code)]
struct Note {
    poster: u64,
    serial: u64,
    number: u64,
    arg: Text,
    reason: Reason,
}

type Inbox = Mutex<VecDeque<Note>>;

fn post(inbox: &Inbox, note: Note) -> Result<(), Note> {
    let mut notes = inbox.lock().unwrap();
    if notes.len() >= CAPACITY {
        return Err(note);
    }
    notes.push_back(note);
    Ok(())
}

fn text(bytes: &[u8]) -> Text {
    let mut text = Text { bytes: [0; 40], len: bytes.len() };
    text.bytes[..bytes.len()].copy_from_slice(bytes);
    text
}

fn post_all(inbox: &Inbox, poster: u64, notes: u64) {
    let mut number = 0;
    while number < notes {
        let arg = text(std::hint::black_box(b"session-17"));
        let note = Note { poster, serial: number, number, arg, reason: Reason::Normal };
        match post(inbox, note) {
            Ok(()) => number += 1,
            Err(_) => thread::yield_now(),
        }
    }
}

fn take_all(inbox: &Inbox, notes: u64) -> u64 {
    let mut taken = 0;
    let mut sum = 0u64;
    while taken < notes {
        let note = inbox.lock().unwrap().pop_front();
        match note {
            Some(note) => {
                taken += 1;
                std::hint::black_box(&note.arg);
                sum = sum.wrapping_add(note.number);
            }
            None => thread::yield_now(),
        }
    }
    sum
}

fn time(posters: u64) {
    let inbox: Inbox = Mutex::new(VecDeque::with_capacity(CAPACITY));
    let start = Instant::now();
    let sum = thread::scope(|scope| {
        for poster in 1..=posters {
            let inbox = &inbox;
            scope.spawn(move || post_all(inbox, poster, NOTES / posters));
        }
        take_all(&inbox, NOTES)
    });
    let took = start.elapsed().as_nanos();
    println!("a note, {posters} posters: {took} ns, {NOTES} times, answer {sum}");
}

fn main() {
    for posters in [1, 2, 4] {
        time(posters);
    }
}
