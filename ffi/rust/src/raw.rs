//! The library as `sapyguendo.h` declares it.
use std::ffi::c_void;

pub const DONE: u32 = 0;
pub const STALE: u32 = 16;
pub const MOST_LINE: usize = 160;
pub const VERSION: u32 = 200;

/// A struct of the library.
pub trait Struct: Sized {}

/// Returns a struct of zeros: a closed supervisor, an empty text.
pub fn zeros<T: Struct>() -> T {
    // SAFETY: each has numbers, a bool and a pointer alone.
    unsafe { std::mem::zeroed() }
}

macro_rules! structs {
    ($($name:ident { $($field:ident: $type:ty,)* })*) => {
        $(
            #[repr(C)]
            pub struct $name {
                $(pub $field: $type,)*
            }

            impl Struct for $name {}
        )*
    };
}

structs! {
    Sup { at: *mut c_void, is_open: bool, }
    Text { len: u64, bytes: [u8; 40], }
    Entry { handle: u64, serial: u64, moment: u64, number: u64, operation: u32, reason: u32, answer: u32, code: u32, text: Text, }
    Reply { kind: u32, code: u32, number: u64, next: u64, }
    Counts { specs: u64, active: u64, supervisors: u64, workers: u64, stamp: u64, is_down: bool, }
    Row { number: u64, status: u32, arg: Text, }
}

extern "C" {
    pub fn sup_version() -> u32;
    pub fn sup_open(sup: *mut Sup, text: *const u8, size: usize, entries: u64) -> u32;
    pub fn sup_close(sup: *mut Sup) -> u32;
    pub fn sup_asks(sup: *mut Sup, entry: *const Entry, asked: *mut Text) -> u32;
    pub fn sup_step(sup: *mut Sup, entry: *const Entry, reply: *mut Reply) -> u32;
    pub fn sup_step_at(sup: *mut Sup, entry: *const Entry, stamp: u64, token: *mut u64, reply: *mut Reply) -> u32;
    pub fn sup_count(sup: *mut Sup, counts: *mut Counts) -> u32;
    pub fn sup_child(sup: *mut Sup, number: u64, row: *mut Row) -> u32;
    pub fn sup_row(sup: *mut Sup, index: u64, row: *mut Row) -> u32;
    pub fn sup_left(sup: *mut Sup, index: u64, row: *mut Row) -> u32;
    pub fn sup_token(sup: *mut Sup, number: u64, token: *mut u64) -> u32;
    pub fn sup_write_entry(entry: *const Entry, room: *mut u8, size: usize, len: *mut u64) -> u32;
    pub fn sup_read_entry(text: *const u8, size: usize, entry: *mut Entry, len: *mut u64) -> u32;
}
