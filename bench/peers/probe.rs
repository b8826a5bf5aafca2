//! How fast a core is just now: the nanoseconds of a turn of a loop that waits for nothing, over some 20 milliseconds. It takes about
//! twice as long while the core seems to be shared with another machine's work.
use std::arch::asm;
use std::time::Instant;

const TURNS: u64 = 20_000_000;

/// Adds to seven registers, again and again.
fn keep_busy() {
    // SAFETY: it changes the registers that are named, and no memory.
    unsafe {
        asm!(
            "2:",
            "add {a}, 1", "add {b}, 1", "add {c}, 1", "add {d}, 1", "add {e}, 1", "add {f}, 1", "add {g}, 1",
            "dec {left}",
            "jnz 2b",
            left = inout(reg) TURNS => _,
            a = out(reg) _, b = out(reg) _, c = out(reg) _, d = out(reg) _, e = out(reg) _, f = out(reg) _, g = out(reg) _,
            options(nomem, nostack),
        );
    }
}

fn main() {
    let start = Instant::now();
    keep_busy();
    println!("{:.3}", start.elapsed().as_nanos() as f64 / TURNS as f64);
}
