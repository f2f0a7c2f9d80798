//! The loops of `times.rt.txt` in plain Rust: `fetch_max` on an atomic byte, and a push to a log of the thread's own.
use std::hint::{black_box, spin_loop};
use std::sync::atomic::{AtomicU8, AtomicU16, Ordering};
use std::thread;
use std::time::Instant;

const SETTINGS: u32 = 200_000;
const REPEATS: u32 = 7;

#[derive(Clone, Copy)]
#[allow(dead_code)]
enum Op {
    SetVerdict(u8),
    Start { comp: u32, run: u16, args: [u32; 4] },
}

#[derive(Clone, Copy)]
#[allow(dead_code)]
struct Entry {
    caller: u16,
    op: Op,
    is_ok: bool,
}

/// Continues once that many threads have come here.
fn meet(come: &AtomicU16, threads: u16) {
    come.fetch_add(1, Ordering::SeqCst);
    while come.load(Ordering::SeqCst) < threads {
        spin_loop();
    }
}

/// The nanoseconds that the settings of one thread took.
fn sets(run: u16, word: &AtomicU8, come: &AtomicU16, threads: u16) -> u128 {
    let mut log = Vec::new();
    meet(come, threads);
    let start = Instant::now();
    for _ in 0..SETTINGS {
        let found = word.fetch_max(1, Ordering::SeqCst);
        log.push(Entry { caller: run, op: Op::SetVerdict(1), is_ok: found < 8 });
    }
    let nanos = start.elapsed().as_nanos();
    black_box(log);
    nanos
}

fn main() {
    for threads in [1u16, 2, 4] {
        for _ in 0..REPEATS {
            let words: Vec<_> = (0..threads).map(|_| AtomicU8::new(0)).collect();
            let come = &AtomicU16::new(0);
            let longest = thread::scope(|scope| {
                let workers: Vec<_> = (0u16..).zip(&words).map(|(run, word)| scope.spawn(move || sets(run, word, come, threads))).collect();
                workers.into_iter().map(|worker| worker.join().unwrap()).max().unwrap()
            });
            println!("{threads} {longest}");
        }
    }
}
