//! The same loops as `times.rt.txt`, on Rust's own atomic words.
use std::hint::black_box;
use std::sync::atomic::{AtomicU64, Ordering::SeqCst};
use std::thread;
use std::time::Instant;

const ROUNDS: u32 = 20_000_000;
const WORDS: u32 = 500_000;
const REPEATS: u32 = 7;

fn set_often(word: &AtomicU64) -> u64 {
    let mut taken = 0u64;
    for round in 0..ROUNDS {
        let rank = if round & 1 == 0 { 1 } else { 2 };
        if word.fetch_max(rank, SeqCst) < 8 {
            taken += 1;
        }
    }
    taken
}

fn get_often(word: &AtomicU64) -> u64 {
    let mut found = 0u64;
    for _ in 0..ROUNDS {
        if word.load(SeqCst) == 2 {
            found += 1;
        }
    }
    found
}

fn set_new_words() -> u64 {
    let mut worst = 0u64;
    for _ in 0..WORDS {
        let word = black_box(Box::new(AtomicU64::new(0)));
        for rank in 1..4 {
            word.fetch_max(rank, SeqCst);
        }
        if word.load(SeqCst) == 3 {
            worst += 1;
        }
    }
    worst
}

fn get_new_words() -> u64 {
    let mut unset = 0u64;
    for _ in 0..WORDS {
        let word = black_box(Box::new(AtomicU64::new(0)));
        if word.load(SeqCst) == 0 {
            unset += 1;
        }
    }
    unset
}

fn timed(what: &str, count: u32, calls: impl FnOnce() -> u64) {
    let start = Instant::now();
    let answers = calls();
    let picos = start.elapsed().as_nanos() * 1000 / u128::from(count);
    println!("{what} {picos} {answers}");
}

fn both(words: &[AtomicU64], calls: fn(&AtomicU64) -> u64) -> u64 {
    thread::scope(|scope| {
        let other = scope.spawn(|| calls(&words[1]));
        let taken = calls(&words[0]);
        other.join().expect("the other thread ended");
        taken
    })
}

fn main() {
    for _ in 0..REPEATS {
        let words = black_box(vec![AtomicU64::new(0), AtomicU64::new(0)]);
        timed("set_one_thread", ROUNDS, || set_often(&words[0]));
        timed("get_one_thread", ROUNDS, || get_often(&words[0]));
        timed("new_board_and_three_sets", WORDS, set_new_words);
        timed("new_board", WORDS, get_new_words);
        timed("set_two_threads", ROUNDS, || both(&words, set_often));
        timed("get_two_threads", ROUNDS, || both(&words, get_often));
    }
}
