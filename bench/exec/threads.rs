//! Makes a thread and joins it, with nothing to do between, 2,000 times, and prints how long each took: a case of two behaviours has one.
use std::thread;
use std::time::Instant;

/// The stack of a worker.
const STACK: usize = 2_097_152;

fn main() {
    for _ in 0..2_000 {
        let start = Instant::now();
        let worker = thread::Builder::new().stack_size(STACK).spawn(|| ()).expect("there is a thread");
        worker.join().expect("it ends");
        println!("thread {}", start.elapsed().as_nanos());
    }
}
