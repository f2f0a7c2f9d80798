//! measure ROUNDS INPUT OURS.. -- THEIRS..: runs two programs on the same input, in turn. Prints a line for each round: the
//! milliseconds of processor time, those by the clock and the peak memory in MiB of the one, and then of the other.
//! (A program that is larger than those that it starts, as an interpreter is, would see its own memory as theirs.)
use std::fs::File;
use std::process::{Command, Stdio};
use std::time::Instant;

#[repr(C)]
#[derive(Default)]
struct Usage {
    user_seconds: i64,
    user_microseconds: i64,
    system_seconds: i64,
    system_microseconds: i64,
    peak_kib: i64,
    others: [i64; 13],
}

unsafe extern "C" {
    fn wait4(pid: i32, status: *mut i32, options: i32, usage: *mut Usage) -> i32;
}

fn run_once(words: &[String], input: &str) -> (Usage, f64) {
    let start = Instant::now();
    let child = Command::new(&words[0])
        .args(&words[1..])
        .stdin(Stdio::from(File::open(input).expect("the input is read")))
        .stdout(Stdio::null())
        .spawn()
        .expect("the program starts");
    let mut usage = Usage::default();
    let mut status = 0;
    unsafe { wait4(child.id() as i32, &mut status, 0, &mut usage) };
    (usage, start.elapsed().as_secs_f64())
}

fn main() {
    let words: Vec<String> = std::env::args().skip(1).collect();
    let [rounds, input, programs @ ..] = words.as_slice() else {
        panic!("measure ROUNDS INPUT OURS.. -- THEIRS..");
    };
    let between = programs.iter().position(|word| word == "--").expect("two programs");
    for _ in 0..rounds.parse().expect("a number of rounds") {
        for program in [&programs[..between], &programs[between + 1..]] {
            let (usage, clock) = run_once(program, input);
            let seconds = (usage.user_seconds + usage.system_seconds) as f64;
            let microseconds = (usage.user_microseconds + usage.system_microseconds) as f64;
            let peak = usage.peak_kib as f64 / 1024.0;
            print!("{:.3} {:.3} {peak:.1} ", seconds * 1e3 + microseconds / 1e3, clock * 1e3);
        }
        println!();
    }
}
