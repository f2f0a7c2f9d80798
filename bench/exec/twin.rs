//! A plain Rust program of the same job as `times.rt.txt`: a case of behaviours on threads, with an atomic byte for the verdict
//! of each, and one lock and one condition for all other calls.
#[path = "../twin/mod.rs"]
mod twin;

use std::time::Instant;
use twin::book::{Pass, run_case};
use twin::entry::{Args, Op, Reply, Target, Verdict};

type Job = Box<dyn FnOnce(&mut Pass) -> Option<()> + Send>;

/// Creates and starts a component for each other run, waits until all are done, and sets pass.
fn lead(pass: &mut Pass, behaviours: u16) -> Option<()> {
    for run in 1..behaviours {
        if let Reply::Made(comp) = pass.call(Op::Create { alive: false })? {
            pass.call(Op::Start { comp, run, args: Args::default() })?;
        }
    }
    pass.wait(false, Target::All)?;
    follow(pass)
}

fn follow(pass: &mut Pass) -> Option<()> {
    pass.set_verdict(Verdict::Pass).map(|_| ())
}

fn jobs_of(behaviours: u16) -> Vec<Job> {
    let mut jobs: Vec<Job> = vec![Box::new(move |pass| lead(pass, behaviours))];
    for _ in 1..behaviours {
        jobs.push(Box::new(follow));
    }
    jobs
}

fn time_cases(what: &str, behaviours: u16, cases: u32) {
    for _ in 0..cases {
        let jobs = jobs_of(behaviours);
        let start = Instant::now();
        let report = run_case(jobs.into_iter());
        let nanos = start.elapsed().as_nanos();
        assert_eq!(report.verdict, Verdict::Pass);
        assert_eq!(report.locals.len(), report.logs.len());
        let logged: usize = report.logs.iter().map(|log| log.entries.len()).sum();
        let parked = report.history.iter().filter(|entry| entry.reply == Reply::Parked).count();
        assert_eq!(report.history.len(), logged + parked);
        assert_eq!(report.logs[usize::from(behaviours) - 1].comp, u32::from(behaviours) - 1);
        println!("{what} {nanos}");
    }
}

fn main() {
    time_cases("all", 256, 50);
    time_cases("sixty_four", 64, 200);
    time_cases("two", 2, 2000);
}
