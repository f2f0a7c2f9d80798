//! Runs a test case: each behaviour on a thread of its own, an atomic byte for the verdict of each. There is one lock around the
//! table with the history of all other calls, and one condition that is notified after each entry.
use super::entry::{Args, Entry, Op, Reply, Target, Verdict};
use super::table::Table;
use std::sync::atomic::{AtomicU8, Ordering};
use std::sync::{Condvar, Mutex};
use std::thread;

type Start = (u32, Args);

struct Book {
    table: Table,
    history: Vec<Entry>,
    starts: Vec<Option<Start>>,
}

/// The bit of a closed word.
const CLOSED: u8 = 8;

/// The word of a run that was not started.
const UNBEGUN: u8 = 16;

impl Book {
    fn record(&mut self, words: &[AtomicU8], run: u16, op: Op) -> Reply {
        let reply = self.table.play(run, &op);
        if let (Op::Start { comp, run: started, args }, Reply::Ok) = (op, reply) {
            self.starts[usize::from(started)] = Some((comp, args));
            words[usize::from(started)].store(self.table.local(comp) as u8, Ordering::SeqCst);
        }
        self.history.push(Entry { run, op, reply });
        if matches!(op, Op::Stop(_) | Op::Kill(_) | Op::Finish) || matches!(reply, Reply::Fault(_)) {
            self.close_words(words);
        }
        reply
    }

    /// Closes the word of each run that was halted, and takes its verdict into the table.
    fn close_words(&mut self, words: &[AtomicU8]) {
        for (run, word) in (0u16..).zip(words) {
            if word.load(Ordering::SeqCst) < CLOSED && !self.table.is_active(run) {
                let found = word.fetch_or(CLOSED, Ordering::SeqCst);
                self.table.take_verdict(run, Verdict::of_rank(found));
            }
        }
    }
}

struct Shared {
    words: Vec<AtomicU8>,
    book: Mutex<Book>,
    changed: Condvar,
}

impl Shared {
    fn new(behaviours: usize) -> Shared {
        let mut starts = vec![None; behaviours];
        starts[0] = Some((0, Args::default()));
        let book = Book { table: Table::new(behaviours), history: Vec::with_capacity(4 * behaviours), starts };
        let words = (0..behaviours).map(|run| AtomicU8::new(if run == 0 { 0 } else { UNBEGUN })).collect();
        Shared { words, book: Mutex::new(book), changed: Condvar::new() }
    }

    fn record(&self, run: u16, op: Op) -> Reply {
        let reply = self.book.lock().unwrap().record(&self.words, run, op);
        self.changed.notify_all();
        reply
    }

    /// Records the wake of a parked wait in the first hold in which it is not parked again.
    fn wake(&self, run: u16, killed: bool, target: Target) -> Reply {
        let book = self.book.lock().unwrap();
        let mut book = self.changed.wait_while(book, |book| book.table.would_park(run, killed, target)).unwrap();
        let reply = book.record(&self.words, run, Op::Wake { killed, target });
        drop(book);
        self.changed.notify_all();
        reply
    }

    /// What the run was started with; none once the case is over without.
    fn await_start(&self, run: u16) -> Option<Start> {
        let is_waiting = |book: &mut Book| book.starts[usize::from(run)].is_none() && !book.table.is_over();
        let book = self.book.lock().unwrap();
        let book = self.changed.wait_while(book, is_waiting).unwrap();
        book.starts[usize::from(run)]
    }
}

/// The calls of a run. Each answers none once it has ended the run.
pub struct Pass<'a> {
    shared: &'a Shared,
    run: u16,
    pub comp: u32,
    pub args: Args,
    log: Vec<Entry>,
}

impl Pass<'_> {
    fn log(&mut self, op: Op, reply: Reply) -> Option<Reply> {
        self.log.push(Entry { run: self.run, op, reply });
        let ends = match op {
            Op::Stop(target) | Op::Kill(target) => match target {
                Target::One(comp) => comp == 0 || comp == self.comp,
                _ => self.comp != 0,
            },
            _ => false,
        };
        let is_over = ends || matches!(reply, Reply::Ended | Reply::Fault(_));
        (!is_over).then_some(reply)
    }

    pub fn call(&mut self, op: Op) -> Option<Reply> {
        let reply = self.shared.record(self.run, op);
        self.log(op, reply)
    }

    pub fn set_verdict(&mut self, verdict: Verdict) -> Option<Reply> {
        let found = self.shared.words[usize::from(self.run)].fetch_max(verdict as u8, Ordering::SeqCst);
        self.log(Op::SetVerdict(verdict), if found < CLOSED { Reply::Ok } else { Reply::Ended })
    }

    pub fn get_verdict(&mut self) -> Option<Reply> {
        let found = self.shared.words[usize::from(self.run)].load(Ordering::SeqCst);
        let reply = if found < CLOSED { Reply::Local(Verdict::of_rank(found)) } else { Reply::Ended };
        self.log(Op::GetVerdict, reply)
    }

    pub fn wait(&mut self, killed: bool, target: Target) -> Option<Reply> {
        let op = Op::Wait { killed, target };
        let mut reply = self.shared.record(self.run, op);
        if reply == Reply::Parked {
            reply = self.shared.wake(self.run, killed, target);
        }
        self.log(op, reply)
    }
}

/// What a run did. A wait that was parked is one entry, a Wait with the reply of its Wake.
pub struct RunLog {
    pub run: u16,
    pub comp: u32,
    pub entries: Vec<Entry>,
}

pub struct Report {
    pub history: Vec<Entry>,
    pub logs: Vec<RunLog>,
    pub locals: Vec<Verdict>,
    pub verdict: Verdict,
}

/// Makes the calls of a run once it is started, and its finish where none of them ended it.
fn work(shared: &Shared, run: u16, job: impl FnOnce(&mut Pass) -> Option<()>) -> Option<RunLog> {
    let (comp, args) = shared.await_start(run)?;
    let mut pass = Pass { shared, run, comp, args, log: Vec::new() };
    if job(&mut pass).is_some() {
        pass.call(Op::Finish);
    }
    Some(RunLog { run, comp, entries: pass.log })
}

fn is_verdict_call(op: &Op) -> bool {
    matches!(op, Op::SetVerdict(_) | Op::GetVerdict)
}

/// Moves the verdict entries at the head of what is left of a log, up to one that was replied Ended.
fn put_head(all: &mut Vec<Entry>, rest: &mut &[Entry]) {
    while let [first, others @ ..] = *rest {
        if !is_verdict_call(&first.op) || first.reply == Reply::Ended {
            break;
        }
        all.push(*first);
        *rest = others;
    }
}

/// The history with the verdict entries of the logs.
fn merged(history: &[Entry], behaviours: usize, logs: &[RunLog]) -> Vec<Entry> {
    let logged: usize = logs.iter().map(|log| log.entries.len()).sum();
    let mut all = Vec::with_capacity(history.len() + logged);
    let mut rests: Vec<&[Entry]> = vec![&[]; behaviours];
    for log in logs {
        rests[usize::from(log.run)] = &log.entries;
    }
    put_head(&mut all, &mut rests[0]);
    for entry in history {
        all.push(*entry);
        if entry.reply != Reply::Parked {
            let rest = &mut rests[usize::from(entry.run)];
            *rest = rest.get(1..).unwrap_or(&[]);
            put_head(&mut all, rest);
        }
        if let (Op::Start { run, .. }, Reply::Ok) = (entry.op, entry.reply) {
            put_head(&mut all, &mut rests[usize::from(run)]);
        }
    }
    for rest in rests {
        all.extend_from_slice(rest);
    }
    all
}

/// Runs a case of as many behaviours as there are jobs; a job returns none if one of its calls ended its run.
pub fn run_case<Job>(jobs: impl ExactSizeIterator<Item = Job>) -> Report
where
    Job: FnOnce(&mut Pass) -> Option<()> + Send,
{
    let behaviours = jobs.len();
    let shared = Shared::new(behaviours);
    let mut jobs = (0u16..).zip(jobs);
    let mut logs = Vec::with_capacity(behaviours);
    thread::scope(|scope| {
        let shared = &shared;
        let first = jobs.next();
        let workers: Vec<_> = jobs.map(|(run, job)| scope.spawn(move || work(shared, run, job))).collect();
        logs.extend(first.and_then(|(run, job)| work(shared, run, job)));
        for worker in workers {
            logs.extend(worker.join().unwrap());
        }
    });
    let Book { table, history, .. } = shared.book.into_inner().unwrap();
    let history = merged(&history, behaviours, &logs);
    Report { history, logs, locals: table.locals().collect(), verdict: table.overall() }
}
