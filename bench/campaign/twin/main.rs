//! The job of `ttrun run` in plain Rust, written for speed, to be measured next to it.
mod script;
#[path = "../../twin/mod.rs"]
mod twin;

use crate::script::{Behaviour, Case, Place, Status, Step, TargetPlace, read_script};
use crate::twin::book::{Pass, Report, run_case};
use crate::twin::entry::{Args, Entry, Op, Reply, Target, Verdict, put, put_number, put_op, put_reply};
use crate::twin::streams;
use std::io::Read;
use std::process::ExitCode;

/// A pass with the components that have names in its behaviour.
struct Player<'a, 'b> {
    pass: &'a mut Pass<'b>,
    bound: Vec<u32>,
}

impl Player<'_, '_> {
    fn component(&self, place: Place) -> u32 {
        match place {
            Place::Main => 0,
            Place::Own => self.pass.comp,
            Place::Bound(index) => self.bound[index],
        }
    }

    fn target(&self, place: TargetPlace) -> Target {
        match place {
            TargetPlace::One(place) => Target::One(self.component(place)),
            TargetPlace::Any => Target::Any,
            TargetPlace::All => Target::All,
        }
    }

    fn start(&mut self, on: Place, run: u16, places: &[Place]) -> Option<Reply> {
        let mut args = Args::default();
        for place in places {
            args.push(self.component(*place))?;
        }
        self.pass.call(Op::Start { comp: self.component(on), run, args })
    }

    fn create(&mut self, alive: bool) -> Option<Reply> {
        let reply = self.pass.call(Op::Create { alive })?;
        if let Reply::Made(comp) = reply {
            self.bound.push(comp);
        }
        Some(reply)
    }

    fn step(&mut self, step: &Step) -> Option<Reply> {
        match step {
            Step::Create { alive } => self.create(*alive),
            Step::Start { on, run, args } => self.start(*on, *run, args),
            Step::Stop(place) => self.pass.call(Op::Stop(self.target(*place))),
            Step::Kill(place) => self.pass.call(Op::Kill(self.target(*place))),
            Step::Ask(Status::Running, place) => self.pass.call(Op::Running(self.target(*place))),
            Step::Ask(Status::Alive, place) => self.pass.call(Op::Alive(self.target(*place))),
            Step::Ask(Status::Done, place) => self.pass.call(Op::Done(self.target(*place))),
            Step::Ask(Status::Killed, place) => self.pass.call(Op::Killed(self.target(*place))),
            Step::Wait { killed, target } => self.pass.wait(*killed, self.target(*target)),
            Step::SetVerdict(verdict) => self.pass.set_verdict(*verdict),
            Step::GetVerdict => self.pass.get_verdict(),
        }
    }
}

fn play(pass: &mut Pass, steps: &[Step]) -> Option<()> {
    let bound = pass.args.as_slice().to_vec();
    let mut player = Player { pass, bound };
    steps.iter().try_for_each(|step| player.step(step).map(|_| ()))
}

fn run_behaviours(behaviours: &[Behaviour]) -> Report {
    run_case(behaviours.iter().map(|behaviour| |pass: &mut Pass| play(pass, &behaviour.steps)))
}

fn put_entry(out: &mut Vec<u8>, entry: &Entry) {
    put_op(out, &entry.op);
    put(out, " -> ");
    put_reply(out, entry.reply);
}

fn put_case(out: &mut Vec<u8>, case: &Case, report: &Report) {
    put(out, "testcase ");
    put(out, case.name);
    for log in &report.logs {
        put(out, "\nrun ");
        put_number(out, u32::from(log.run));
        put(out, " ");
        put(out, case.behaviours[usize::from(log.run)].name);
        put(out, " on ");
        put_number(out, log.comp);
        for entry in &log.entries {
            put(out, "\n  ");
            put_entry(out, entry);
        }
    }
    for (comp, verdict) in (0..).zip(&report.locals) {
        put(out, "\nlocal ");
        put_number(out, comp);
        put(out, " ");
        put(out, verdict.name());
    }
    put(out, "\nverdict ");
    put(out, report.verdict.name());
    put(out, "\n");
}

/// The history of a case, as `run --history` writes it.
fn put_history(out: &mut Vec<u8>, case: &Case, report: &Report) {
    put(out, "history 2 ");
    put(out, case.name);
    put(out, " ");
    put_number(out, case.behaviours.len() as u32);
    for entry in &report.history {
        put(out, "\n");
        put_number(out, u32::from(entry.run));
        put(out, " ");
        put_entry(out, entry);
    }
    put(out, "\nend ");
    put(out, report.verdict.name());
    put(out, "\n");
}

fn put_tally(out: &mut Vec<u8>, verdicts: &[Verdict]) {
    put(out, "cases ");
    put_number(out, verdicts.len() as u32);
    for verdict in Verdict::ALL {
        put(out, " ");
        put(out, verdict.name());
        put(out, " ");
        put_number(out, verdicts.iter().filter(|other| **other == verdict).count() as u32);
    }
    put(out, "\ncomplete\n");
}

fn main() -> ExitCode {
    let is_history = std::env::args().any(|word| word == "--history");
    let mut text = String::new();
    std::io::stdin().read_to_string(&mut text).expect("standard input is read");
    let Some(cases) = read_script(&text) else {
        return ExitCode::from(3);
    };
    let mut out = Vec::new();
    let mut verdicts = Vec::with_capacity(cases.len());
    for case in &cases {
        let report = run_behaviours(&case.behaviours);
        if is_history {
            put_history(&mut out, case, &report);
        } else {
            put_case(&mut out, case, &report);
        }
        verdicts.push(report.verdict);
    }
    if !is_history {
        put_tally(&mut out, &verdicts);
    }
    streams::print(&out);
    ExitCode::from(verdicts.iter().max().map_or(0, |worst| worst.status()))
}
