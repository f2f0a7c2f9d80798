//! The component table: phases, counts, excuses, waits and local verdicts.
use super::entry::{Fault, Op, Reply, Target, Verdict};

const MOST_COMPONENTS: usize = 1000;

#[derive(Clone, Copy, PartialEq, Eq)]
enum Phase {
    Inactive,
    Running(u16),
    Stopped,
    Killed,
}

struct Comp {
    phase: Phase,
    alive_type: bool,
    started: bool,
    excused: bool,
    local: Verdict,
}

#[derive(Clone, Copy)]
struct Run {
    comp: Option<u32>,
    waits: Option<(bool, Target)>,
}

pub struct Table {
    comps: Vec<Comp>,
    runs: Vec<Run>,
    running: usize,
    done: usize,
    killed: usize,
    lapsed: usize,
    over: bool,
    worst: Verdict,
}

impl Table {
    pub fn new(behaviours: usize) -> Table {
        let mut runs = vec![Run { comp: None, waits: None }; behaviours];
        runs[0].comp = Some(0);
        let mut comps = Vec::with_capacity(behaviours);
        comps.push(Comp {
            phase: Phase::Running(0),
            alive_type: false,
            started: true,
            excused: false,
            local: Verdict::None,
        });
        Table { comps, runs, running: 0, done: 0, killed: 0, lapsed: 0, over: false, worst: Verdict::None }
    }

    pub fn is_over(&self) -> bool {
        self.over
    }

    pub fn comp_of(&self, run: u16) -> Option<u32> {
        self.runs.get(usize::from(run))?.comp
    }

    pub fn locals(&self) -> impl Iterator<Item = Verdict> {
        self.comps.iter().map(|comp| comp.local)
    }

    pub fn overall(&self) -> Verdict {
        self.worst
    }

    fn count(&mut self, comp: usize, up: bool) {
        if comp == 0 {
            return;
        }
        let of = &self.comps[comp];
        let running = matches!(of.phase, Phase::Running(_)) as usize;
        let done = matches!(of.phase, Phase::Stopped | Phase::Killed) as usize;
        let killed = (of.phase == Phase::Killed) as usize;
        let lapsed = (of.started && running == 0 && !of.excused) as usize;
        if up {
            self.running += running;
            self.done += done;
            self.killed += killed;
            self.lapsed += lapsed;
        } else {
            self.running -= running;
            self.done -= done;
            self.killed -= killed;
            self.lapsed -= lapsed;
        }
    }

    #[inline(always)]
    fn halt(&mut self, comp: usize, kill: bool, outside: bool) {
        self.count(comp, false);
        let of = &mut self.comps[comp];
        if matches!(of.phase, Phase::Running(_)) {
            of.excused = outside;
            of.phase = if of.alive_type { Phase::Stopped } else { Phase::Killed };
        }
        if kill {
            of.phase = Phase::Killed;
        }
        self.count(comp, true);
    }

    fn end(&mut self, own: usize, named: Option<Target>) {
        self.over = true;
        for comp in 0..self.comps.len() {
            let outside = comp != own
                && match named {
                    Some(Target::One(c)) => c as usize == comp,
                    Some(_) => comp > 0,
                    None => false,
                };
            self.halt(comp, true, outside);
        }
    }

    fn give(&mut self, comp: usize, verdict: Verdict) {
        let local = &mut self.comps[comp].local;
        *local = verdict.max(*local);
        self.worst = verdict.max(self.worst);
    }

    fn known(&self, target: Target) -> bool {
        match target {
            Target::One(comp) => (comp as usize) < self.comps.len(),
            _ => true,
        }
    }

    fn parallel(&self) -> usize {
        self.comps.len() - 1
    }

    fn is_running(&self, target: Target) -> bool {
        match target {
            Target::One(c) => matches!(self.comps[c as usize].phase, Phase::Running(_)),
            Target::Any => self.running > 0,
            Target::All => self.lapsed == 0,
        }
    }

    fn is_alive(&self, target: Target) -> bool {
        match target {
            Target::One(c) => self.comps[c as usize].phase != Phase::Killed,
            Target::Any => self.killed < self.parallel(),
            Target::All => self.killed == 0,
        }
    }

    fn is_done(&self, target: Target) -> bool {
        match target {
            Target::One(c) => matches!(self.comps[c as usize].phase, Phase::Stopped | Phase::Killed),
            Target::Any => self.done > 0,
            Target::All => self.running == 0,
        }
    }

    fn is_killed(&self, target: Target) -> bool {
        match target {
            Target::One(c) => self.comps[c as usize].phase == Phase::Killed,
            Target::Any => self.killed > 0,
            Target::All => self.killed == self.parallel(),
        }
    }

    fn holds(&self, killed: bool, target: Target) -> bool {
        if killed { self.is_killed(target) } else { self.is_done(target) }
    }

    pub fn is_active(&self, run: u16) -> bool {
        self.active(run).is_some()
    }

    pub fn local(&self, comp: u32) -> Verdict {
        self.comps[comp as usize].local
    }

    /// Takes in the verdict of a run that was halted.
    pub fn take_verdict(&mut self, run: u16, verdict: Verdict) {
        if let Some(comp) = self.comp_of(run) {
            self.give(comp as usize, verdict);
        }
    }

    fn active(&self, run: u16) -> Option<usize> {
        let comp = self.comp_of(run)? as usize;
        (self.comps[comp].phase == Phase::Running(run)).then_some(comp)
    }

    /// Whether no run continues. The last ones are asked first, as they are the likeliest to.
    fn is_stuck(&self) -> bool {
        self.runs.iter().enumerate().rev().all(|(run, state)| {
            self.active(run as u16).is_none()
                || matches!(state.waits, Some((killed, target)) if !self.holds(killed, target))
        })
    }

    /// Whether a wake of a parked wait would be parked again.
    pub fn would_park(&self, run: u16, killed: bool, target: Target) -> bool {
        self.active(run).is_some() && !self.holds(killed, target) && !(run == 0 && self.is_stuck())
    }

    fn start_fault(&self, comp: u32, run: u16, args: &[u32]) -> Option<Fault> {
        if args.iter().any(|c| *c as usize >= self.comps.len()) {
            return Some(Fault::NoComponent);
        }
        if comp == 0 {
            return Some(Fault::StartMain);
        }
        match self.comps[comp as usize].phase {
            Phase::Running(_) => return Some(Fault::AlreadyRunning),
            Phase::Killed => return Some(Fault::NotStartable),
            Phase::Inactive | Phase::Stopped => {}
        }
        match self.runs.get(usize::from(run)) {
            Some(state) if state.comp.is_none() => None,
            _ => Some(Fault::NoBehaviour),
        }
    }

    fn fault(&self, run: u16, op: &Op) -> Option<Fault> {
        let named = match op {
            Op::Stop(t) | Op::Kill(t) | Op::Running(t) | Op::Alive(t) | Op::Done(t) | Op::Killed(t) => *t,
            Op::Wait { target, .. } | Op::Wake { target, .. } => *target,
            Op::Start { comp, .. } => Target::One(*comp),
            Op::Create { .. } if self.comps.len() >= MOST_COMPONENTS => return Some(Fault::TooMany),
            _ => return None,
        };
        if !self.known(named) {
            return Some(Fault::NoComponent);
        }
        if !matches!(named, Target::One(_)) && run != 0 {
            return Some(Fault::NotMain);
        }
        match op {
            Op::Start { comp, run: started, args } => self.start_fault(*comp, *started, args.as_slice()),
            _ => None,
        }
    }

    /// Makes a call.
    #[inline]
    pub fn play(&mut self, run: u16, op: &Op) -> Reply {
        let own = self.active(run);
        if let Some(state) = self.runs.get_mut(usize::from(run)) {
            state.waits = None;
        }
        let Some(own) = own else {
            return Reply::Ended;
        };
        if let Some(fault) = self.fault(run, op) {
            return self.fail(own, fault);
        }
        match op {
            Op::Create { alive } => self.create(*alive),
            Op::Start { comp, run: started, .. } => self.start(*comp, *started),
            Op::Stop(target) => self.halt_group(own, *target, false),
            Op::Kill(target) => self.halt_group(own, *target, true),
            Op::Running(target) => Reply::Answer(self.is_running(*target)),
            Op::Alive(target) => Reply::Answer(self.is_alive(*target)),
            Op::Done(target) => Reply::Answer(self.is_done(*target)),
            Op::Killed(target) => Reply::Answer(self.is_killed(*target)),
            Op::Wait { killed, target } => self.wait(run, *killed, *target),
            Op::Wake { killed, target } => {
                self.runs[usize::from(run)].waits = Some((*killed, *target));
                if run == 0 && !self.holds(*killed, *target) && self.is_stuck() {
                    return self.fail(own, Fault::Stuck);
                }
                self.wait(run, *killed, *target)
            }
            Op::SetVerdict(verdict) => {
                self.give(own, *verdict);
                Reply::Ok
            }
            Op::GetVerdict => Reply::Local(self.comps[own].local),
            Op::Finish => self.finish(own),
        }
    }

    fn finish(&mut self, own: usize) -> Reply {
        if own == 0 {
            self.end(own, None);
        } else {
            self.halt(own, false, false);
        }
        Reply::Ok
    }

    fn fail(&mut self, own: usize, fault: Fault) -> Reply {
        self.give(own, Verdict::Error);
        self.end(own, None);
        Reply::Fault(fault)
    }

    fn create(&mut self, alive_type: bool) -> Reply {
        self.comps.push(Comp {
            phase: Phase::Inactive,
            alive_type,
            started: false,
            excused: false,
            local: Verdict::None,
        });
        Reply::Made(self.comps.len() as u32 - 1)
    }

    fn start(&mut self, comp: u32, run: u16) -> Reply {
        self.count(comp as usize, false);
        let of = &mut self.comps[comp as usize];
        of.phase = Phase::Running(run);
        of.started = true;
        of.excused = false;
        self.count(comp as usize, true);
        self.runs[usize::from(run)].comp = Some(comp);
        Reply::Ok
    }

    fn wait(&mut self, run: u16, killed: bool, target: Target) -> Reply {
        let holds = self.holds(killed, target);
        self.runs[usize::from(run)].waits = (!holds).then_some((killed, target));
        if holds { Reply::Matched } else { Reply::Parked }
    }

    fn halt_group(&mut self, own: usize, target: Target, kill: bool) -> Reply {
        match target {
            Target::One(0) => self.end(own, Some(target)),
            Target::One(comp) => self.halt(comp as usize, kill, comp as usize != own),
            _ => {
                for comp in 1..self.comps.len() {
                    self.halt(comp, kill, comp != own);
                }
            }
        }
        Reply::Ok
    }
}
