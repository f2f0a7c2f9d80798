//! What a history is made of, and the text of it.
pub const MOST_ARGUMENTS: usize = 4;

#[derive(Clone, Copy, PartialEq, Eq, PartialOrd, Ord, Debug)]
pub enum Verdict {
    None,
    Pass,
    Inconc,
    Fail,
    Error,
}

impl Verdict {
    /// From best to worst.
    pub const ALL: [Verdict; 5] = [Verdict::None, Verdict::Pass, Verdict::Inconc, Verdict::Fail, Verdict::Error];

    pub fn name(self) -> &'static str {
        match self {
            Verdict::None => "none",
            Verdict::Pass => "pass",
            Verdict::Inconc => "inconc",
            Verdict::Fail => "fail",
            Verdict::Error => "error",
        }
    }

    #[inline]
    pub fn named(word: &[u8]) -> Option<Verdict> {
        Verdict::ALL.into_iter().find(|verdict| verdict.name().as_bytes() == word)
    }

    /// The verdict at this place from best to worst.
    pub fn of_rank(rank: u8) -> Verdict {
        Verdict::ALL[usize::from(rank.min(Verdict::Error as u8))]
    }

    /// The verdict that a user may set by this name.
    #[inline]
    pub fn settable(word: &[u8]) -> Option<Verdict> {
        Verdict::named(word).filter(|verdict| *verdict != Verdict::Error)
    }

    /// The exit status of a program whose worst verdict this is.
    pub fn status(self) -> u8 {
        match self {
            Verdict::None | Verdict::Pass => 0,
            Verdict::Inconc | Verdict::Fail => 1,
            Verdict::Error => 2,
        }
    }
}

#[derive(Clone, Copy, PartialEq, Eq)]
pub enum Target {
    One(u32),
    Any,
    All,
}

#[derive(Clone, Copy, Default)]
pub struct Args {
    count: u8,
    comps: [u32; MOST_ARGUMENTS],
}

impl Args {
    pub fn push(&mut self, comp: u32) -> Option<()> {
        *self.comps.get_mut(usize::from(self.count))? = comp;
        self.count += 1;
        Some(())
    }

    pub fn as_slice(&self) -> &[u32] {
        &self.comps[..usize::from(self.count)]
    }
}

#[derive(Clone, Copy)]
pub enum Op {
    Create { alive: bool },
    Start { comp: u32, run: u16, args: Args },
    Stop(Target),
    Kill(Target),
    Running(Target),
    Alive(Target),
    Done(Target),
    Killed(Target),
    Wait { killed: bool, target: Target },
    Wake { killed: bool, target: Target },
    SetVerdict(Verdict),
    GetVerdict,
    Finish,
}

#[derive(Clone, Copy, PartialEq, Eq)]
pub enum Fault {
    NoComponent,
    NotMain,
    StartMain,
    AlreadyRunning,
    NotStartable,
    NoBehaviour,
    TooMany,
    Stuck,
}

impl Fault {
    const ALL: [Fault; 8] = [
        Fault::NoComponent,
        Fault::NotMain,
        Fault::StartMain,
        Fault::AlreadyRunning,
        Fault::NotStartable,
        Fault::NoBehaviour,
        Fault::TooMany,
        Fault::Stuck,
    ];

    fn name(self) -> &'static str {
        match self {
            Fault::NoComponent => "no-component",
            Fault::NotMain => "not-main",
            Fault::StartMain => "start-main",
            Fault::AlreadyRunning => "already-running",
            Fault::NotStartable => "not-startable",
            Fault::NoBehaviour => "no-behaviour",
            Fault::TooMany => "too-many",
            Fault::Stuck => "stuck",
        }
    }

    pub fn named(word: &[u8]) -> Option<Fault> {
        Fault::ALL.into_iter().find(|fault| fault.name().as_bytes() == word)
    }
}

#[derive(Clone, Copy, PartialEq, Eq)]
pub enum Reply {
    Made(u32),
    Ok,
    Answer(bool),
    Local(Verdict),
    Matched,
    Parked,
    Ended,
    Fault(Fault),
}

#[derive(Clone, Copy)]
pub struct Entry {
    pub run: u16,
    pub op: Op,
    pub reply: Reply,
}

#[inline]
pub fn put(out: &mut Vec<u8>, text: &str) {
    out.extend_from_slice(text.as_bytes());
}

#[inline]
pub fn put_number(out: &mut Vec<u8>, mut number: u32) {
    let mut digits = [0u8; 10];
    let mut at = 10;
    loop {
        at -= 1;
        digits[at] = b'0' + (number % 10) as u8;
        number /= 10;
        if number == 0 {
            break;
        }
    }
    out.extend_from_slice(&digits[at..]);
}

fn put_target(out: &mut Vec<u8>, words: &str, target: Target) {
    put(out, words);
    match target {
        Target::One(comp) => put_number(out, comp),
        Target::Any => put(out, "any"),
        Target::All => put(out, "all"),
    }
}

fn put_start(out: &mut Vec<u8>, comp: u32, run: u16, args: &Args) {
    put(out, "start ");
    put_number(out, comp);
    out.push(b' ');
    put_number(out, u32::from(run));
    for arg in args.as_slice() {
        out.push(b' ');
        put_number(out, *arg);
    }
}

pub fn put_op(out: &mut Vec<u8>, op: &Op) {
    match op {
        Op::Create { alive: false } => put(out, "create"),
        Op::Create { alive: true } => put(out, "create alive"),
        Op::Start { comp, run, args } => put_start(out, *comp, *run, args),
        Op::Stop(target) => put_target(out, "stop ", *target),
        Op::Kill(target) => put_target(out, "kill ", *target),
        Op::Running(target) => put_target(out, "running ", *target),
        Op::Alive(target) => put_target(out, "alive ", *target),
        Op::Done(target) => put_target(out, "done ", *target),
        Op::Killed(target) => put_target(out, "killed ", *target),
        Op::Wait { killed: false, target } => put_target(out, "wait done ", *target),
        Op::Wait { killed: true, target } => put_target(out, "wait killed ", *target),
        Op::Wake { killed: false, target } => put_target(out, "wake done ", *target),
        Op::Wake { killed: true, target } => put_target(out, "wake killed ", *target),
        Op::SetVerdict(verdict) => {
            put(out, "setverdict ");
            put(out, verdict.name());
        }
        Op::GetVerdict => put(out, "getverdict"),
        Op::Finish => put(out, "finish"),
    }
}

#[inline]
pub fn put_reply(out: &mut Vec<u8>, reply: Reply) {
    match reply {
        Reply::Made(comp) => {
            put(out, "made ");
            put_number(out, comp);
        }
        Reply::Ok => put(out, "ok"),
        Reply::Answer(true) => put(out, "true"),
        Reply::Answer(false) => put(out, "false"),
        Reply::Local(verdict) => put(out, verdict.name()),
        Reply::Matched => put(out, "matched"),
        Reply::Parked => put(out, "parked"),
        Reply::Ended => put(out, "ended"),
        Reply::Fault(fault) => {
            put(out, "error ");
            put(out, fault.name());
        }
    }
}
