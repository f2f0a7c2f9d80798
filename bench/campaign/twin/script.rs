//! Reads a script. Names are resolved; a script with a fault is refused without saying which.
use crate::twin::entry::{MOST_ARGUMENTS, Verdict};
use crate::twin::words::is_killed;
use std::collections::HashMap;

#[derive(Clone, Copy)]
pub enum Place {
    Main,
    Own,
    Bound(usize),
}

#[derive(Clone, Copy)]
pub enum TargetPlace {
    One(Place),
    Any,
    All,
}

#[derive(Clone, Copy)]
pub enum Status {
    Running,
    Alive,
    Done,
    Killed,
}

pub enum Step {
    Create { alive: bool },
    Start { on: Place, run: u16, args: Vec<Place> },
    Stop(TargetPlace),
    Kill(TargetPlace),
    Ask(Status, TargetPlace),
    Wait { killed: bool, target: TargetPlace },
    SetVerdict(Verdict),
    GetVerdict,
}

pub struct Behaviour<'a> {
    pub name: &'a str,
    pub parameters: usize,
    pub steps: Vec<Step>,
}

pub struct Case<'a> {
    pub name: &'a str,
    pub behaviours: Vec<Behaviour<'a>>,
}

/// A start whose behaviour may come further below: the behaviour and the step in it, and the name.
struct Pending<'a> {
    behaviour: usize,
    step: usize,
    name: &'a str,
}

/// The names that are bound in the behaviour that is open.
#[derive(Default)]
struct Scope<'a> {
    names: HashMap<&'a str, usize>,
}

impl<'a> Scope<'a> {
    fn bind(&mut self, name: &'a str) -> Option<()> {
        let next = self.names.len();
        self.names.insert(name, next).is_none().then_some(())
    }

    fn place(&self, word: &str) -> Option<Place> {
        Some(match word {
            "mtc" => Place::Main,
            "self" => Place::Own,
            _ => Place::Bound(*self.names.get(word)?),
        })
    }

    fn target(&self, word: &str) -> Option<TargetPlace> {
        Some(match word {
            "any" => TargetPlace::Any,
            "all" => TargetPlace::All,
            _ => TargetPlace::One(self.place(word)?),
        })
    }
}

type Words<'a> = std::str::SplitAsciiWhitespace<'a>;

/// A step; a start has run 0 still, and the name of its behaviour is answered too.
fn read_step<'a>(first: &str, words: &mut Words<'a>, scope: &mut Scope<'a>) -> Option<(Step, Option<&'a str>)> {
    let step = match first {
        "create" => {
            scope.bind(words.next()?)?;
            match words.next() {
                None => Step::Create { alive: false },
                Some("alive") => Step::Create { alive: true },
                Some(_) => return None,
            }
        }
        "start" => {
            let on = scope.place(words.next()?)?;
            let name = words.next()?;
            let args = words.map(|word| scope.place(word)).collect::<Option<Vec<_>>>()?;
            return (args.len() <= MOST_ARGUMENTS).then_some((Step::Start { on, run: 0, args }, Some(name)));
        }
        "stop" => Step::Stop(scope.target(words.next()?)?),
        "kill" => Step::Kill(scope.target(words.next()?)?),
        "running" => Step::Ask(Status::Running, scope.target(words.next()?)?),
        "alive" => Step::Ask(Status::Alive, scope.target(words.next()?)?),
        "done" => Step::Ask(Status::Done, scope.target(words.next()?)?),
        "killed" => Step::Ask(Status::Killed, scope.target(words.next()?)?),
        "wait" => {
            let killed = is_killed(words.next()?.as_bytes())?;
            Step::Wait { killed, target: scope.target(words.next()?)? }
        }
        "setverdict" => Step::SetVerdict(Verdict::settable(words.next()?.as_bytes())?),
        "getverdict" => Step::GetVerdict,
        _ => return None,
    };
    Some((step, None))
}

#[derive(Default)]
struct Reader<'a> {
    cases: Vec<Case<'a>>,
    in_case: bool,
    in_behaviour: bool,
    scope: Scope<'a>,
    pending: Vec<Pending<'a>>,
}

impl<'a> Reader<'a> {
    fn read_line(&mut self, line: &'a str) -> Option<()> {
        let mut words = line.split_ascii_whitespace();
        let Some(first) = words.next().filter(|word| !word.starts_with('#')) else {
            return Some(());
        };
        match first {
            "testcase" if !self.in_case => {
                self.cases.push(Case { name: words.next()?, behaviours: Vec::new() });
                self.in_case = true;
            }
            "behaviour" if self.in_case && !self.in_behaviour => self.open(&mut words)?,
            "end" if self.in_behaviour => self.in_behaviour = false,
            "end" if self.in_case => self.close()?,
            _ if self.in_behaviour => {
                let (step, started) = read_step(first, &mut words, &mut self.scope)?;
                self.add(step, started)?;
            }
            _ => return None,
        }
        words.next().is_none().then_some(())
    }

    fn open(&mut self, words: &mut Words<'a>) -> Option<()> {
        let name = words.next()?;
        self.scope.names.clear();
        for word in words {
            self.scope.bind(word)?;
        }
        let behaviour = Behaviour { name, parameters: self.scope.names.len(), steps: Vec::new() };
        self.cases.last_mut()?.behaviours.push(behaviour);
        self.in_behaviour = true;
        Some(())
    }

    fn add(&mut self, step: Step, started: Option<&'a str>) -> Option<()> {
        let behaviours = &mut self.cases.last_mut()?.behaviours;
        let behaviour = behaviours.len() - 1;
        let steps = &mut behaviours[behaviour].steps;
        if let Some(name) = started {
            self.pending.push(Pending { behaviour, step: steps.len(), name });
        }
        steps.push(step);
        Some(())
    }

    /// Ends the test case that is open: each start gets the run of its behaviour.
    fn close(&mut self) -> Option<()> {
        let behaviours = &mut self.cases.last_mut()?.behaviours;
        let runs: HashMap<_, _> =
            behaviours.iter().enumerate().map(|(run, b)| (b.name, (run as u16, b.parameters))).collect();
        if behaviours.first()?.parameters > 0 || runs.len() < behaviours.len() {
            return None;
        }
        for Pending { behaviour, step, name } in self.pending.drain(..) {
            let (found, parameters) = *runs.get(name)?;
            if let Step::Start { run, args, .. } = &mut behaviours[behaviour].steps[step] {
                *run = found;
                if args.len() != parameters {
                    return None;
                }
            }
        }
        self.in_case = false;
        Some(())
    }
}

pub fn read_script(text: &str) -> Option<Vec<Case<'_>>> {
    let mut reader = Reader::default();
    for line in text.strip_suffix('\n').unwrap_or(text).split('\n') {
        reader.read_line(line)?;
    }
    (!reader.in_case && !reader.cases.is_empty()).then_some(reader.cases)
}
