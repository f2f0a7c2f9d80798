//! The reading of the words of a line.
use super::entry::{Args, Op, Target, Verdict};

pub type Words<'a> = std::slice::Split<'a, u8, fn(&u8) -> bool>;

/// The lines of a text, whose last line feed may be missing.
pub fn lines_of(text: &[u8]) -> impl Iterator<Item = &[u8]> {
    text.strip_suffix(b"\n").unwrap_or(text).split(|byte| *byte == b'\n')
}

#[inline]
pub fn words_of(line: &[u8]) -> Words<'_> {
    line.split(|byte| *byte == b' ')
}

#[inline]
pub fn number(word: &[u8]) -> Option<u32> {
    if word.is_empty() || (word[0] == b'0' && word.len() > 1) {
        return None;
    }
    word.iter().try_fold(0u32, |value, byte| {
        let digit = byte.is_ascii_digit().then(|| u32::from(byte - b'0'))?;
        value.checked_mul(10)?.checked_add(digit)
    })
}

#[inline]
pub fn run(word: &[u8]) -> Option<u16> {
    u16::try_from(number(word)?).ok()
}

#[inline]
fn target(word: &[u8]) -> Option<Target> {
    Some(match word {
        b"any" => Target::Any,
        b"all" => Target::All,
        _ => Target::One(number(word)?),
    })
}

#[inline]
fn group(word: &[u8]) -> Option<Target> {
    target(word).filter(|target| *target != Target::Any)
}

/// Whether a wait is for killed, or for done.
pub fn is_killed(word: &[u8]) -> Option<bool> {
    match word {
        b"done" => Some(false),
        b"killed" => Some(true),
        _ => None,
    }
}

fn start(words: &mut Words, end: Option<&[u8]>) -> Option<Op> {
    let comp = number(words.next()?)?;
    let run = run(words.next()?)?;
    let mut args = Args::default();
    loop {
        match words.next() {
            word if word == end => return Some(Op::Start { comp, run, args }),
            word => args.push(number(word?)?)?,
        }
    }
}

/// An operation, and after it what ends it: this word, or the end of the line.
#[inline]
pub fn op(words: &mut Words, end: Option<&[u8]>) -> Option<Op> {
    let op = match words.next()? {
        b"create" => match words.next() {
            word if word == end => return Some(Op::Create { alive: false }),
            Some(b"alive") => Op::Create { alive: true },
            _ => return None,
        },
        b"start" => return start(words, end),
        b"stop" => Op::Stop(group(words.next()?)?),
        b"kill" => Op::Kill(group(words.next()?)?),
        b"running" => Op::Running(target(words.next()?)?),
        b"alive" => Op::Alive(target(words.next()?)?),
        b"done" => Op::Done(target(words.next()?)?),
        b"killed" => Op::Killed(target(words.next()?)?),
        b"wait" => Op::Wait { killed: is_killed(words.next()?)?, target: target(words.next()?)? },
        b"wake" => Op::Wake { killed: is_killed(words.next()?)?, target: target(words.next()?)? },
        b"setverdict" => Op::SetVerdict(Verdict::settable(words.next()?)?),
        b"getverdict" => Op::GetVerdict,
        b"finish" => Op::Finish,
        _ => return None,
    };
    (words.next() == end).then_some(op)
}
