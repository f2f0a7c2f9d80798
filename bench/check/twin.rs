//! The job of `ttrun check` in plain Rust, written for speed, to be measured next to it: it replays each entry as it reads it.
#[path = "../twin/mod.rs"]
mod twin;

use std::process::ExitCode;
use twin::entry::{Fault, Op, Reply, Verdict, put, put_number, put_reply};
use twin::table::Table;
use twin::words::{Words, number};
use twin::{streams, words};

/// What a line is refused for.
enum Refusal {
    FirstLine,
    Entry,
    Early,
}

impl Refusal {
    fn text(&self) -> &'static str {
        match self {
            Refusal::FirstLine => "bad first line",
            Refusal::Entry => "bad entry",
            Refusal::Early => "text ends too early",
        }
    }
}

fn read_reply(words: &mut Words) -> Option<Reply> {
    let reply = match words.next()? {
        b"made" => Reply::Made(number(words.next()?)?),
        b"ok" => Reply::Ok,
        b"true" => Reply::Answer(true),
        b"false" => Reply::Answer(false),
        b"matched" => Reply::Matched,
        b"parked" => Reply::Parked,
        b"ended" => Reply::Ended,
        b"error" => match words.next() {
            None => Reply::Local(Verdict::Error),
            Some(word) => Reply::Fault(Fault::named(word)?),
        },
        word => Reply::Local(Verdict::named(word)?),
    };
    words.next().is_none().then_some(reply)
}

fn read_entry(line: &[u8]) -> Option<(u16, Op, Reply)> {
    let mut words = words::words_of(line);
    Some((words::run(words.next()?)?, words::op(&mut words, Some(b"->"))?, read_reply(&mut words)?))
}

fn is_name(word: &[u8]) -> bool {
    (1..=32).contains(&word.len())
        && word[0].is_ascii_alphabetic()
        && word.iter().all(|byte| byte.is_ascii_alphanumeric() || *byte == b'_')
        && !matches!(word, b"all" | b"any" | b"mtc" | b"self")
}

/// The name and the number of behaviours of a block.
fn read_head(line: &[u8]) -> Option<(&[u8], u32)> {
    let mut words = words::words_of(line.strip_prefix(b"history 1 ")?);
    let name = words.next().filter(|word| is_name(word))?;
    let behaviours = number(words.next()?).filter(|count| (1..=64).contains(count))?;
    words.next().is_none().then_some((name, behaviours))
}

struct Block<'a> {
    name: &'a [u8],
    entries: u32,
    table: Table,
}

#[derive(Default)]
struct Checker<'a> {
    block: Option<Block<'a>>,
    differs: bool,
    out: Vec<u8>,
}

impl<'a> Checker<'a> {
    fn differ(&mut self, line: u32, given: &[u8], table: Reply) {
        put(&mut self.out, "line ");
        put_number(&mut self.out, line);
        put(&mut self.out, ": ");
        self.out.extend_from_slice(given);
        put(&mut self.out, ", table gives ");
        put_reply(&mut self.out, table);
        put(&mut self.out, "\n");
        self.differs = true;
    }

    fn end(&mut self, line: u32, word: &[u8]) -> Result<(), Refusal> {
        let verdict = Verdict::named(word).ok_or(Refusal::Entry)?;
        let block = self.block.take().ok_or(Refusal::FirstLine)?;
        if self.differs {
            return Ok(());
        }
        if block.table.overall() != verdict {
            self.differ(line, word, Reply::Local(block.table.overall()));
            return Ok(());
        }
        put(&mut self.out, "legal ");
        self.out.extend_from_slice(block.name);
        put(&mut self.out, " ");
        put_number(&mut self.out, block.entries);
        put(&mut self.out, " ");
        put(&mut self.out, verdict.name());
        put(&mut self.out, "\n");
        Ok(())
    }

    fn line(&mut self, number: u32, line: &'a [u8]) -> Result<(), Refusal> {
        let Some(block) = &mut self.block else {
            let (name, behaviours) = read_head(line).ok_or(Refusal::FirstLine)?;
            self.block = Some(Block { name, entries: 0, table: Table::new(behaviours as usize) });
            return Ok(());
        };
        if let Some(word) = line.strip_prefix(b"end ") {
            return self.end(number, word);
        }
        let (run, op, given) = read_entry(line).ok_or(Refusal::Entry)?;
        if self.differs {
            return Ok(());
        }
        block.entries += 1;
        let reply = block.table.play(run, &op);
        if reply != given {
            let mut text = Vec::new();
            put_reply(&mut text, given);
            self.differ(number, &text, reply);
        }
        Ok(())
    }
}

/// What is printed, and whether each block is legal; otherwise the number of the first line that has a fault.
fn check(text: &[u8]) -> Result<(Vec<u8>, bool), (u32, Refusal)> {
    let mut checker = Checker::default();
    let mut count = 0;
    if !text.is_empty() {
        for line in words::lines_of(text) {
            count += 1;
            checker.line(count, line).map_err(|refusal| (count, refusal))?;
        }
    }
    if count == 0 || checker.block.is_some() {
        return Err((count + 1, Refusal::Early));
    }
    Ok((checker.out, !checker.differs))
}

fn main() -> ExitCode {
    let text = streams::input();
    match check(&text) {
        Ok((out, is_legal)) => {
            streams::print(&out);
            ExitCode::from(if is_legal { 0 } else { 3 })
        }
        Err((line, refusal)) => {
            eprintln!("ttrun: line {line}: {}", refusal.text());
            ExitCode::from(3)
        }
    }
}
