//! The job of `ttrun replay` in plain Rust, written for speed, to be measured next to it: it keeps the table, but no history.
#[path = "../twin/mod.rs"]
mod twin;

use std::process::ExitCode;
use twin::entry::{Op, put, put_reply};
use twin::table::Table;
use twin::{streams, words};

fn read_move(line: &[u8]) -> Option<(u16, Op)> {
    let mut words = words::words_of(line);
    Some((words::run(words.next()?)?, words::op(&mut words, None)?))
}

/// The number of behaviours, and the moves.
fn read_list(text: &[u8]) -> Option<(u32, Vec<(u16, Op)>)> {
    let mut lines = words::lines_of(text);
    let behaviours = words::number(lines.next()?.strip_prefix(b"behaviours ")?)?;
    let mut moves = Vec::new();
    for line in lines {
        moves.push(read_move(line)?);
    }
    Some((behaviours, moves))
}

fn main() -> ExitCode {
    let text = streams::input();
    let Some((behaviours, moves)) = read_list(&text) else {
        return ExitCode::from(3);
    };
    let mut table = Table::new(behaviours as usize);
    let mut out = Vec::new();
    for (run, op) in &moves {
        put_reply(&mut out, table.play(*run, op));
        out.push(b'\n');
    }
    let verdict = table.overall();
    put(&mut out, "verdict ");
    put(&mut out, verdict.name());
    put(&mut out, "\n");
    streams::print(&out);
    ExitCode::from(verdict.status())
}
