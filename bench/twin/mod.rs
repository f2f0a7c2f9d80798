//! The parts that the twins share. No twin uses all of them.
#![allow(dead_code)]
pub mod book;
pub mod entry;
pub mod table;
pub mod words;

/// What a twin reads and prints.
pub mod streams {
    use std::io::{Read, Write};

    pub fn input() -> Vec<u8> {
        let mut text = Vec::new();
        std::io::stdin().read_to_end(&mut text).expect("standard input is read");
        text
    }

    pub fn print(out: &[u8]) {
        std::io::stdout().write_all(out).expect("standard output is written");
    }
}
