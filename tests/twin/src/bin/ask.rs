//! Asks the archive, or the twin: reads lines `pattern text flags`, the first
//! two in hex (`-` for empty), and prints one code number a line.
//!
//! usage: ask [twin]
use std::env::args;
use std::io::{stdin, stdout, BufRead, BufWriter, Write};
use twin::archive::Archive;
use twin::matcher::Asker;
use twin::{hex, twin::match_code};

fn main() {
    let mut asker = Asker::<Archive>::default();
    let twin = args().nth(1).is_some_and(|word| word == "twin");
    let mut out = BufWriter::new(stdout().lock());
    for line in stdin().lock().lines() {
        let line = line.expect("a line of text");
        let (pattern, text, flags) = read(&line).unwrap_or_else(|| panic!("not `pattern text flags`: {line}"));
        let code = if twin { match_code(&pattern, &text, flags) } else { asker.ask(&pattern, &text, flags).code };
        writeln!(out, "{code}").expect("stdout");
    }
}

fn read(line: &str) -> Option<(Vec<u8>, Vec<u8>, u64)> {
    let mut words = line.split_whitespace();
    Some((hex::read(words.next()?)?, hex::read(words.next()?)?, words.next()?.parse().ok()?))
}
