//! Asks the archive, or the twin: reads questions, one a line as
//! `asking/form.rs` writes them, and prints the code number and what came
//! with it: entry length, file, line; or value start, value length, file, line.
//!
//! usage: ask_questions [twin]
use std::env::args;
use std::io::{stdin, stdout, BufRead, BufWriter, Write};
use twin::asking::testcalls::TestCalls;
use twin::asking::{form, Asks};
use twin::reader;

fn main() {
    let mut testcalls = TestCalls::default();
    let twin = args().nth(1).is_some_and(|word| word == "twin");
    let mut out = BufWriter::new(stdout().lock());
    for line in stdin().lock().lines() {
        let line = line.expect("a line of text");
        let question = form::read(&line).unwrap_or_else(|| panic!("not a question: {line}"));
        let answer = if twin { reader::answer(&question) } else { testcalls.ask(&question) };
        writeln!(out, "{}", form::answer(&answer)).expect("stdout");
    }
}
