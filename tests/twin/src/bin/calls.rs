//! The C calls of the two questions against the twin: one file of base 0.
//!
//! usage: calls [random questions, default 100000] [seed, default 1]
use twin::asking::calls::{code_with_nulls, Calls};
use twin::asking::check::{Check, Count};
use twin::cases::lending::Extent;
use twin::cases::{self, hostile};
use twin::crash;
use twin::program::{self, Words};
use twin::random::Random;
use twin::reader::{self, Answer, Question};

fn main() {
    let words = Words::read("calls [random questions] [seed]");
    let (cases, seed) = (words.number(0, 100_000), words.number(1, 1));
    crash::report();
    println!("seed {seed}");
    let counts = parts(cases, seed);
    program::end("calls", "asked", counts.iter().map(|c| (c.cases, c.differences)));
}

fn parts(cases: u64, seed: u64) -> Vec<Count> {
    let mut check = Check::new(Calls::default());
    let mut random = Random::new(seed);
    let mut counts = cases::shared(&mut check, &mut random, cases, Extent::One, 4, nulls);
    hostile::run(&mut check, &mut random, cases / 4, 200);
    counts.push(check.part("hostile"));
    counts
}

/// A null pointer of length 0 in each place.
fn nulls(check: &mut Check<Calls>) {
    for rules in [&b""[..], b"* fill\n"] {
        for path in [&b""[..], b"a"] {
            for name in [None, Some(&b""[..]), Some(b"fill")] {
                for flags in [0, 3, 4, u64::MAX] {
                    let question = Question::one_file(rules, path, name, flags);
                    let got = Answer { code: code_with_nulls(rules, path, name, flags), numbers: Vec::new() };
                    check.judge(&question, &reader::answer(&question), &got);
                }
            }
        }
    }
}
