//! The questions over several files, the archive against the twin: complete
//! answers.
//!
//! usage: questions [random questions, default 200000] [seed, default 1] [quick|full, default quick]
use twin::asking::check::{Check, Count};
use twin::asking::testcalls::TestCalls;
use twin::cases::lending::Extent;
use twin::cases::{self, hostile, layers};
use twin::crash;
use twin::program::{self, Words};
use twin::random::Random;

fn main() {
    let words = Words::read("questions [random questions] [seed] [quick|full]");
    let (cases, seed, full) = (words.number(0, 200_000), words.number(1, 1), words.full(2));
    crash::report();
    println!("seed {seed}");
    let counts = parts(cases, seed, full);
    program::end("questions", "asked", counts.iter().map(|c| (c.cases, c.differences)));
}

fn parts(cases: u64, seed: u64, full: bool) -> Vec<Count> {
    let mut check = Check::new(TestCalls::default());
    let mut random = Random::new(seed);
    let mut counts = cases::shared(&mut check, &mut random, cases, Extent::Many, if full { 5 } else { 4 }, |_| ());
    counts.push(cases::law(&mut check, &mut random, cases, Extent::Many, "layers", layers::run));
    hostile::run(&mut check, &mut random, cases / 4, if full { 5000 } else { 500 });
    counts.push(check.part("hostile"));
    counts
}
