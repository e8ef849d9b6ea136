//! What the matcher is asked in `differential` and in `places`: the same sets.
use crate::check::{Check, Count};
use crate::exhaustive::Extent;
use crate::matcher::Matcher;
use crate::program::Words;
use crate::random::Random;
use crate::{boundary, broken, exhaustive, grammar, hostile, long_runs, rows};

/// Reads the program's words, asks every set and gives the parts' counts.
pub fn run<M: Matcher>(words: &Words) -> Vec<Count> {
    let (cases, seed) = (words.number(0, 200_000), words.number(1, 1));
    let extent = if words.full(2) { Extent::Full } else { Extent::Quick };
    println!("seed {seed}");
    parts(&mut Check::<M>::default(), cases, &mut Random::new(seed), extent)
}

fn parts<M: Matcher>(check: &mut Check<M>, cases: u64, random: &mut Random, extent: Extent) -> Vec<Count> {
    rows::run(check);
    let mut counts = vec![check.part("frames and rows of 001")];
    for _ in 0..cases {
        let pair = grammar::pair(random);
        check.case(&pair.pattern, &pair.text, random.below(4) as u64);
    }
    counts.push(check.part("random, from the grammar"));
    boundary::run(check);
    counts.push(check.part("boundaries"));
    long_runs::run(check);
    counts.push(check.part("long runs"));
    broken::run(check);
    counts.push(check.part("broken and nearly"));
    let large = if extent == Extent::Quick { 150 } else { 1500 };
    hostile::run(check, random, cases / 2, large);
    counts.push(check.part("hostile"));
    exhaustive::run(check, extent);
    counts.push(check.part("exhaustive"));
    counts
}
