//! The questions that are asked: scenes of the papers, random ones, the
//! boundaries of the refusals, every small rule file, hostile bytes, and the
//! laws of demand 3.
pub mod attributes;
pub mod blanking;
pub mod bounds;
pub mod hostile;
pub mod layers;
pub mod lending;
pub mod lines;
pub mod paths;
pub mod scenes;
pub mod small;

use crate::asking::check::{Check, Count};
use crate::asking::Asks;
use crate::random::Random;
use lending::{question, Extent};

/// The parts that every archive is asked, up to the blanking law. `small` is
/// how long the small rule files get, `own_bounds` asks the boundaries of
/// one archive alone.
pub fn shared<A: Asks>(
    check: &mut Check<A>,
    random: &mut Random,
    cases: u64,
    extent: Extent,
    small: usize,
    own_bounds: fn(&mut Check<A>),
) -> Vec<Count> {
    scenes::run(check);
    let mut counts = vec![check.part("scenes of 01 and 001")];
    bounds::run(check);
    own_bounds(check);
    counts.push(check.part("boundaries"));
    small::run(check, small);
    counts.push(check.part("small rule files"));
    for _ in 0..cases {
        check.case(&question(random, extent));
    }
    counts.push(check.part("random"));
    counts.push(law(check, random, cases, extent, "blanking", blanking::run));
    counts
}

/// A law of demand 3, on as many random questions as it can be put to.
pub fn law<A: Asks>(
    check: &mut Check<A>,
    random: &mut Random,
    cases: u64,
    extent: Extent,
    name: &str,
    run: fn(&mut Check<A>, &mut Random, &crate::reader::Question) -> bool,
) -> Count {
    let mut asked = 0;
    while asked < cases / 4 {
        let question = question(random, extent);
        asked += run(check, random, &question) as u64;
    }
    check.part(name)
}
