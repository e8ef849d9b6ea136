//! The matcher by `testcalls` against the twin: the code, and the place where a
//! pattern is broken; of each pattern alone too. And each class name, by its
//! number, with each byte.
//!
//! usage: places [random cases, default 200000] [seed, default 1] [quick|full, default quick]
use twin::probed::Probed;
use twin::program::{self, Words};
use twin::{crash, names, sets};

fn main() {
    let words = Words::read("places [random cases] [seed] [quick|full]");
    crash::report();
    let names = names::run();
    let counts = sets::run::<Probed>(&words);
    program::end("places", "cases", counts.iter().map(|c| (c.cases, c.differences)).chain([names]));
}
