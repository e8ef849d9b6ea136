//! The matcher's C call against the twin.
//!
//! usage: differential [random cases, default 200000] [seed, default 1] [quick|full, default quick]
use twin::archive::Archive;
use twin::program::{self, Words};
use twin::{crash, sets};

fn main() {
    let words = Words::read("differential [random cases] [seed] [quick|full]");
    crash::report();
    let counts = sets::run::<Archive>(&words);
    program::end("differential", "cases", counts.iter().map(|c| (c.cases, c.differences)));
}
