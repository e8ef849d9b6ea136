//! A class name by its number, and a byte: the call of `testcalls` against the twin,
//! for the twelve and for numbers that are no names.
use crate::class::{twelve, TWELVE};

extern "C" {
    fn testcalls_named(name: usize, byte: u8) -> u32;
}

/// Numbers from 12 on; of some a narrower number would be one of the twelve.
fn no_names() -> impl Iterator<Item = usize> {
    let narrower = [8, 16, 32, 63].into_iter().flat_map(|bits| (0..12).map(move |k| (1 << bits) + k));
    (12..1000).chain(narrower).chain([usize::MAX])
}

/// Prints what was asked; gives the cases and the differences.
pub fn run() -> (u64, u64) {
    let (mut cases, mut listed, mut differences) = (0, 0, 0);
    for number in (0..12).chain(no_names()) {
        let has = TWELVE.get(number).map(|name| twelve(name.as_bytes()).expect("one of the twelve"));
        for byte in 0..=255u8 {
            let want = has.is_some_and(|has| has(byte)) as u32;
            let got = unsafe { testcalls_named(number, byte) };
            cases += 1;
            listed += want as u64;
            if got != want {
                differences += 1;
                println!("DIFFERENCE name {number} byte {byte}: archive {got}, twin {want}");
            }
        }
    }
    println!("names by number: {cases} cases: {listed} listed; {differences} differences");
    (cases, differences)
}
