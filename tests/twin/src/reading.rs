//! How reading a pattern grows that may be broken: the text is empty, so that
//! little but the reading is timed.
use crate::archive::ask_bare;
use crate::families::{Family, READ_FAMILIES};
use crate::timing::{about, least};

const SIZES: [usize; 4] = [256, 512, 1024, 2048];
/// Twice the pattern should take twice as long; in proportion to its square it
/// would take four times. Held to it are the mean of three doublings, in which the
/// cost of a call itself counts, and the last, in which it hardly does.
const STEEPEST: f64 = 3.0;
const STEEPEST_LAST: f64 = 2.5;
/// Rounds of each family: more than the fewest only until the limits are held.
const ROUNDS: std::ops::RangeInclusive<usize> = 3..=20;
/// Bytes that are read between two looks at the clock, so that these cost little
/// and a time is as long at each size.
const BYTES: usize = 16_384;

/// Prints the times; gives whether any grows too fast.
pub fn table() -> bool {
    println!("\nReading a pattern, path mode, no text: microseconds a call, by the pattern's bytes.\n");
    println!("| family | code | 256 | 512 | 1024 | 2048 | growth a doubling | the last |");
    println!("|---|---|---|---|---|---|---|---|");
    let growths: Vec<[f64; 2]> = READ_FAMILIES.iter().map(row).collect();
    let [mean, last] = [0, 1].map(|which| growths.iter().map(|growth| growth[which]).fold(0.0, f64::max));
    println!("\nreading: steepest growth x{mean:.1}, limit x{STEEPEST:.1}; last x{last:.1}, limit x{STEEPEST_LAST:.1}");
    is_steep([mean, last])
}

fn is_steep([mean, last]: [f64; 2]) -> bool {
    mean > STEEPEST || last > STEEPEST_LAST
}

/// The sizes are timed in turn, some rounds; prints and gives the least growth.
/// Other work on the machine, or a clock that runs wrong, would have to fall on
/// all rounds.
fn row(family: &Family) -> [f64; 2] {
    let mut rounds = Vec::new();
    while rounds.len() < *ROUNDS.start() || rounds.len() < *ROUNDS.end() && is_steep(growth(&rounds)) {
        rounds.push(SIZES.map(|size| time(family, size)));
    }
    let [mean, last] = growth(&rounds);
    let cells = [0, 1, 2, 3].map(|size| format!("{:.3}", least_of(rounds.iter().map(|times| times[size]))));
    let code = ask_bare(&family.pattern(2048), b"", 1);
    println!("| {} | {code} | {} | x{mean:.1} | x{last:.1} |", family.name, cells.join(" | "));
    [mean, last]
}

/// The least of the rounds: a doubling in the mean, and the last.
fn growth(rounds: &[[f64; 4]]) -> [f64; 2] {
    let mean = rounds.iter().map(|times| (times[3] / times[0]).cbrt());
    [least_of(mean), least_of(rounds.iter().map(|times| times[3] / times[2]))]
}

fn least_of(numbers: impl Iterator<Item = f64>) -> f64 {
    numbers.fold(f64::INFINITY, f64::min)
}

/// Microseconds of one call.
fn time(family: &Family, size: usize) -> f64 {
    about(format!("{}, no text, {size} pattern bytes", family.name));
    let (pattern, calls) = (family.pattern(size), BYTES / size);
    least(&|| (0..calls).map(|_| ask_bare(&pattern, b"", 1)).sum()) / calls as f64
}
