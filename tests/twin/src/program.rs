//! What the comparing programs share: how their words are read, and their end.
use std::env::args;
use std::process::exit;

/// The words after the program's name. A wrong one ends the program with how
/// it is used.
pub struct Words {
    words: Vec<String>,
    usage: &'static str,
}

impl Words {
    pub fn read(usage: &'static str) -> Words {
        Words { words: args().skip(1).collect(), usage }
    }

    pub fn number(&self, at: usize, default: u64) -> u64 {
        match self.words.get(at) {
            Some(word) => word.parse().unwrap_or_else(|_| self.wrong()),
            None => default,
        }
    }

    /// Whether the larger sets are asked for: `quick`, which no word means
    /// too, or `full`.
    pub fn full(&self, at: usize) -> bool {
        match self.words.get(at).map(String::as_str) {
            None | Some("quick") => false,
            Some("full") => true,
            _ => self.wrong(),
        }
    }

    fn wrong(&self) -> ! {
        eprintln!("usage: {}", self.usage);
        exit(2)
    }
}

/// Prints the totals of all parts, of which each has its cases and its
/// differences; status 1 if anything differs.
pub fn end(name: &str, asked: &str, parts: impl Iterator<Item = (u64, u64)>) -> ! {
    let (total, differences) = parts.fold((0, 0), |sum, part| (sum.0 + part.0, sum.1 + part.1));
    println!("{name}: {total} {asked}, {differences} differences");
    exit((differences > 0) as i32)
}
