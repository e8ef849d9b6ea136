//! "A pattern is read left to right into items" (document 01, Patterns).
use crate::class::{read_class, Class};

pub enum Item {
    /// Takes this byte.
    Literal(u8),
    /// `?`
    Any,
    Run {
        /// It "takes any bytes", in path mode too.
        crosses: bool,
        /// The next item is an unescaped `/` and may go with the run.
        vanishes: bool,
    },
    Class(Box<Class>),
}

/// The items of the pattern or, if it is broken, "the place in the pattern of
/// the byte where the first broken item begins" (document 02, R-14), from 0. What
/// stands behind that item is not read.
pub fn read(pattern: &[u8]) -> Result<Vec<Item>, usize> {
    let mut items = Vec::new();
    let mut at = 0;
    while at < pattern.len() {
        let (item, after) = read_item(pattern, at).ok_or(at)?;
        items.push(item);
        at = after;
    }
    Ok(items)
}

/// The item that starts at `at`, and the place after it; nothing if it is
/// broken. A class is one item: whatever is wrong inside, it starts at its `[`.
fn read_item(pattern: &[u8], at: usize) -> Option<(Item, usize)> {
    match pattern[at] {
        // "`\x` is the literal x. A `\` at the end makes the pattern broken."
        b'\\' => pattern.get(at + 1).map(|&x| (Item::Literal(x), at + 2)),
        b'?' => Some((Item::Any, at + 1)),
        b'*' => Some(read_run(pattern, at)),
        b'[' => read_class(pattern, at + 1).map(|(class, after)| (Item::Class(Box::new(class)), after)),
        x => Some((Item::Literal(x), at + 1)), // "Any other byte is literal."
    }
}

/// "A star run is a longest row of `*`." The reader comes to its first star,
/// so only its end is looked for.
fn read_run(pattern: &[u8], at: usize) -> (Item, usize) {
    let stars = pattern[at..].iter().take_while(|&&x| x == b'*').count();
    let after = &pattern[at + stars..];
    // "starts the pattern or follows a byte `/`, and is followed by the end, `/`
    // or `\/`"; of the stars, 02's R-2: "any run of two or more as it treats two"
    let crosses = stars >= 2
        && (at == 0 || pattern[at - 1] == b'/')
        && (after.is_empty() || after.starts_with(b"/") || after.starts_with(b"\\/"));
    // "A crossing run followed by an unescaped `/`"
    let vanishes = crosses && after.starts_with(b"/");
    (Item::Run { crosses, vanishes }, at + stars)
}
