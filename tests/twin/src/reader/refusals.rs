//! "When a question is turned away": the table's conditions, one function
//! each, and "Where several hold, the lowest is answered." Document 02 adds to
//! the first.
use super::{files, Question};

const MOST_PATH: usize = 4096;
const MOST_FILES: usize = 64;
const MOST_RULES: usize = 65_536;
const MOST_LINE: usize = 2048;
const MOST_NAME: usize = 255;
const MOST_FLAGS: u64 = 3;

type Condition = fn(&Question) -> bool;

/// The conditions in the order of their numbers. Refusal 5 looks at lines,
/// which there are only where the lists are good: 2 comes before it.
const TABLE: [(u32, Condition); 7] =
    [(1, path), (2, lists), (3, rule_bytes), (4, zero), (5, lines), (6, name), (9, flags)];

pub fn lowest(question: &Question) -> Option<u32> {
    TABLE.iter().find(|(_, holds)| holds(question)).map(|(number, _)| *number)
}

/// "path empty, over 4,096 bytes, holding byte 0, with `/` first, last or
/// doubled, or with a component `.` or `..`". Between slashes that stand
/// first, last or doubled there is an empty component. Document 02, R-8:
/// "Refusal 1 now also covers any path byte below 32 and byte 127."
fn path(question: &Question) -> bool {
    let path = &question.path;
    let control = |x: &u8| *x < 32 || *x == 127; // byte 0 is one of them
    let bad = |component: &[u8]| [&b""[..], b".", b".."].contains(&component);
    path.len() > MOST_PATH || path.iter().any(control) || path.split(|&x| x == b'/').any(bad)
}

/// "the two lists differ in length; over 64 files; an end below the one
/// before; last end not the buffer's length (no files: buffer not empty); a
/// base neither 0 nor below the path's length just after a `/`"
fn lists(question: &Question) -> bool {
    let Question { path, rules, ends, bases, .. } = question;
    let after_slash = |base: usize| base < path.len() && path[base - 1] == b'/';
    ends.len() != bases.len()
        || ends.len() > MOST_FILES
        || ends.windows(2).any(|two| two[1] < two[0])
        || ends.last().copied().unwrap_or(0) != rules.len()
        || bases.iter().any(|&base| base != 0 && !after_slash(base))
}

/// "rule bytes over 65,536"
fn rule_bytes(question: &Question) -> bool {
    question.rules.len() > MOST_RULES
}

/// "byte 0 in the rule bytes"
fn zero(question: &Question) -> bool {
    question.rules.contains(&0)
}

/// "a line over 2,048 bytes, counted with BOM and CR but without its newline"
fn lines(question: &Question) -> bool {
    files::lines(question).iter().any(|line| line.raw.len() > MOST_LINE)
}

/// "attribute asked for is empty, over 255 bytes, begins with `-`, or has a
/// byte outside letters, digits, `-`, `.`, `_`"
fn name(question: &Question) -> bool {
    question.name.as_ref().is_some_and(|name| name.len() > MOST_NAME || is_bad_name(name))
}

/// "refusal 6's rule without the 255"
pub fn is_bad_name(name: &[u8]) -> bool {
    let good = |&x: &u8| x.is_ascii_alphanumeric() || b"-._".contains(&x);
    name.is_empty() || name.starts_with(b"-") || !name.iter().all(good)
}

/// "flags number above 3"
fn flags(question: &Question) -> bool {
    question.flags > MOST_FLAGS
}
