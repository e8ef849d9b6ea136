//! The twin of the two questions: document 01 read from the paper alone. All
//! lines are read into records first, then an entry is judged by trying every
//! record in order and keeping the last that matches. Nothing stops early.
pub mod attribute;
pub mod files;
pub mod ignore;
pub mod pattern;
pub mod refusals;

pub const DIRECTORY: u64 = 1;
pub const FOLD: u64 = 2;

/// A question with all that is lent for it.
#[derive(Clone, Default)]
pub struct Question {
    pub path: Vec<u8>,
    /// "All rule files lie end to end in one lent byte buffer, lowest precedence first."
    pub rules: Vec<u8>,
    pub ends: Vec<usize>,
    pub bases: Vec<usize>,
    /// The attribute asked for; none: the ignore question.
    pub name: Option<Vec<u8>>,
    pub flags: u64,
}

/// "The complete answer is all that the call returns": the code number, and
/// where something was said the numbers: entry length, file, line for ignore;
/// value start, value length, file, line for an attribute.
#[derive(Clone, PartialEq, Debug)]
pub struct Answer {
    pub code: u32,
    pub numbers: Vec<usize>,
}

/// "A refusal carries its number and nothing else."
pub fn answer(question: &Question) -> Answer {
    if let Some(number) = refusals::lowest(question) {
        return Answer { code: 16 + number, numbers: Vec::new() };
    }
    match &question.name {
        None => ignore::answer(question),
        Some(name) => attribute::answer(question, name),
    }
}

impl Question {
    pub fn directory(&self) -> bool {
        self.flags & DIRECTORY != 0
    }

    pub fn fold(&self) -> bool {
        self.flags & FOLD != 0
    }

    /// May this be asked by the C calls, which know "one file of base 0"?
    pub fn is_one_file(&self) -> bool {
        self.ends == [self.rules.len()] && self.bases == [0]
    }

    /// One file of base 0.
    pub fn one_file(rules: &[u8], path: &[u8], name: Option<&[u8]>, flags: u64) -> Question {
        Question {
            path: path.to_vec(),
            rules: rules.to_vec(),
            ends: vec![rules.len()],
            bases: vec![0],
            name: name.map(<[u8]>::to_vec),
            flags,
        }
    }
}
