//! The matcher's answer.
use std::fmt;

/// What the matcher answers: 0 no match, 1 match, 2 broken, or 16 plus the number
/// of a refusal; where it is broken, "with the place" (document 02, R-14).
#[derive(Clone, Copy, Debug, PartialEq)]
pub struct Answer {
    pub code: u32,
    pub place: Option<usize>,
}

impl Answer {
    pub const fn code(code: u32) -> Answer {
        Answer { code, place: None }
    }

    pub const fn broken(place: usize) -> Answer {
        Answer { code: 2, place: Some(place) }
    }
}

impl fmt::Display for Answer {
    fn fmt(&self, f: &mut fmt::Formatter) -> fmt::Result {
        match self.place {
            None => write!(f, "{}", self.code),
            Some(place) => write!(f, "{} at {place}", self.code),
        }
    }
}
