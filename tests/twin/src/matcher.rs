//! How an archive's matcher is asked: what the C call and `testcalls` share, and
//! a safe way to ask either.
use crate::answer::Answer;
use crate::crash;
use crate::fence::{Fence, Side};

/// The matcher of an archive.
pub trait Matcher: Default {
    /// Does it tell the place where a pattern is broken, of a pattern alone too?
    /// Else it answers a code number.
    const TELLS_PLACES: bool;

    /// Is this what was wanted, as far as it tells?
    fn same(want: Answer, got: Answer) -> bool {
        if Self::TELLS_PLACES {
            want == got
        } else {
            want.code == got.code
        }
    }

    /// Asks about any bytes: nothing is copied or fenced.
    fn ask_bare(&self, pattern: &[u8], text: &[u8], flags: u64) -> Answer;

    /// Asks with null pointers of length 0, as a C caller may give for "empty".
    fn ask_null(&self, flags: u64) -> Answer;

    /// Where any bytes, read as a pattern, are broken. For one that tells places.
    fn broken_bare(&self, pattern: &[u8]) -> Option<usize>;
}

/// Two fences that are used again for every question.
pub struct Asker<M> {
    pub matcher: M,
    pub pattern: Fence,
    text: Fence,
    side: Side,
}

impl<M: Matcher> Default for Asker<M> {
    /// Room for what is over the limits too.
    fn default() -> Asker<M> {
        let [pattern, text] = [20_000; 2].map(Fence::new);
        Asker { matcher: M::default(), pattern, text, side: Side::End }
    }
}

impl<M: Matcher> Asker<M> {
    /// Copies both behind the fences, from one side and the other in turn.
    pub fn ask(&mut self, pattern: &[u8], text: &[u8], flags: u64) -> Answer {
        self.pattern.lend(pattern, self.side);
        self.text.lend(text, self.side);
        self.side = if self.side == Side::End { Side::Front } else { Side::End };
        self.ask_lent(self.text.bytes(), flags)
    }

    /// Asks the pattern that is lent about a text that is lent elsewhere.
    pub fn ask_lent(&self, text: &[u8], flags: u64) -> Answer {
        crash::about(self.pattern.bytes(), text, flags);
        self.matcher.ask_bare(self.pattern.bytes(), text, flags)
    }

    /// Where the pattern that is lent is broken.
    pub fn broken(&self) -> Option<usize> {
        crash::about(self.pattern.bytes(), b"", 0);
        self.matcher.broken_bare(self.pattern.bytes())
    }
}
