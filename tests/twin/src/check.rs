//! Compares an archive's matcher with the twin and counts.
use crate::answer::Answer;
use crate::fence::{Fence, Side};
use crate::hex;
use crate::items::read;
use crate::matcher::{Asker, Matcher};
use crate::twin;

#[derive(Default)]
pub struct Count {
    pub cases: u64,
    matched: u64,
    unmatched: u64,
    /// By the place of the first broken item: 0, in the middle, the last byte's.
    broken: [u64; 3],
    refused: u64,
    /// Patterns that were asked about alone: unbroken, broken.
    alone: [u64; 2],
    pub differences: u64,
}

#[derive(Default)]
pub struct Check<M: Matcher> {
    pub count: Count,
    pub asker: Asker<M>,
}

impl<M: Matcher> Check<M> {
    /// One case, behind fences.
    pub fn case(&mut self, pattern: &[u8], text: &[u8], flags: u64) {
        let got = self.asker.ask(pattern, text, flags);
        self.judge(pattern, text, flags, twin::answer(pattern, text, flags), got);
        self.alone(pattern);
    }

    /// One case whose answer is known: the twin is held to it too.
    pub fn expect(&mut self, pattern: &[u8], text: &[u8], flags: u64, want: Answer) {
        let twin = twin::answer(pattern, text, flags);
        if twin != want {
            self.differs(&format!("twin {twin}, expected {want}"), pattern, text, flags);
        }
        self.case(pattern, text, flags);
    }

    /// One pattern against every text, in the four modes; the pattern is read
    /// once. For sets with no refusal in them.
    pub fn pattern(&mut self, pattern: &[u8], texts: &[Fence]) {
        self.asker.pattern.lend(pattern, Side::End);
        let items = read(pattern);
        for text in texts {
            for flags in 0..4 {
                let want = twin::answer_accepted(&items, text.bytes(), flags);
                let got = self.asker.ask_lent(text.bytes(), flags);
                self.judge(pattern, text.bytes(), flags, want, got);
            }
        }
        self.alone(pattern);
    }

    /// A case that was asked elsewhere.
    pub fn judge(&mut self, pattern: &[u8], text: &[u8], flags: u64, want: Answer, got: Answer) {
        self.count.add(pattern, want);
        if !M::same(want, got) {
            self.differs(&format!("archive {got}, twin {want}"), pattern, text, flags);
        }
    }

    /// Where the pattern that is lent is broken, without a text or a mode: bytes
    /// for which a call is refused are read too.
    fn alone(&mut self, pattern: &[u8]) {
        if !M::TELLS_PLACES {
            return;
        }
        let (want, got) = (read(pattern).err(), self.asker.broken());
        self.count.alone[want.is_some() as usize] += 1;
        if want != got {
            self.differs(&format!("broken at, alone: archive {got:?}, twin {want:?}"), pattern, b"", 0);
        }
    }

    /// A pattern alone whose place is known: the twin is held to it too.
    pub fn expect_alone(&mut self, pattern: &[u8], want: Option<usize>) {
        let twin = read(pattern).err();
        if twin != want {
            self.differs(&format!("broken at, alone: twin {twin:?}, expected {want:?}"), pattern, b"", 0);
        }
        self.asker.pattern.lend(pattern, Side::End);
        self.alone(pattern);
    }

    pub fn differs(&mut self, words: &str, pattern: &[u8], text: &[u8], flags: u64) {
        self.count.differences += 1;
        println!("DIFFERENCE pattern {} text {} flags {flags:#x}: {words}", hex::write(pattern), hex::write(text));
        if self.count.differences >= 20 {
            println!("twenty differences: stopping");
            std::process::exit(1);
        }
    }

    /// Prints what one part counted and starts the next part's count; gives
    /// the part's count.
    pub fn part(&mut self, name: &str) -> Count {
        let count = std::mem::take(&mut self.count);
        let alone = if M::TELLS_PLACES { count.alone_words() } else { String::new() };
        println!("{name}: {}{alone}; {} differences", count.words(), count.differences);
        count
    }
}

impl Count {
    fn add(&mut self, pattern: &[u8], want: Answer) {
        self.cases += 1;
        match (want.code, want.place) {
            (1, _) => self.matched += 1,
            (0, _) => self.unmatched += 1,
            (_, None) => self.refused += 1,
            (_, Some(0)) => self.broken[0] += 1,
            (_, Some(place)) => self.broken[1 + (place + 1 == pattern.len()) as usize] += 1,
        }
    }

    fn words(&self) -> String {
        let Count { cases, matched, unmatched, broken: [first, middle, last], refused, .. } = self;
        let broken = first + middle + last;
        format!(
            "{cases} cases: {matched} matched, {unmatched} not matched, {broken} broken \
             ({first} at place 0, {middle} in the middle, {last} at the last byte), {refused} refused"
        )
    }

    fn alone_words(&self) -> String {
        let [unbroken, broken] = self.alone;
        format!("; alone: {unbroken} unbroken, {broken} broken")
    }
}
