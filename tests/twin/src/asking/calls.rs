//! The two C calls: one file of base 0, one code number.
use super::lent::Lent;
use super::Asks;
use crate::reader::{Answer, Question};

extern "C" {
    fn fidshore_ignore(rules: *const u8, rules_len: usize, path: *const u8, path_len: usize, flags: u64) -> u32;
    fn fidshore_attribute(
        rules: *const u8,
        rules_len: usize,
        path: *const u8,
        path_len: usize,
        name: *const u8,
        name_len: usize,
        flags: u64,
    ) -> u32;
}

#[derive(Default)]
pub struct Calls {
    lent: Lent,
}

impl Asks for Calls {
    const COMPLETE: bool = false;

    fn ask(&mut self, question: &Question) -> Answer {
        self.lent.lend(question);
        let Lent { path, rules, name, .. } = &self.lent;
        let name = question.name.as_ref().map(|_| name.bytes());
        Answer { code: code(rules.bytes(), path.bytes(), name, question.flags), numbers: Vec::new() }
    }

    fn ask_bare(&mut self, question: &Question) -> Answer {
        let code = code(&question.rules, &question.path, question.name.as_deref(), question.flags);
        Answer { code, numbers: Vec::new() }
    }
}

/// With a name the attribute question, else the ignore question.
#[inline(never)]
pub fn code(rules: &[u8], path: &[u8], name: Option<&[u8]>, flags: u64) -> u32 {
    let (r, p) = (lent(rules), lent(path));
    unsafe {
        match name.map(lent) {
            None => fidshore_ignore(r.0, r.1, p.0, p.1, flags),
            Some(n) => fidshore_attribute(r.0, r.1, p.0, p.1, n.0, n.1, flags),
        }
    }
}

fn lent(bytes: &[u8]) -> (*const u8, usize) {
    (bytes.as_ptr(), bytes.len())
}

/// Null pointers of length 0 for what is empty, as a C caller may give.
pub fn code_with_nulls(rules: &[u8], path: &[u8], name: Option<&[u8]>, flags: u64) -> u32 {
    let or_null = |bytes: &[u8]| if bytes.is_empty() { (std::ptr::null(), 0) } else { lent(bytes) };
    let (r, p) = (or_null(rules), or_null(path));
    unsafe {
        match name.map(or_null) {
            None => fidshore_ignore(r.0, r.1, p.0, p.1, flags),
            Some(n) => fidshore_attribute(r.0, r.1, p.0, p.1, n.0, n.1, flags),
        }
    }
}
