//! The questions over several files, with their complete answers.
use super::lent::Lent;
use super::Asks;
use crate::reader::{Answer, Question};

extern "C" {
    fn testcalls_ignore(
        path: *const u8,
        path_len: usize,
        rules: *const u8,
        rules_len: usize,
        ends: *const usize,
        ends_len: usize,
        bases: *const usize,
        bases_len: usize,
        flags: u64,
        out: *mut usize,
        out_len: usize,
    ) -> u32;
    fn testcalls_attribute(
        path: *const u8,
        path_len: usize,
        rules: *const u8,
        rules_len: usize,
        ends: *const usize,
        ends_len: usize,
        bases: *const usize,
        bases_len: usize,
        name: *const u8,
        name_len: usize,
        flags: u64,
        out: *mut usize,
        out_len: usize,
    ) -> u32;
}

/// What the places of the answer hold before the call. No answer can hold it:
/// it is larger than any length or number.
const UNTOUCHED: usize = usize::MAX - 77;

/// Where everything is lent.
struct Places<'a> {
    path: &'a [u8],
    rules: &'a [u8],
    ends: &'a [usize],
    bases: &'a [usize],
    name: Option<&'a [u8]>,
}

#[derive(Default)]
pub struct TestCalls {
    lent: Lent,
}

impl Asks for TestCalls {
    const COMPLETE: bool = true;

    fn ask(&mut self, question: &Question) -> Answer {
        self.lent.lend(question);
        let Lent { path, rules, ends, bases, name, .. } = &self.lent;
        let places = Places {
            path: path.bytes(),
            rules: rules.bytes(),
            ends: ends.numbers(),
            bases: bases.numbers(),
            name: question.name.as_ref().map(|_| name.bytes()),
        };
        ask(places, question.flags)
    }

    fn ask_bare(&mut self, question: &Question) -> Answer {
        let Question { path, rules, ends, bases, name, flags } = question;
        ask(Places { path, rules, ends, bases, name: name.as_deref() }, *flags)
    }
}

fn ask(places: Places, flags: u64) -> Answer {
    // Two places more than asked for, on each side, show a stray write.
    let mut out = [UNTOUCHED; 8];
    let attribute = places.name.is_some();
    let count = if attribute { 4 } else { 3 };
    let code = call(places, flags, &mut out[2..2 + count]);
    let told = match (attribute, code) {
        (false, 1 | 2) => 3,
        (true, 3) => 4,
        (true, 1 | 2 | 4) => 2,
        _ => 0,
    };
    let stray = out.iter().enumerate().any(|(i, &x)| x != UNTOUCHED && !(2..2 + told).contains(&i));
    let numbers = match (told, stray) {
        (_, true) => out.to_vec(),                // differs from every answer
        (2, false) => vec![0, 0, out[2], out[3]], // no value: the form writes two zeros in its place
        (_, false) => out[2..2 + told].to_vec(),
    };
    Answer { code, numbers }
}

fn call(places: Places, flags: u64, out: &mut [usize]) -> u32 {
    let Places { path, rules, ends, bases, name } = places;
    unsafe {
        match name {
            None => testcalls_ignore(
                path.as_ptr(),
                path.len(),
                rules.as_ptr(),
                rules.len(),
                ends.as_ptr(),
                ends.len(),
                bases.as_ptr(),
                bases.len(),
                flags,
                out.as_mut_ptr(),
                out.len(),
            ),
            Some(name) => testcalls_attribute(
                path.as_ptr(),
                path.len(),
                rules.as_ptr(),
                rules.len(),
                ends.as_ptr(),
                ends.len(),
                bases.as_ptr(),
                bases.len(),
                name.as_ptr(),
                name.len(),
                flags,
                out.as_mut_ptr(),
                out.len(),
            ),
        }
    }
}
