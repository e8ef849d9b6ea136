//! Families of patterns and texts that grow: those known to be slow or deep in
//! other matchers, and those that press on one rule of document 01.

pub struct Family {
    pub name: &'static str,
    /// One unit is `before`, then `inner` again and again, then `after`.
    before: &'static str,
    inner: &'static str,
    after: &'static str,
    /// How many units; 0: short units (one `inner` each) that fill the pattern.
    units: usize,
    /// What ends the pattern.
    end: &'static str,
    text: Text,
}

/// The text is `unit` again and again, then what matches, or fails only there.
struct Text {
    unit: &'static str,
    good: &'static str,
    late: &'static str,
}

/// Short units that fill the pattern.
const fn short(name: &'static str, unit: &'static str, end: &'static str, text: Text) -> Family {
    Family { name, before: "", inner: unit, after: "", units: 0, end, text }
}

/// `units` long units, each filled with `inner`.
const fn long(name: &'static str, parts: [&'static str; 3], units: usize, end: &'static str, text: Text) -> Family {
    Family { name, before: parts[0], inner: parts[1], after: parts[2], units, end, text }
}

const fn text(unit: &'static str, good: &'static str, late: &'static str) -> Text {
    Text { unit, good, late }
}

const FAMILIES: &[Family] = &[
    short("`*a`", "*a", "", text("a", "", "b")),
    short("`*a` then `b`", "*a", "b", text("a", "b", "c")),
    short("`*?`", "*?", "b", text("a", "b", "c")),
    short("`?`", "?", "*", text("a", "a", "/")),
    short("`*/`", "*/", "b", text("aaa/", "b", "c")),
    short("`a***/`", "a***/", "b", text("aaaaaaaaa/", "b", "c")),
    short("`**/`", "**/", "b", text("a/", "b", "c")),
    short("`***/`, which crosses", "***/", "b", text("a/", "b", "c")),
    short("`**********/`, which crosses", "**********/", "b", text("a/", "b", "c")),
    short("`**/a/`", "**/a/", "b", text("a/", "b", "c")),
    short("`**/a/a/a/b/`", "**/a/a/a/b/", "b", text("a/", "b", "c")),
    short("`**/*/`", "**/*/", "b", text("a/", "b", "c")),
    short("`**/*a/`", "**/*a/", "b", text("a/", "b", "c")),
    short("`**/*a*/`", "**/*a*/", "b", text("aaa/", "b", "c")),
    short("`**/*a*b*c/`", "**/*a*b*c/", "d", text("abc/", "d", "e")),
    short("`**/*a*b*c/` on few slashes", "**/*a*b*c/", "d", text("abcabcabcabcabcabcabcabcabcabcabc/", "d", "e")),
    short("`**/[a]*/`", "**/[a]*/", "b", text("aa/", "b", "c")),
    short("`**\\/a`", "**\\/a", "b", text("b/a", "b", "c")),
    short("`**\\/a/`", "**\\/a/", "b", text("b/a/", "b", "c")),
    short("`*[!x]`", "*[!x]", "b", text("a", "b", "x")),
    short("`*[ab]`", "*[ab]", "", text("a", "", "c")),
    short("`[a-z]`", "[a-z]", "*", text("a", "a", "/")),
    short("`[[:alpha:]]*`", "[[:alpha:]]*", "b", text("a", "b", "1")),
    short("`a`, a long literal", "a", "*", text("a", "a", "/")),
    short("`\\a`, escapes", "\\a", "*", text("a", "a", "/")),
    long("`*aaa...b`, once", ["*", "a", "b"], 1, "", text("a", "b", "c")),
    long("`*aaa...b`, 4 times", ["*", "a", "b"], 4, "", text("a", "b", "c")),
    long("`**/a/a/...b`, once", ["**/", "a/", "b"], 1, "", text("a/", "b", "c")),
    long("`**/a/a/...b/`, 4 times", ["**/", "a/", "b/"], 4, "b", text("a/", "b", "c")),
    long("`**/*a/*a/...b`, once", ["**/", "*a/", "b"], 1, "", text("a/", "b", "c")),
    long("`**/*a*a.../`, 4 times", ["**/", "*a", "/"], 4, "b", text("aaaaaaa/", "b", "c")),
    long("`**/*a*a...b` on few slashes", ["**/", "*a", "b"], 1, "", text("aaaaaaaaaaaaaaaaaaaaaaaaaaaaaaa/", "b", "c")),
    long("`*[xxx...]`, a long class", ["*[", "x", "]"], 1, "", text("a", "x", "a")),
    long("`*[xxx...a]`, 2 long classes", ["*[", "x", "a]"], 2, "c", text("a", "c", "b")),
    long("`*[!xxx...]`, 16 long classes", ["*[!", "x", "]"], 16, "", text("a", "a", "x")),
    long("`*[z-az-a...]`, ranges", ["*[", "z-a", "]"], 1, "", text("a", "z", "b")),
    long("`*[\\x\\x...]`, escapes", ["*[", "\\x", "]"], 1, "", text("a", "x", "a")),
    long("`*[[:upper:]...]`, names", ["*[", "[:upper:]", "]"], 1, "", text("1", "A", "1")),
    long("`*[[:xdigit:]...]`, names", ["*[", "[:xdigit:]", "]"], 1, "", text("z", "a", "z")),
    long("`*[[:[:[:...x]`, openings that are no names", ["*[", "[:", "x]"], 1, "", text("a", "x", "a")),
    long("`[[:[:...x]*`, 4 times", ["[", "[:", "x]*"], 4, "b", text("x", "b", "a")),
    long("`**/[[:[:...x]`, at each component", ["**/[", "[:", "x]"], 1, "", text("a/", "x", "a")),
];

/// Patterns that are broken, or are found not to be only at their end: what is
/// read alone must grow as the pattern does. Of an even number of `\` each second
/// one is escaped; one more is broken.
pub const READ_FAMILIES: &[Family] = &[
    short("`[`, not closed", "[", "", text("a", "", "b")),
    short("`[a`, not closed", "[a", "", text("a", "", "b")),
    long("`[[:[:...`, not closed", ["[", "[:", ""], 1, "", text("a", "", "b")),
    long("`[[:[:...:]`, a name that is none", ["[", "[:", ":]]"], 1, "", text("a", "", "b")),
    long("`[[:alpha:]...`, not closed", ["[", "[:alpha:]", ""], 1, "", text("a", "", "1")),
    long("`[a-za-z...`, not closed", ["[", "a-z", ""], 1, "", text("a", "", "1")),
    long("`[\\]\\]...`, not closed", ["[", "\\]", ""], 1, "", text("a", "", "]")),
    short("`\\`, an even number", "\\\\", "", text("\\", "", "a")),
    short("`\\`, an odd number", "\\\\", "\\", text("\\", "", "a")),
    short("`a` then `\\`", "a", "\\", text("a", "", "b")),
    short("`a`, unbroken", "a", "", text("a", "", "b")),
    short("`[a]` then `[`", "[a]", "[", text("a", "", "b")),
    short("`[[:]`, unbroken", "[[:]", "", text("[", "", "b")),
    long("`[[:[:...x]`, unbroken", ["[", "[:", "x]"], 1, "", text("x", "", "a")),
    short("`*` then `[`", "*", "[", text("a", "", "b")),
    short("`*a` then `[`", "*a", "[", text("a", "", "b")),
    short("`**/` then `[`", "**/", "[", text("a/", "", "b")),
    short("`**/a/` then `\\`", "**/a/", "\\", text("a/", "", "b")),
];

/// All families of the matcher.
pub fn families() -> impl Iterator<Item = &'static Family> {
    FAMILIES.iter().chain(READ_FAMILIES)
}

impl Family {
    /// The pattern of at most `size` bytes.
    pub fn pattern(&self, size: usize) -> Vec<u8> {
        let room = size - self.end.len();
        let units = if self.units == 0 { room / self.inner.len() } else { self.units };
        let fixed = self.before.len() + self.after.len();
        let inner = match self.units {
            0 => 1,
            units => (room / units - fixed) / self.inner.len(),
        };
        let unit = [self.before, &self.inner.repeat(inner), self.after].concat();
        [unit.repeat(units).as_bytes(), self.end.as_bytes()].concat()
    }

    /// Texts of at most `size` bytes: one that may match, one that fails late.
    pub fn texts(&self, size: usize) -> [(&'static str, Vec<u8>); 2] {
        [("good", self.text.filled(size, self.text.good)), ("late", self.text.filled(size, self.text.late))]
    }
}

impl Text {
    fn filled(&self, size: usize, end: &str) -> Vec<u8> {
        let mut bytes = self.unit.repeat((size - end.len()) / self.unit.len()).into_bytes();
        bytes.extend_from_slice(end.as_bytes());
        bytes
    }
}

/// The name of the mode that a flags number asks for.
pub fn mode(flags: u64) -> &'static str {
    ["plain", "path", "plain+fold", "path+fold"][flags as usize]
}
