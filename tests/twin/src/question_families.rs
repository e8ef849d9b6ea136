//! Families of questions that grow in lines, in bytes a line and in the path:
//! those that are deep or slow in other readers, and those that press on one
//! rule of document 01. One file of base 0 each.

const MOST_RULES: usize = 65_536;
const MOST_LINE: usize = 2048;
const MOST_PATH: usize = 4096;

pub struct QuestionFamily {
    pub name: &'static str,
    /// The attribute asked for; none: the ignore question.
    pub attribute: Option<&'static str>,
    /// A line is the first, then the second as often as there is room, then
    /// the third; with no second the line's length is fixed.
    line: [&'static str; 3],
    /// The path is this again and again; components end in `/`.
    path: &'static str,
}

/// How many lines, and how many bytes a line and the path have at most.
#[derive(Clone, Copy)]
pub struct Size {
    pub lines: usize,
    pub line: usize,
    pub path: usize,
}

const fn ignore(name: &'static str, line: [&'static str; 3], path: &'static str) -> QuestionFamily {
    QuestionFamily { name, attribute: None, line, path }
}

const fn attribute(name: &'static str, line: [&'static str; 3], path: &'static str) -> QuestionFamily {
    QuestionFamily { name, attribute: Some("fill"), line, path }
}

pub const QUESTION_FAMILIES: &[QuestionFamily] = &[
    ignore("`b`, short lines", ["b", "", ""], "a/"),
    ignore("`/b`, short anchored lines", ["/b", "", ""], "a/"),
    ignore("`!a`, re-includes every entry", ["!a", "", ""], "a/"),
    ignore("`!**/a`, re-includes every entry", ["!**/a", "", ""], "a/"),
    ignore("`#xxx...`, comments", ["#", "x", ""], "a/"),
    ignore("`b` and spaces", ["b", " ", ""], "a/"),
    ignore("`**/**/...[b]`", ["", "**/", "[b]"], "a/"),
    ignore("`**/a/a/b/a`", ["**/a/a/b/a", "", ""], "a/"),
    ignore("`**/a/a/...[b]`", ["**/", "a/", "[b]"], "a/"),
    ignore("`**/a/**/a/...[b]`", ["", "**/a/", "[b]"], "a/"),
    ignore("`**/[[:[:...x]`", ["**/[", "[:", "x]"], "a/"),
    ignore("`*a*a...[b]` on one component", ["", "*a", "[b]"], "a"),
    ignore("`*[xxx...]` on one component", ["*[", "x", "]"], "a"),
    attribute("`b fill`", ["b fill", "", ""], "a/"),
    attribute("`* fill`", ["* fill", "", ""], "a/"),
    attribute("`* x x ... fill`", ["*", " x", " fill"], "a/"),
    attribute("`* fill fill ... =`, a bad name last", ["*", " fill", " ="], "a/"),
    attribute("`* xxx...`, a long name", ["* ", "x", ""], "a/"),
    attribute("`**/**/...[b] fill`", ["", "**/", "[b] fill"], "a/"),
    attribute("`**/a/a/b/a fill`", ["**/a/a/b/a fill", "", ""], "a/"),
    attribute("`**/[[:[:...x] fill`", ["**/[", "[:", "x] fill"], "a/"),
    attribute("`*[xxx...] fill` on one component", ["*[", "x", "] fill"], "a"),
];

/// Those that are slow on paths of few components already, and the paths'
/// lengths to try: 0 is components of one letter. A run before a class tries
/// it at each letter, so that longer components are slower.
pub const DEEP_FAMILIES: &[(QuestionFamily, &[usize])] = &[
    (ignore("`**/a/a/b/a`", ["**/a/a/b/a", "", ""], "a/"), &[0]),
    (ignore("`!**/a`", ["!**/a", "", ""], "a/"), &[0]),
    (ignore("`**/[[:[:...x]`", ["**/[", "[:", "x]"], "a/"), &[0]),
    (ignore("`**/*?[b]`", ["**/*?[b]", "", ""], "a/"), &[0, 256, 1024]),
    (ignore("`**/*[xxxxxxxxxxxxxxxa][b]`", ["**/*[xxxxxxxxxxxxxxxa][b]", "", ""], "a/"), &[0, 256, 1024]),
    (ignore("`**/*[[:[:...x]`", ["**/*[", "[:", "x]"], "a/"), &[0, 256, 1024]),
];

/// So many components of the letter `a`, all of one length, in at most so many bytes.
pub fn deep_path(components: usize, bytes: usize) -> Vec<u8> {
    let letters = ((bytes + 1) / components).max(2) - 1;
    vec!["a".repeat(letters); components].join("/").into_bytes()
}

impl QuestionFamily {
    /// Does a line have room to grow in?
    pub fn grows(&self) -> bool {
        !self.line[1].is_empty()
    }

    /// One line with its newline.
    fn line(&self, bytes: usize) -> String {
        let [front, unit, back] = self.line;
        let times = if self.grows() { (bytes - front.len() - back.len()) / unit.len() } else { 0 };
        [front, &unit.repeat(times), back, "\n"].concat()
    }

    pub fn rules(&self, size: Size) -> Vec<u8> {
        self.line(size.line).repeat(size.lines).into_bytes()
    }

    pub fn path(&self, size: Size) -> Vec<u8> {
        let mut path = self.path.repeat(size.path / self.path.len()).into_bytes();
        if path.ends_with(b"/") {
            path.pop();
        }
        path
    }

    /// Lines, line and path as large as document 01 takes them.
    pub fn limits(&self) -> Size {
        let line = if self.grows() { MOST_LINE } else { self.line(0).len() - 1 };
        Size { lines: MOST_RULES / (self.line(line).len()), line, path: MOST_PATH }
    }
}
