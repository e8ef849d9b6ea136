//! The ways to be broken, and what may stand before and behind them.

/// Items that are broken if nothing stands behind them.
pub const UNCLOSED: [&str; 40] = [
    // "A `\` at the end makes the pattern broken."
    "\\",
    // "No closing `]` is broken", and "a `]` as first member is a member".
    "[",
    "[!",
    "[^",
    "[]",
    "[!]",
    "[^]",
    "[!!",
    "[a",
    "[a-",
    "[a-z",
    "[!a-z",
    "[]-",
    "[]-a",
    "[[",
    "[a[",
    "[a?*/",
    // "After `[:` look for the next `]`: none, the pattern is broken."
    "[[:",
    "[![:",
    "[a[:",
    "[[:alpha",
    "[[:alpha:",
    "[a-z[:alpha:",
    // A name or a range, and no `]` behind it.
    "[[:alpha:]",
    "[![:digit:][:alpha:]",
    "[[:alpha:]-",
    "[a-[",
    "[a-[:",
    // A `\` last in a class, as a member and as a range's end.
    "[\\",
    "[!\\",
    "[]\\",
    "[a\\",
    "[[:alpha:]\\",
    "[a-\\",
    "[!a-\\",
    "[\\a-\\",
    // The `]` is escaped, and so none closes.
    "[\\]",
    "[a\\]",
    "[!\\]",
    "[a-\\]",
];

/// "a name outside the twelve, the empty name too, is broken": whatever follows.
pub const NAMED: [&str; 17] = [
    "[[:foo:]]",
    "[[::]]",
    "[[::]",
    "[[:foo:]",
    "[[:::]]",
    "[[:ALPHA:]]",
    "[[:alph:]]",
    "[[:alphas:]]",
    "[[:alpha :]]",
    "[[: alpha:]]",
    "[![:foo:]]",
    "[^[:foo:]]",
    "[][:foo:]]",
    "[a-z[:foo:]]",
    "[[:alpha:][:foo:]]",
    "[[:foo:][:alpha:]]",
    "[[:[:alpha:]]",
];

/// What is not read any more, as it would be read: unbroken and broken.
pub const BEHIND: [&str; 7] = ["", "a", "]", "*", "\\", "[", "[[:alpha:]]"];

/// A byte that most fronts do not take.
const CONTROL: Option<&str> = Some("\u{1}");

/// Items of each kind, alone and in a row; what they take, in all modes; and a
/// text that fails at once: in no mode do they take a beginning of it, also not
/// the empty one. There is none where no item stands; for a run that stands first,
/// since it may take nothing, in path mode with its slash; and for `?`, since in
/// plain mode it takes every byte.
pub const FRONTS: [(&str, &str, Option<&str>); 26] = [
    ("", "", None),
    ("a", "a", CONTROL),
    ("]", "]", CONTROL),
    ("\\a", "a", CONTROL),
    ("\\\\", "\\", CONTROL),
    ("\\[", "[", CONTROL),
    ("?", "x", None),
    ("*", "xy", None),
    ("**", "xy", None),
    ("***", "xy", None),
    ("**/", "x/", None),
    ("***/", "x/", None),
    ("a/**/", "a/x/", CONTROL),
    ("a/**\\/", "a/x/", CONTROL),
    ("[a]", "a", CONTROL),
    ("[!a]", "b", Some("a")),
    ("[^a-c]", "x", Some("a")),
    ("[[:alpha:]]", "a", CONTROL),
    ("[![:digit:]]", "a", Some("1")),
    ("[]]", "]", CONTROL),
    ("[!]]", "a", Some("]")),
    ("[\\]]", "]", CONTROL),
    ("[a-\\]]", "a", CONTROL),
    ("[[:]", ":", CONTROL),
    ("[[=a=]]", "=]", CONTROL),
    ("a?*\\b[c]", "axbc", CONTROL),
];
