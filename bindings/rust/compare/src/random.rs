//! Random numbers, random texts, and random commands that mostly fit their text.
use std::fmt::Write;

/// A generator of random numbers (xorshift).
pub struct Random(u64);

impl Random {
    pub fn new(seed: u64) -> Self {
        Random(seed.wrapping_mul(0x9e37_79b9_7f4a_7c15) | 1)
    }

    fn next(&mut self) -> u64 {
        self.0 ^= self.0 << 13;
        self.0 ^= self.0 >> 7;
        self.0 ^= self.0 << 17;
        self.0.wrapping_mul(0x2545_f491_4f6c_dd1d)
    }

    pub fn below(&mut self, bound: usize) -> usize {
        (self.next() >> 33) as usize % bound
    }

    fn chance(&mut self, percent: usize) -> bool {
        self.below(100) < percent
    }

    fn pick<'a, T: ?Sized>(&mut self, of: &[&'a T]) -> &'a T {
        of[self.below(of.len())]
    }
}

/// The pieces of random texts: tokens, parts of tokens, white space, and characters at the ends of
/// character classes.
const PIECES: &[&str] = &[
    "'",
    "\"",
    "\\",
    "#",
    "r",
    "b",
    "c",
    "br",
    "cr",
    "r#",
    "x",
    "0",
    "1",
    "9",
    "_",
    ".",
    "e",
    "E",
    "u8",
    "0x",
    "0o",
    "0b",
    "/",
    "//",
    "/*",
    "*/",
    "*",
    "!",
    "\n",
    "\r",
    "\t",
    " ",
    " ",
    " ",
    "(",
    ")",
    "{",
    "}",
    "[",
    "]",
    "+",
    "=",
    "-",
    ":",
    "é",
    "self",
    "super",
    "Self",
    "crate",
    "\\n",
    "\\x7f",
    "\\x80",
    "\\u{1}",
    "\\u{d800}",
    "\\u{1_0_}",
    "\\0",
    "\u{200e}",
    "\u{feff}",
    "\u{2028}",
    "\u{a0}",
    "@",
    "`",
    "\u{300}",
    "a'b",
    "b'",
    "b\"",
    "''",
    "'a'",
    "~",
    "?",
    ",",
    "\u{b}",
    "\u{85}",
    "\u{3000}",
    "·",
    "٣",
    "ª",
    "abc",
    "ident",
    "\"str\"",
    "'c'",
    "12",
    "0xff",
    "->",
    "=>",
    "::",
    "..",
    "..=",
    "<<=",
    "&&",
    "|",
    "^",
    "%",
    "$",
    ";",
    "<",
    ">",
    "()",
    "{}",
    "[]",
    "'static",
    "r#fn",
    "1.",
    ".5",
    "1e5",
    "\r\n",
    "///",
    "//!",
    "/**/",
    "/***/",
    "\\\n",
    "0b'",
    "1_",
    "u",
    "i32",
    "f64",
    "\u{0}",
    "\u{7f}",
    "\u{ad}",
    "\u{200b}",
    "x̂",
    "日",
    "🦀",
    "ſ",
    "ﬁ",
];

/// Returns a text that consists of a few different pieces.
pub fn text(random: &mut Random) -> String {
    let kinds = 2 + random.below(9);
    let some: Vec<&str> = (0..kinds).map(|_| random.pick(PIECES)).collect();
    let length = 1 + random.below(12);
    (0..length).map(|_| random.pick(&some)).collect()
}

/// The keywords that `syn` 1 has as well, except `async`, `await`, `dyn` and `try`, which `syn` 1
/// accepts as identifiers.
pub const KEYWORDS: &[&str] = &[
    "abstract", "as", "auto", "become", "box", "break", "const", "continue", "crate", "default",
    "do", "else", "enum", "extern", "final", "fn", "for", "if", "impl", "in", "let", "loop",
    "macro", "match", "mod", "move", "mut", "override", "priv", "pub", "ref", "return", "Self",
    "self", "static", "struct", "super", "trait", "type", "typeof", "union", "unsafe", "unsized",
    "use", "virtual", "where", "while", "yield",
];

pub const PUNCTUATIONS: &[&str] = &[
    "&", "&&", "&=", "@", "^", "^=", ":", ",", "$", ".", "..", "...", "..=", "=", "==", "=>", ">=",
    ">", "<-", "<=", "<", "-", "-=", "!=", "!", "|", "|=", "||", "::", "%", "%=", "+", "+=", "#",
    "?", "->", ";", "<<", "<<=", ">>", ">>=", "/", "/=", "*", "*=", "~",
];

const IDENTS: &[&str] = &[
    "a", "b", "x", "Sized", "r#fn", "r#a", "é", "_a", "xy", "true", "false", "_", "name", "r#true",
];
const LITERALS: &[&str] =
    &["1", "0x1f", "\"s\"", "'c'", "b'x'", "1u8", "0b10", "\"\\n\"", "'\\''", "1_0", "\"»\""];
const LIFETIMES: &[&str] = &["'a", "'static", "'_", "'fn", "'r#b", "'self", "'true"];
const SEPARATORS: &[&str] = &[",", ";", "+", "::"];
const DELIMITERS: &[&str] = &["(", "{", "["];
const PARSED: &[&str] = &["Ident", "IdentAny", "LifetimeAny", "Literal", "Punct", "_"];
const LOOKED_FOR: &[&str] = &["Ident", "IdentAny", "LifetimeAny", "_"];
const GROUPS: &[&str] = &["Paren", "Brace", "Bracket"];

#[derive(Clone)]
enum Tree {
    Leaf(&'static str),
    Group(&'static str, Vec<Tree>),
    Marked(Vec<Tree>),
}

/// The shares of invisible groups and of other groups among the trees, in percent.
struct Shares {
    marks: usize,
    groups: usize,
}

fn vocabulary(random: &mut Random, separator: &'static str) -> Vec<&'static str> {
    let mut words = Vec::new();
    for _ in 0..1 + random.below(4) {
        words.push(if random.chance(70) { random.pick(IDENTS) } else { random.pick(KEYWORDS) });
    }
    for (most, of) in [(3, LITERALS), (3, LIFETIMES), (4, PUNCTUATIONS)] {
        words.extend((0..random.below(most)).map(|_| random.pick(of)));
    }
    words.extend((0..random.below(3)).map(|_| separator));
    words
}

fn trees(
    random: &mut Random,
    words: &[&'static str],
    shares: &Shares,
    size: usize,
    depth: usize,
) -> Vec<Tree> {
    let mut out = Vec::new();
    let mut left = size;
    while left > 0 {
        let drawn = random.below(100);
        if drawn < shares.marks + shares.groups && depth < 7 {
            let inner = if random.chance(15) { 0 } else { 1 + random.below(left) };
            let inside = trees(random, words, shares, inner, depth + 1);
            out.push(if drawn < shares.marks {
                Tree::Marked(inside)
            } else {
                Tree::Group(random.pick(DELIMITERS), inside)
            });
            left = left.saturating_sub(inner + 1);
        } else {
            out.extend(leaves(random, words, shares));
            left -= 1;
        }
    }
    out
}

/// Returns a token. Sometimes the token is split into parts, some of which are in invisible groups.
fn leaves(random: &mut Random, words: &[&'static str], shares: &Shares) -> Vec<Tree> {
    let word = random.pick(words);
    let is_punctuation = word.len() > 1 && PUNCTUATIONS.contains(&word);
    let parts = if is_punctuation && random.chance(30) {
        (0..word.len()).map(|at| &word[at..=at]).collect()
    } else if LIFETIMES.contains(&word) && random.chance(shares.marks) {
        vec!["'", &word[1..]]
    } else {
        return vec![Tree::Leaf(word)];
    };
    let mut out = Vec::new();
    for part in parts {
        let leaf = Tree::Leaf(part);
        out.push(if random.chance(shares.marks) { Tree::Marked(vec![leaf]) } else { leaf });
    }
    out
}

fn closing(delimiter: &str) -> char {
    match delimiter {
        "(" => ')',
        "{" => '}',
        _ => ']',
    }
}

/// Writes trees as a text, with white space or a comment between most of them.
fn spell(random: &mut Random, glued: usize, trees: &[Tree], out: &mut String) {
    for tree in trees {
        match tree {
            Tree::Leaf(word) => {
                let last = out.trim_end_matches(['«', '»']).chars().last().unwrap_or(' ');
                let is_wordy = |it: char| it.is_alphanumeric() || "_'\"#".contains(it);
                let would_join =
                    last != '#' && last != '\'' && is_wordy(last) && word.starts_with(is_wordy);
                if would_join || !random.chance(glued) {
                    out.push_str(match random.below(30) {
                        0 => "\n",
                        1 => "/* « */",
                        2 => " // »\n",
                        _ => " ",
                    });
                }
                out.push_str(word);
            }
            Tree::Group(delimiter, inside) => {
                out.push_str(delimiter);
                spell(random, glued, inside, out);
                out.push(closing(delimiter));
            }
            Tree::Marked(inside) => {
                out.push('«');
                spell(random, glued, inside, out);
                out.push('»');
            }
        }
    }
}

fn visible(trees: &[Tree], out: &mut Vec<Tree>) {
    for tree in trees {
        match tree {
            Tree::Marked(inside) => visible(inside, out),
            _ => out.push(tree.clone()),
        }
    }
}

/// The state of a stream, which decides the commands that mostly fit the stream.
struct Stream {
    trees: Vec<Tree>,
    at: usize,
    is_fork: bool,
    is_inside: bool,
    is_open: bool,
}

fn fitting(random: &mut Random, word: &'static str) -> &'static str {
    if LIFETIMES.contains(&word) {
        return if random.chance(80) { "LifetimeAny" } else { "Punct" };
    }
    if LITERALS.contains(&word) {
        return "Literal";
    }
    if PUNCTUATIONS.contains(&word) {
        return if random.chance(60) { word } else { "Punct" };
    }
    let is_keyword = KEYWORDS.contains(&word) || word == "_";
    if is_keyword && random.chance(50) {
        word
    } else if random.chance(50) {
        "Ident"
    } else {
        "IdentAny"
    }
}

fn any_kind(random: &mut Random, words: &[&'static str], kinds: &[&'static str]) -> &'static str {
    match random.below(20) {
        0..=9 => {
            let word = random.pick(words);
            let is_kind = KEYWORDS.contains(&word) || PUNCTUATIONS.contains(&word) || word == "_";
            if is_kind {
                word
            } else {
                random.pick(kinds)
            }
        }
        10..=16 => random.pick(kinds),
        17 => random.pick(SEPARATORS),
        18 => random.pick(KEYWORDS),
        _ => random.pick(PUNCTUATIONS),
    }
}

fn look(random: &mut Random, words: &[&'static str]) -> &'static str {
    if random.chance(70) {
        any_kind(random, words, LOOKED_FOR)
    } else {
        random.pick(GROUPS)
    }
}

/// Writes commands, most of which fit the token at the position of their stream.
fn commands(
    random: &mut Random,
    whole: &[Tree],
    words: &[&'static str],
    count: usize,
    out: &mut String,
) {
    let mut first = Vec::new();
    visible(whole, &mut first);
    let mut streams =
        vec![Stream { trees: first, at: 0, is_fork: false, is_inside: false, is_open: true }];
    for _ in 0..count {
        let open: Vec<usize> = (0..streams.len()).filter(|&it| streams[it].is_open).collect();
        let s = if random.chance(2) {
            random.below(streams.len() + 2)
        } else {
            open[open.len() - 1 - random.below(open.len().min(3))]
        };
        let next = streams.get(s).and_then(|it| it.trees.get(it.at)).cloned();
        let drawn = random.below(100);
        let _ = match drawn {
            0..=36 => {
                let can_peek = drawn >= 28;
                let kind = match &next {
                    Some(Tree::Leaf(word)) if random.chance(85) => fitting(random, word),
                    _ => any_kind(random, words, if can_peek { LOOKED_FOR } else { PARSED }),
                };
                let command = if can_peek && !["Literal", "Punct"].contains(&kind) {
                    "optional"
                } else {
                    "parse"
                };
                if let (Some(Tree::Leaf(_)), Some(stream)) = (&next, streams.get_mut(s)) {
                    stream.at += 1;
                }
                writeln!(out, "{command} {s} {kind}")
            }
            37..=54 => match &next {
                Some(Tree::Group(delimiter, inside)) if random.chance(90) => {
                    streams[s].at += 1;
                    let mut trees = Vec::new();
                    visible(inside, &mut trees);
                    streams.push(Stream {
                        trees,
                        at: 0,
                        is_fork: false,
                        is_inside: true,
                        is_open: true,
                    });
                    writeln!(out, "enter {s} {delimiter}")
                }
                _ => writeln!(out, "enter {s} {}", random.pick(DELIMITERS)),
            },
            55..=61 => {
                if let Some(stream) = streams.get(s).filter(|it| it.is_open) {
                    let (trees, at) = (stream.trees.clone(), stream.at);
                    streams.push(Stream {
                        trees,
                        at,
                        is_fork: true,
                        is_inside: false,
                        is_open: true,
                    });
                }
                writeln!(out, "fork {s}")
            }
            62..=69 => {
                let forks: Vec<usize> =
                    open.iter().copied().filter(|&it| streams[it].is_fork).collect();
                let f = if forks.is_empty() { s } else { forks[random.below(forks.len())] };
                if s < streams.len() && f != s && streams[f].is_fork {
                    streams[f].is_open = false;
                    streams[s].at = streams[f].at;
                }
                writeln!(out, "advance {s} {f}")
            }
            70..=75 => {
                let inside: Vec<usize> =
                    open.iter().copied().filter(|&it| streams[it].is_inside).collect();
                let c = if inside.is_empty() || random.chance(10) {
                    s
                } else {
                    inside[random.below(inside.len())]
                };
                if let Some(stream) = streams.get_mut(c).filter(|it| it.is_inside) {
                    stream.is_open = false;
                }
                writeln!(out, "close {c}")
            }
            76..=77 => {
                if let Some(stream) = streams.get_mut(s).filter(|it| it.is_fork) {
                    stream.is_open = false;
                }
                writeln!(out, "discard {s}")
            }
            78..=86 => {
                let peek = random.pick(&["peek", "peek2", "peek3"]);
                writeln!(out, "{peek} {s} {}", look(random, words))
            }
            87..=89 => writeln!(out, "empty {s}"),
            90..=93 => {
                let looks: Vec<&str> = (0..random.below(5)).map(|_| look(random, words)).collect();
                writeln!(out, "lookahead {s} {}", looks.join(" "))
            }
            _ => {
                let kind = match &next {
                    Some(Tree::Leaf(word)) if random.chance(80) => fitting(random, word),
                    _ => any_kind(random, words, PARSED),
                };
                let separator =
                    words.iter().copied().find(|it| SEPARATORS.contains(it)).unwrap_or(",");
                let separator = if random.chance(80) { separator } else { random.pick(SEPARATORS) };
                writeln!(
                    out,
                    "{} {s} {kind} {separator}",
                    random.pick(&["terminated", "separated"])
                )
            }
        };
        // A command that ends all streams leaves none to choose from.
        if streams.iter().all(|it| !it.is_open) {
            return;
        }
    }
}

/// Returns a marked text, and a list of commands with one command on each line. `syn` has calls for
/// all of these commands.
pub fn input(random: &mut Random) -> (String, String) {
    let separator = random.pick(SEPARATORS);
    let words = vocabulary(random, separator);
    let shares =
        Shares { marks: [0, 5, 15, 30][random.below(4)], groups: [0, 10, 25, 40][random.below(4)] };
    let mut all = if random.chance(20) {
        let mut list = Vec::new();
        for _ in 0..random.below(6) {
            list.push(Tree::Leaf(random.pick(&words)));
            if random.chance(85) {
                list.push(Tree::Leaf(separator));
            }
        }
        list
    } else {
        let size = random.below(16);
        trees(random, &words, &shares, size, 0)
    };
    if random.chance(40) {
        let delimiter = random.pick(DELIMITERS);
        all = vec![if random.chance(25) { Tree::Marked(all) } else { Tree::Group(delimiter, all) }];
    }
    let mut text = String::new();
    let glued = [10, 50, 90][random.below(3)];
    spell(random, glued, &all, &mut text);
    let mut lines = String::new();
    let count = random.below(31);
    commands(random, &all, &words, count, &mut lines);
    (text, lines)
}

/// Returns random digits and underscores, with a digit at the start.
fn digits(random: &mut Random, most: usize) -> String {
    let mut out = String::new();
    for place in 0..=random.below(most) {
        let is_underscore = place > 0 && random.chance(10);
        out.push(if is_underscore { '_' } else { char::from(b'0' + random.below(10) as u8) });
    }
    out
}

/// Returns a float without its suffix, and the suffix. The exponent may be beyond the range of an
/// `f64`.
pub fn float(random: &mut Random) -> (String, &'static str) {
    let mut out = digits(random, 24);
    let has_point = random.chance(70);
    if has_point {
        out.push('.');
        out += &digits(random, 24);
    }
    if !has_point || random.chance(50) {
        out += random.pick(&["e", "E", "e+", "e-", "E-", "e_"]);
        out += &digits(random, 4);
    }
    (out, random.pick(&["", "", "f32", "f64"]))
}

const NAMES: &[&str] = &["a", "b", "name", "r#fn", "type", "self", "crate", "_", "union"];

/// Expressions, a few of which contain a comma.
const VALUES: &[&str] = &[
    "1",
    "\"x\"",
    "- 1",
    "true",
    "'c'",
    "7u8",
    "b",
    "crate :: b",
    "f (1, 2)",
    "b :: < c, d > (e)",
    "m ! (a, b)",
    "[1, 2]",
    "(a, b)",
    "{ a }",
    "x + 1",
    "& a",
    "a . b",
    "! x",
    "a as u8",
    "if a { b } else { c }",
];

/// Returns the tokens of a list of metas. Some tokens are missing, replaced or added.
pub fn metas(random: &mut Random) -> Vec<&'static str> {
    let mut out = Vec::new();
    for at in 0..random.below(5) {
        out.extend((at > 0).then_some(","));
        out.extend(random.chance(10).then_some("::"));
        out.push(random.pick(NAMES));
        while random.chance(25) {
            out.extend(["::", random.pick(NAMES)]);
        }
        match random.below(10) {
            0..=3 => out.extend(["=", random.pick(VALUES)]),
            4..=6 => out.push(random.pick(&["()", "(a, b = 1)", "[x]", "{y: z}", "(+ ,)"])),
            _ => {}
        }
    }
    out.extend((!out.is_empty() && random.chance(25)).then_some(","));
    for _ in 0..random.below(3) * random.below(2) {
        let at = random.below(out.len() + 1);
        match random.below(3) {
            0 if at < out.len() => {
                out.remove(at);
            }
            1 if at + 1 < out.len() => out.swap(at, at + 1),
            _ => out.insert(at, random.pick(&[",", "=", "::", "1", "a", "(b)", "+", "\"s\""])),
        }
    }
    out
}
