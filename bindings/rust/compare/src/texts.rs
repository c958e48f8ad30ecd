//! Reads the same texts with `proc-macro2` and with this library, and compares the tokens.
use std::panic;
use std::str::FromStr;

use proc_macro2::{Delimiter, Spacing, TokenStream, TokenTree};
use syn_tokens::{self as ours, Buffer, Cursor, Edition, Error, Token};

use crate::random::{self, Random};
use crate::spans::range;
use crate::tally::Tally;

const EQUAL: &str = "equal";
const SHEBANG: &str = "a shebang line";
const QUOTED: &str = "the lifetime `'b`, `'r` or `'br` before a quote or `#`";

/// A token as both libraries describe it. Its range counts characters. An opening or closing
/// delimiter has an empty range at the start or the end of its group.
#[derive(Debug, PartialEq, Eq)]
struct Flat {
    kind: &'static str,
    text: String,
    joint: bool,
    range: (usize, usize),
}

const OPENINGS: [&str; 4] = ["(", "{", "[", "«"];
const CLOSINGS: [&str; 4] = [")", "}", "]", "»"];

/// Appends the tokens of this library. If `turned` is true, each punct gets the other spacing.
fn flatten(text: &str, tokens: Cursor<'_>, turned: bool, out: &mut Vec<Flat>) {
    let characters = |at: usize| text[..at].chars().count();
    let range = |it: ours::Span| (characters(it.start), characters(it.end));
    for token in tokens {
        let (kind, word, joint, span) = match token {
            Token::Ident(it) => ("ident", it.text.to_string(), false, it.span),
            Token::Literal(it) => ("literal", it.text.to_string(), false, it.span),
            Token::Punct(it) => {
                let joint = (it.spacing == ours::Spacing::Joint) != turned;
                ("punct", it.ch.to_string(), joint, it.span)
            }
            Token::Group(it) => {
                let text_of = |of: [&str; 4]| of[it.delimiter as usize].to_string();
                let [start, end] = [it.open.start, it.close.end].map(characters);
                out.push(Flat {
                    kind: "opening",
                    text: text_of(OPENINGS),
                    joint: false,
                    range: (start, start),
                });
                flatten(text, it.tokens, turned, out);
                out.push(Flat {
                    kind: "closing",
                    text: text_of(CLOSINGS),
                    joint: false,
                    range: (end, end),
                });
                continue;
            }
        };
        out.push(Flat { kind, text: word, joint, range: range(span) });
    }
}

fn flatten_theirs(stream: TokenStream, base: usize, out: &mut Vec<Flat>) {
    for tree in stream {
        let (start, end) = range(tree.span());
        let range = (start - base, end - base);
        let (kind, text, joint) = match tree {
            TokenTree::Ident(it) => ("ident", it.to_string(), false),
            TokenTree::Literal(it) => ("literal", it.to_string(), false),
            TokenTree::Punct(it) => {
                ("punct", it.as_char().to_string(), it.spacing() == Spacing::Joint)
            }
            TokenTree::Group(it) => {
                let which = match it.delimiter() {
                    Delimiter::Parenthesis => 0,
                    Delimiter::Brace => 1,
                    Delimiter::Bracket => 2,
                    Delimiter::None => 3,
                };
                let (opening, closing) = (OPENINGS[which].to_string(), CLOSINGS[which].to_string());
                let (open, close) = ((range.0, range.0), (range.1, range.1));
                out.push(Flat { kind: "opening", text: opening, joint: false, range: open });
                flatten_theirs(it.stream(), base, out);
                out.push(Flat { kind: "closing", text: closing, joint: false, range: close });
                continue;
            }
        };
        out.push(Flat { kind, text, joint, range });
    }
}

/// Returns the tokens of `proc-macro2`, or `None` if `proc-macro2` rejects the text or panics.
fn theirs(text: &str) -> Option<Vec<Flat>> {
    // A text of one character says where the next text's characters begin.
    let probe = TokenStream::from_str("a").ok()?.into_iter().next()?;
    let base = range(probe.span()).1 + 1;
    let stream = panic::catch_unwind(|| TokenStream::from_str(text)).ok()?.ok()?;
    let mut out = Vec::new();
    flatten_theirs(stream, base, &mut out);
    Some(out)
}

/// Returns the literal of a doc comment without the escapes that `proc-macro2` writes for some
/// characters.
fn plain(literal: &str) -> String {
    let mut out = String::new();
    let mut rest = literal;
    while let Some(at) = rest.find('\\') {
        out.push_str(&rest[..at]);
        let after = &rest[at + 1..];
        let code = after.strip_prefix("u{").and_then(|it| it.split_once('}'));
        let named = code.and_then(|(digits, more)| {
            let number = u32::from_str_radix(digits, 16).ok()?;
            Some((char::from_u32(number)?, more))
        });
        let quote = after.strip_prefix('\'').map(|more| ('\'', more));
        match named.or(quote) {
            Some((it, more)) => {
                out.push(it);
                rest = more;
            }
            None => {
                let end = after.chars().next().map_or(0, char::len_utf8);
                out.push('\\');
                out.push_str(&after[..end]);
                rest = &after[end..];
            }
        }
    }
    out + rest
}

fn class_of_reads(text: &str, ours: &[Flat], theirs: &[Flat]) -> &'static str {
    let differ = |by: fn(&Flat, &Flat) -> bool| ours.iter().zip(theirs).any(|(a, b)| by(a, b));
    if ours == theirs {
        EQUAL
    } else if has_shebang(text) {
        SHEBANG
    } else if has_quoted(text) {
        QUOTED
    } else if ours.len() != theirs.len() || differ(|a, b| a.kind != b.kind) {
        "UNLISTED: other tokens"
    } else if differ(|a, b| plain(&a.text) != plain(&b.text)) {
        "UNLISTED: other texts"
    } else if differ(|a, b| a.joint != b.joint) {
        "UNLISTED: other spacing"
    } else if differ(|a, b| a.range != b.range) {
        "UNLISTED: other spans"
    } else {
        "characters of a doc comment"
    }
}

fn has_shebang(text: &str) -> bool {
    text.trim_start_matches('\u{feff}').starts_with("#!")
}

/// Returns `true` if an apostrophe is directly before the start of a byte string or a raw string.
fn has_quoted(text: &str) -> bool {
    ["'b\"", "'r\"", "'r#", "'br"].iter().any(|it| text.contains(it))
}

/// Returns the reason why this library reads a text that `proc-macro2` rejects.
fn class_of_read(rules: &str, text: &str) -> &'static str {
    let quotes = text.matches('\'').count();
    if rules != "lex" && has_shebang(text) {
        SHEBANG
    } else if has_quoted(text) {
        QUOTED
    } else if ["r#", "br#", "cr#"].iter().any(|it| text.contains(it)) {
        "`r#` before no name, `br#` or `cr#` before no quote"
    } else if rules == "lex" && text.contains('\r') {
        "a bare carriage return in a string"
    } else if quotes > 1 {
        "an apostrophe directly after a lifetime's name"
    } else {
        "UNLISTED: read here alone"
    }
}

/// Returns the reason why this library rejects a text that `proc-macro2` reads.
fn class_of_rejected(rule: u32, text: &str, at: usize) -> &'static str {
    let here = &text[at..];
    let is_quote = here.trim_start_matches('b').starts_with('\'');
    match rule {
        1 if here.starts_with(char::is_whitespace) => "white space that is not Pattern_White_Space",
        5 | 7 | 8 => "left out of `lex`: a doc comment, a raw, byte or C string, a float",
        6 | 10 if has_quoted(text) => QUOTED,
        6 if here.starts_with("br") => "a raw byte string with a character beyond ASCII",
        6 if here.starts_with("b\"") && goes_on(here) => {
            "a byte string with a character beyond ASCII after a line that goes on"
        }
        6 | 11 if is_quote => "three apostrophes, or a tab or line end between apostrophes",
        9 => "a malformed number",
        1 if text[..at].ends_with(|it: char| it.is_ascii_alphanumeric() || it == '_') => {
            "a number before a character that goes on in identifiers"
        }
        12 => "more than 256 groups within one another",
        13 => "a reserved prefix",
        _ => "UNLISTED: rejected here alone",
    }
}

/// Returns `true` if a backslash continues a string on the next line, and white space beyond ASCII
/// comes first on that line.
fn goes_on(text: &str) -> bool {
    text.split('\\').any(|after| {
        let next = after.strip_prefix('\r').unwrap_or(after);
        let blank = next.trim_start_matches(|it: char| it.is_ascii_whitespace());
        next.starts_with('\n') && blank.starts_with(char::is_whitespace)
    })
}

/// Returns `true` if the stream that a buffer converts to has these tokens, regardless of spans.
fn is_converted(buffer: &Buffer, tokens: &[Flat]) -> bool {
    let mut converted = Vec::new();
    match TokenStream::try_from(buffer) {
        Ok(stream) => flatten_theirs(stream, 0, &mut converted),
        Err(_) => return false,
    }
    let same = |(a, b): (&Flat, &Flat)| a.kind == b.kind && a.text == b.text && a.joint == b.joint;
    converted.len() == tokens.len() && converted.iter().zip(tokens).all(same)
}

fn compare(rules: &str, text: &str, turned: bool, tally: &mut Tally) {
    let read = match rules {
        "lex" => Buffer::lex(text),
        _ => Buffer::lex_source(Edition::Edition2018, text),
    };
    let (class, told) = match (read, theirs(text)) {
        (Ok(buffer), Some(theirs)) => {
            let mut ours = Vec::new();
            flatten(text, buffer.tokens(), turned, &mut ours);
            let mut class = class_of_reads(text, &ours, &theirs);
            if class == EQUAL && !is_converted(&buffer, &ours) {
                class = "UNLISTED: converted to another stream";
            }
            (class, format!("{ours:?}\n    {theirs:?}"))
        }
        (Err(_), None) => ("both reject", String::new()),
        (Ok(buffer), None) => (class_of_read(rules, text), format!("{buffer:?}")),
        (Err(Error::Rejected { rule, at, words, .. }), Some(theirs)) => {
            (class_of_rejected(rule, text, at), format!("L{rule} {words} at {at}\n    {theirs:?}"))
        }
        (Err(error), Some(_)) => ("UNLISTED: memory", error.to_string()),
    };
    tally.count(&format!("{rules}: {class}"), text, &told);
}

/// Compares `count` random texts, by the rules of `lex` and by the rules of `lex_source`.
pub fn run(random: &mut Random, count: usize, turned: bool, tally: &mut Tally) {
    for _ in 0..count {
        let text = random::text(random);
        compare("lex", &text, turned, tally);
        compare("lex_source", &text, turned, tally);
    }
}
