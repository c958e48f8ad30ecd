//! Reads Rust source files by proc-macro2, and prints what crates/vectors_sources prints of them: `tokens EDITION FILE..` or `count EDITION FILE..`.
//! It has one grammar for all editions.
use proc_macro2::{Delimiter, LineColumn, Spacing, Span, TokenStream, TokenTree};
use std::fmt::Write;
use std::io::Write as _;

/// A text, and the byte at which each of its lines begins.
struct Lines<'a> {
    text: &'a str,
    starts: Vec<usize>,
}

impl<'a> Lines<'a> {
    fn new(text: &'a str) -> Self {
        let starts = std::iter::once(0).chain(text.match_indices('\n').map(|(at, _)| at + 1)).collect();
        Lines { text, starts }
    }

    /// The byte at a line, counted from 1, and a column, counted in characters from 0.
    fn byte(&self, place: LineColumn) -> usize {
        let start = self.starts.get(place.line - 1).copied().unwrap_or(self.text.len());
        let end = self.starts.get(place.line).copied().unwrap_or(self.text.len());
        let line = &self.text[start..end];
        start + line.char_indices().nth(place.column).map_or(line.len(), |(at, _)| at)
    }

    fn range(&self, span: Span) -> (usize, usize) {
        (self.byte(span.start()), self.byte(span.end()))
    }
}

fn main() {
    let mut words = std::env::args().skip(1);
    let goal = words.next().expect("no word that says what to print");
    let _edition = words.next();
    let mut out = std::io::stdout().lock();
    match goal.as_str() {
        "tokens" => {
            for file in words {
                // Each file has a thread of its own, since proc-macro2 looks each span up among all files that a thread has read.
                let lines = std::thread::Builder::new().stack_size(1 << 28).spawn(move || tokens(&file)).unwrap().join().unwrap();
                out.write_all(lines.as_bytes()).unwrap();
            }
        }
        "count" => {
            let trees: usize = words.map(|file| read(&std::fs::read_to_string(file).unwrap()).map_or(0, |it| it.into_iter().count())).sum();
            println!("{trees}");
        }
        _ => panic!("neither tokens nor count"),
    }
}

fn read(text: &str) -> Result<TokenStream, proc_macro2::LexError> {
    text.parse()
}

fn tokens(file: &str) -> String {
    let text = std::fs::read_to_string(file).unwrap();
    let lines = Lines::new(&text);
    let mut out = format!("{file}\n");
    match std::panic::catch_unwind(|| read(&text)) {
        Ok(Ok(stream)) => push_stream(&mut out, &lines, stream),
        Ok(Err(error)) => writeln!(out, "rejected {}", lines.byte(error.span().start())).unwrap(),
        Err(_) => writeln!(out, "panics").unwrap(),
    }
    out
}

fn push_stream(out: &mut String, lines: &Lines, stream: TokenStream) {
    for tree in stream {
        let (start, end) = lines.range(tree.span());
        match tree {
            TokenTree::Group(group) => {
                let (opening, closing) = match group.delimiter() {
                    Delimiter::Parenthesis => ("(", ")"),
                    Delimiter::Brace => ("{", "}"),
                    Delimiter::Bracket => ("[", "]"),
                    Delimiter::None => ("«", "»"),
                };
                writeln!(out, "group {start}..{end} {opening}").unwrap();
                push_stream(out, lines, group.stream());
                writeln!(out, "end {}..{end} {closing}", end - 1).unwrap();
            }
            TokenTree::Ident(ident) => writeln!(out, "ident {start}..{end} {ident}").unwrap(),
            TokenTree::Punct(punct) => {
                let kind = if punct.spacing() == Spacing::Joint { "joint" } else { "alone" };
                writeln!(out, "{kind} {start}..{end} {}", punct.as_char()).unwrap();
            }
            TokenTree::Literal(literal) => {
                let text = literal.to_string().replace('\\', "\\\\").replace('\n', "\\n").replace('\r', "\\r");
                writeln!(out, "literal {start}..{end} {text}").unwrap();
            }
        }
    }
}
