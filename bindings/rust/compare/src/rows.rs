//! Compares stored rows of proved programs with parsers that are written with `syn`: a parser of
//! arguments, and a parser of the metas in an attribute's list.
use std::fs;
use std::io;

use proc_macro2::{Delimiter, Group, Literal, Spacing, TokenStream, TokenTree};
use syn::buffer::Cursor;
use syn::ext::IdentExt;
use syn::parse::{Parse, ParseStream, Parser};
use syn::punctuated::{Pair, Punctuated};
use syn::{parenthesized, token, Attribute, Expr, Ident, Lit, Token};
use syn_tokens::Buffer;

use crate::random::{self, Random};
use crate::runs;
use crate::spans::Spans;
use crate::tally::Tally;

/// An argument, which consists of a name and a value.
struct Argument {
    name: Ident,
    value: Value,
}

/// The value of an argument: nothing, a literal after `=`, or arguments in parentheses.
enum Value {
    Flag,
    Literal(Token![=], Literal),
    List(token::Paren, Arguments),
}

type Arguments = Punctuated<Argument, Token![,]>;

impl Parse for Argument {
    fn parse(input: ParseStream<'_>) -> syn::Result<Self> {
        let name = input.parse()?;
        let value = if input.peek(Token![=]) {
            Value::Literal(input.parse()?, input.parse()?)
        } else if input.peek(token::Paren) {
            let content;
            let paren = parenthesized!(content in input);
            Value::List(paren, content.parse_terminated(Argument::parse)?)
        } else {
            Value::Flag
        };
        Ok(Argument { name, value })
    }
}

/// Prints arguments as `crates/vectors_streams` does.
fn show(list: &Arguments, spans: &Spans) -> String {
    let mut out = String::new();
    for pair in list.pairs() {
        let Argument { name, value } = pair.value();
        let mut words = vec![name.to_string(), spans.show(name.span())];
        match value {
            Value::Flag => {}
            Value::Literal(equals, literal) => {
                let (first, second) = (spans.show(equals.span), spans.show(literal.span()));
                words.extend(["=".to_string(), first, literal.to_string(), second]);
            }
            Value::List(paren, inner) => {
                let first = spans.show(paren.span) + &show(inner, spans);
                words.extend(["(".to_string(), first, ")".to_string()]);
            }
        }
        if let Pair::Punctuated(_, comma) = pair {
            words.extend([",".to_string(), spans.show(comma.span)]);
        }
        for word in words {
            out.push(' ');
            out += &word;
        }
    }
    out
}

/// Prints the visible trees as `Display` prints a stream: with a space before each tree, but not
/// after a joint punct.
fn print(tokens: TokenStream, is_glued: &mut bool, out: &mut String) {
    for tree in tokens {
        let delimiters = match &tree {
            TokenTree::Group(group) => match group.delimiter() {
                Delimiter::Parenthesis => ('(', ')'),
                Delimiter::Brace => ('{', '}'),
                Delimiter::Bracket => ('[', ']'),
                Delimiter::None => {
                    print(group.stream(), is_glued, out);
                    continue;
                }
            },
            _ => (' ', ' '),
        };
        *out += if *is_glued { "" } else { " " };
        *is_glued = matches!(&tree, TokenTree::Punct(it) if it.spacing() == Spacing::Joint);
        if let TokenTree::Group(group) = tree {
            out.push(delimiters.0);
            print(group.stream(), &mut true, out);
            out.push(delimiters.1);
        } else {
            *out += &tree.to_string();
        }
    }
}

/// The error of a value that this library accepts and `syn` rejects. This library reads all tokens
/// of a value up to a comma.
const WIDER: &str = "not the tokens of an expression";

/// Returns the trees between two cursors.
fn between(mut from: Cursor<'_>, to: Cursor<'_>) -> TokenStream {
    let mut trees = Vec::new();
    while let Some((tree, after)) = from.token_tree().filter(|_| from != to) {
        trees.push(tree);
        from = after;
    }
    trees.into_iter().collect()
}

/// Parses a path in which keywords are names.
fn pass_path(input: ParseStream<'_>) -> syn::Result<()> {
    input.parse::<Option<Token![::]>>()?;
    if !input.peek(Ident::peek_any) {
        return Err(input.error(if input.is_empty() {
            "expected nested attribute"
        } else if input.peek(Lit) {
            "unexpected literal in nested attribute, expected ident"
        } else {
            "unexpected token in nested attribute, expected ident"
        }));
    }
    input.call(Ident::parse_any)?;
    while input.parse::<Option<Token![::]>>()?.is_some() {
        input.call(Ident::parse_any)?;
    }
    Ok(())
}

/// Parses a path and the value or the group after the path, and returns both as a text.
fn meta(input: ParseStream<'_>) -> syn::Result<String> {
    let start = input.cursor();
    pass_path(input)?;
    let is_group =
        input.peek(token::Paren) || input.peek(token::Brace) || input.peek(token::Bracket);
    let word = if is_group {
        input.parse::<Group>()?;
        "list"
    } else if input.parse::<Option<Token![=]>>()?.is_some() {
        if input.is_empty() || input.peek(Token![,]) {
            return Err(input.error("expected an expression"));
        }
        input.parse::<Expr>().map_err(|error| syn::Error::new(error.span(), WIDER))?;
        if !input.is_empty() && !input.peek(Token![,]) {
            return Err(input.error(WIDER));
        }
        "value"
    } else {
        "path"
    };
    let mut out = format!("{word}: ");
    print(between(start, input.cursor()), &mut true, &mut out);
    Ok(out)
}

fn metas(list: ParseStream<'_>) -> syn::Result<Punctuated<String, Token![,]>> {
    Punctuated::parse_terminated_with(list, meta)
}

/// Prints the metas in an attribute's list, as `crates/vectors_derive` does.
fn nested(input: ParseStream<'_>) -> syn::Result<String> {
    let mut read = Vec::new();
    for attribute in input.call(Attribute::parse_outer)? {
        read.extend(attribute.parse_args_with(metas)?);
    }
    Ok([format!("{} read", read.len()), read.join(" ")].join(" ").trim_end().to_string())
}

/// Returns the answer of `syn` to a row, or `None` if no parser in this module belongs to the row's
/// first word. Also returns `None` for a value that only this library accepts.
fn answer(row: &str, spans: &Spans) -> Option<String> {
    let (word, text) = row.split_once(' ').unwrap_or((row, ""));
    let tokens = |text| Some(runs::stream(Buffer::lex_marked(text).ok()?.tokens(), spans));
    let refused = |error: syn::Error| format!("{} {error}", spans.show(error.span()));
    match word {
        "arguments" => {
            let list = Arguments::parse_terminated.parse2(tokens(text)?);
            Some(list.map_or("refused".to_string(), |it| format!("ok{}", show(&it, spans))))
        }
        "Nested" => match nested.parse2(tokens(text)?) {
            Ok(read) => Some(read),
            Err(error) if error.to_string() == WIDER => None,
            Err(error) => Some(refused(error)),
        },
        _ => None,
    }
}

/// Compares the stored answers to a program's rows with the answers of `syn`.
pub fn run(folder: &str, spans: &Spans, tally: &mut Tally) -> io::Result<()> {
    let rows = fs::read_to_string(format!("{folder}/stdin"))?;
    let stored = fs::read_to_string(format!("{folder}/stdout"))?;
    for (row, ours) in rows.lines().zip(stored.lines()) {
        if let Some(theirs) = answer(row, spans) {
            let visible = ours.replace(['«', '»'], "");
            let class = if visible == theirs { "equal" } else { "UNLISTED: another answer" };
            tally.count(&format!("rows: {class}"), row, &format!("{ours}\n    {theirs}"));
        }
    }
    Ok(())
}

/// Prints `count` rows of random lists of metas, each with the answer of `syn`.
pub fn write_metas(random: &mut Random, count: usize, spans: &Spans) {
    for _ in 0..count {
        let row = format!("Nested #[foo({})]", random::metas(random).join(" "));
        if let Some(told) = answer(&row, spans) {
            println!("{row}\n{told}");
        }
    }
}
