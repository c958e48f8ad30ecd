//! Parses a text by one call, again and again, as crates/bench does.
use proc_macro2::{Ident, Literal, Punct, TokenStream, TokenTree};
use std::io::Read;
use syn::buffer::TokenBuffer;
use syn::ext::IdentExt;
use syn::parse::discouraged::Speculative;
use syn::parse::{ParseStream, Parser, Result};
use syn::punctuated::Punctuated;
use syn::{parenthesized, Lifetime, Token};

fn main() -> std::result::Result<(), Box<dyn std::error::Error>> {
    let mut input = String::new();
    std::io::stdin().read_to_string(&mut input)?;
    let (goal, text) = input.split_once('\n').ok_or("no line that names a call")?;
    let (call, count) = goal.split_once(' ').ok_or("no count")?;
    let count: usize = count.parse()?;
    let tokens: TokenStream = text.parse()?;
    let parsed = match call {
        "none" => usize::from(TokenBuffer::new2(tokens).begin().eof()),
        _ => (|s: ParseStream| parse(s, call, count)).parse2(tokens)?,
    };
    println!("{parsed}");
    Ok(())
}

fn parse(input: ParseStream, call: &str, count: usize) -> Result<usize> {
    match call {
        "ident" => each(count, || input.parse::<Ident>().map(|_| 0)),
        "any" => each(count, || Ident::parse_any(input).map(|_| 0)),
        "keyword" => each(count, || input.parse::<Token![while]>().map(|_| 0)),
        "comma" => each(count, || input.parse::<Token![,]>().map(|_| 0)),
        "semi" => each(count, || input.parse::<Token![;]>().map(|_| 0)),
        "eq" => each(count, || input.parse::<Token![=]>().map(|_| 0)),
        "path_sep" => each(count, || input.parse::<Token![::]>().map(|_| 0)),
        "shr_eq" => each(count, || input.parse::<Token![>>=]>().map(|_| 0)),
        "punct" => each(count, || input.parse::<Punct>().map(|_| 0)),
        "literal" => each(count, || input.parse::<Literal>().map(|_| 0)),
        "lifetime" => each(count, || input.parse::<Lifetime>().map(|_| 0)),
        "tree" => each(count, || input.parse::<TokenTree>().map(|_| 0)),
        "peek" => each(count, || {
            let seen = [input.peek(Token![fn]), input.peek(Token![,]), input.peek(syn::Ident)];
            Ident::parse_any(input)?;
            Ok(seen.iter().filter(|seen| **seen).count())
        }),
        "peek2" => each(count, || {
            let seen = input.peek2(syn::Ident);
            Ident::parse_any(input)?;
            Ok(usize::from(seen))
        }),
        "lookahead" => each(count, || {
            let lookahead = input.lookahead1();
            if lookahead.peek(Token![fn]) || lookahead.peek(Token![,]) {
                Ok(1)
            } else if lookahead.peek(syn::Ident) {
                Ident::parse_any(input).map(|_| 0)
            } else {
                Err(lookahead.error())
            }
        }),
        "fork" => each(count, || {
            let fork = input.fork();
            Ident::parse_any(&fork)?;
            input.advance_to(&fork);
            Ok(0)
        }),
        "group" => each(count, || {
            let content;
            parenthesized!(content in input);
            Ident::parse_any(&content).map(|_| 0)
        }),
        "terminated" => Ok(Punctuated::<Ident, Token![,]>::parse_terminated(input)?.len()),
        "separated" => Ok(Punctuated::<Ident, Token![,]>::parse_separated_nonempty(input)?.len()),
        "refused" => each(count, || {
            let refused = input.parse::<Token![fn]>().is_err();
            Ident::parse_any(input)?;
            Ok(usize::from(refused))
        }),
        "missed" => each(count, || {
            let lookahead = input.lookahead1();
            let is_there = lookahead.peek(Token![fn])
                || lookahead.peek(Token![,])
                || lookahead.peek(literal);
            if !is_there {
                let _: syn::Error = lookahead.error();
            }
            Ident::parse_any(input)?;
            Ok(usize::from(!is_there))
        }),
        _ => Err(input.error("no such call")),
    }
}

// Stands for the type in a peek, as `syn::Ident` does: syn has no such function for it.
fn literal<Marker>(_: Marker) -> Literal {
    unreachable!("a peek calls no such function")
}

fn each(count: usize, mut call: impl FnMut() -> Result<usize>) -> Result<usize> {
    let mut sum = 0;
    for _ in 0..count {
        sum += call()?;
    }
    Ok(sum)
}
