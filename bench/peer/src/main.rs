//! Reads a text as far as the first line of standard input says, as crates/bench does.
use proc_macro2::{Ident, TokenStream};
use std::io::Read;
use syn::buffer::TokenBuffer;
use syn::parse::Parser;
use syn::punctuated::Punctuated;
use syn::Token;

fn main() -> Result<(), Box<dyn std::error::Error>> {
    let mut input = String::new();
    std::io::stdin().read_to_string(&mut input)?;
    let (goal, text) = input.split_once('\n').ok_or("no line that says how far to read")?;
    let tokens: TokenStream = text.parse()?;
    let count = match goal {
        "trees" | "source trees" => usize::from(!tokens.is_empty()),
        "buffer" | "source buffer" => usize::from(!TokenBuffer::new2(tokens).begin().eof()),
        "list" => Punctuated::<Ident, Token![,]>::parse_terminated.parse2(tokens)?.len(),
        _ => return Err("neither trees nor buffer nor list".into()),
    };
    println!("{count}");
    Ok(())
}
