//! A macro whose tokens are parsed by `crates/example_pairs`, a parser in Rattle.
use proc_macro::TokenStream;
use quote::quote;
use syn_tokens::compiler::layout::{Entry, Message, Outcome};
use syn_tokens::compiler::{Buffer, Error};

/// A pair, with the layout of `FlatPair` in `crates/example_pairs`. The fields contain the numbers
/// of the pair's two tokens.
#[repr(C)]
#[derive(Clone, Copy)]
struct FlatPair {
    name: usize,
    value: usize,
}

extern "C" {
    fn example_pairs_parse(
        entries: *const Entry,
        count: usize,
        texts: *const u8,
        size: usize,
        values: *mut FlatPair,
        values_room: usize,
        messages: *mut Message,
        messages_room: usize,
        bytes: *mut u8,
        bytes_room: usize,
        outcome: *mut Outcome,
    );
}

/// Converts pairs to an array. For example, `example_pairs!(a => "x", b => "y")` expands to `[("a",
/// "x"), ("b", "y")]`.
#[proc_macro]
pub fn example_pairs(tokens: TokenStream) -> TokenStream {
    match expanded(&Buffer::from(tokens)) {
        Ok(tokens) => tokens.into(),
        Err(error) => error.to_compile_error().into(),
    }
}

fn expanded(buffer: &Buffer) -> Result<proc_macro2::TokenStream, Error> {
    // SAFETY: The export returns what `entry_outcomes::write` does, by its contract. `FlatPair` is
    // laid out as its values, and any bytes are one.
    let pairs = unsafe { buffer.call::<FlatPair>(example_pairs_parse) }?.values;
    let mut all = Vec::new();
    for pair in pairs {
        let name = buffer.leaf(pair.name).text;
        let value = buffer.leaf(pair.value);
        let mut literal: proc_macro2::Literal = value
            .text
            .parse()
            .map_err(|_| buffer.error(value.span, "this compiler does not know the literal"))?;
        literal.set_span(buffer.span(value.span));
        all.push(quote!((#name, #literal)));
    }
    Ok(quote!([#(#all),*]))
}
