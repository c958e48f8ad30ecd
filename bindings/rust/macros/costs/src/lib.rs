//! Ways to call the library and `syn`. Callgrind counts the instructions of each way while the
//! compiler runs a macro.
use std::fmt::Write as _;

use proc_macro::{TokenStream, TokenTree};
use syn::parse::Parser;
use syn_tokens::compiler::Buffer;

type List = syn::punctuated::Punctuated<syn::NestedMeta, syn::Token![,]>;

fn count(stream: TokenStream) -> usize {
    let weight = |it| match it {
        TokenTree::Group(it) => 2 + count(it.stream()),
        _ => 1,
    };
    stream.into_iter().map(weight).sum()
}

/// Visits all trees, and appends the text of each leaf to `out`.
fn texts(stream: TokenStream, out: &mut String) {
    for it in stream {
        match it {
            TokenTree::Group(it) => texts(it.stream(), out),
            TokenTree::Punct(it) => out.push(it.as_char()),
            other => {
                let _ = write!(out, "{other}");
            }
        }
    }
}

/// Sends a request to callgrind. Does nothing if the process does not run under callgrind.
fn request(code: usize, argument: usize) {
    let request: [usize; 6] = [code, argument, 0, 0, 0, 0];
    // SAFETY: The rotations add up to a whole turn, and the exchange is of a register with itself.
    // Valgrind knows the sequence, and reads the request.
    unsafe {
        std::arch::asm!(
            "rol rdi, 3", "rol rdi, 13", "rol rdi, 61", "rol rdi, 51", "xchg rbx, rbx",
            inout("rdx") 0usize => _, in("rax") request.as_ptr(),
        );
    }
}

const ZERO: usize = 0x4354_0001;
const DUMP_AT: usize = 0x4354_0003;
const START: usize = 0x4354_0004;
const STOP: usize = 0x4354_0005;

const WAYS: [&str; 8] = ["walk", "texts", "buffer", "run", "arguments", "all", "new2", "syn"];

fn once(way: &str, tokens: &TokenStream, buffer: &Buffer) -> usize {
    let tokens = tokens.clone();
    match way {
        "walk" => count(tokens),
        "texts" => {
            let mut out = String::new();
            texts(tokens, &mut out);
            out.len()
        }
        "buffer" => Buffer::from(tokens).len(),
        "run" => buffer.run("").map_or(0, |it| it.text.len()),
        "arguments" => buffer.arguments().map_or(0, |it| it.iter().count()),
        "all" => Buffer::from(tokens).arguments().map_or(0, |it| it.iter().count()),
        "new2" => usize::from(syn::buffer::TokenBuffer::new2(tokens.into()).begin().eof()),
        _ => List::parse_terminated.parse(tokens).map_or(0, |it| it.len()),
    }
}

/// Runs each way three times, and asks callgrind to write the costs of the last two runs.
#[proc_macro]
pub fn measure(tokens: TokenStream) -> TokenStream {
    let buffer = Buffer::from(tokens.clone());
    request(START, 0);
    for way in WAYS {
        let name = format!("{way} {}\0", buffer.len());
        once(way, &tokens, &buffer);
        request(ZERO, 0);
        once(way, &tokens, &buffer);
        once(way, &tokens, &buffer);
        request(DUMP_AT, name.as_ptr() as usize);
    }
    request(STOP, 0);
    TokenStream::new()
}
