//! Macros whose arguments are parsed by the proved library, and the same macros with `syn`.
use core::fmt::Write as _;

use proc_macro::TokenStream;
use quote::{quote, ToTokens};
use syn_tokens::compiler::{Arguments, Buffer, Error, Value};
use syn_tokens::Token;

/// Returns the arguments as a text on one line.
fn line(arguments: Arguments<'_>) -> String {
    let all: Vec<String> = arguments
        .map(|it| match it.value {
            Value::Flag => it.name.text.to_string(),
            Value::Literal(literal) => format!("{} = {}", it.name.text, literal.text),
            Value::List(_, inside) => format!("{}({})", it.name.text, line(inside)),
        })
        .collect();
    all.join(", ")
}

/// Checks what the macro requires of its arguments beyond their grammar. Each wrong argument is an
/// error at the user's own token.
fn check(buffer: &Buffer, arguments: Arguments<'_>) -> Result<(), Error> {
    let mut errors = arguments.filter_map(|it| match (it.name.text, it.value) {
        ("name", Value::Literal(literal)) if !literal.text.starts_with('"') => {
            Some(buffer.error(literal.span, "expected a string"))
        }
        ("name" | "limit" | "flags" | "t" | "v" | "e" | "a" | "b", _) => None,
        (other, _) => {
            Some(buffer.error(it.name.span, format!("no setting has the name `{other}`")))
        }
    });
    match errors.next() {
        Some(mut first) => {
            errors.for_each(|another| first.combine(another));
            Err(first)
        }
        None => Ok(()),
    }
}

fn proved(tokens: TokenStream) -> Result<String, Error> {
    let buffer = Buffer::from(tokens);
    let list = buffer.arguments()?;
    check(&buffer, list.iter())?;
    Ok(line(list.iter()))
}

/// Returns the item, and a constant with the text `said` after it.
fn item_with(name: &str, said: &str, item: TokenStream) -> TokenStream {
    let name = proc_macro2::Ident::new(name, proc_macro2::Span::call_site());
    let item = proc_macro2::TokenStream::from(item);
    quote!(#item pub const #name: &str = #said;).into()
}

/// Expands to the item, and a constant with the arguments as the library parses them.
#[proc_macro_attribute]
pub fn setting(arguments: TokenStream, item: TokenStream) -> TokenStream {
    match proved(arguments) {
        Ok(said) => item_with("SETTING", &said, item),
        Err(error) => {
            let mut all = TokenStream::from(error.to_compile_error());
            all.extend(item);
            all
        }
    }
}

/// Expands to a text with the arguments as the library parses them.
#[proc_macro]
pub fn settings(arguments: TokenStream) -> TokenStream {
    match proved(arguments) {
        Ok(said) => quote!(#said).into(),
        Err(error) => error.to_compile_error().into(),
    }
}

/// Expands to a text with the arguments as the library parses them, or with the error.
#[proc_macro]
pub fn try_settings(arguments: TokenStream) -> TokenStream {
    let said = match proved(arguments) {
        Ok(said) => format!("ok {said}"),
        Err(error) => format!("error {error}"),
    };
    quote!(#said).into()
}

/// Expands to the report of commands over tokens, as in `replay!("parse 0 Ident\n..", tokens..)`.
#[proc_macro]
pub fn replay(tokens: TokenStream) -> TokenStream {
    let mut trees = tokens.into_iter();
    let commands = trees.next().map(|it| it.to_string()).unwrap_or_default();
    let commands = syn::parse_str::<syn::LitStr>(&commands).map(|it| it.value());
    trees.next();
    let buffer = Buffer::from(trees.collect::<TokenStream>());
    match buffer.run(&commands.unwrap_or_default()) {
        Ok(response) => {
            let report = response.text;
            quote!(#report).into()
        }
        Err(error) => error.to_compile_error().into(),
    }
}

/// Returns the text of a literal. Compilers print a sign with or without a space, so the space is
/// removed.
fn literal(literal: &syn::Lit) -> String {
    literal.to_token_stream().to_string().replace("- ", "-")
}

fn meta_line(meta: &syn::Meta) -> String {
    let path = |it: &syn::Path| it.to_token_stream().to_string();
    match meta {
        syn::Meta::Path(it) => path(it),
        syn::Meta::NameValue(it) => format!("{} = {}", path(&it.path), literal(&it.lit)),
        syn::Meta::List(it) => format!("{}({})", path(&it.path), nested_line(it.nested.iter())),
    }
}

fn nested_line<'a>(list: impl Iterator<Item = &'a syn::NestedMeta>) -> String {
    let all: Vec<String> = list
        .map(|it| match it {
            syn::NestedMeta::Meta(it) => meta_line(it),
            syn::NestedMeta::Lit(it) => literal(it),
        })
        .collect();
    all.join(", ")
}

fn by_syn(tokens: TokenStream) -> syn::Result<String> {
    use syn::parse::Parser;
    type List = syn::punctuated::Punctuated<syn::NestedMeta, syn::Token![,]>;
    let list = List::parse_terminated.parse(tokens)?;
    Ok(nested_line(list.iter()))
}

/// Expands to the item, and a constant with the arguments as `syn` parses them.
#[proc_macro_attribute]
pub fn setting_syn(arguments: TokenStream, item: TokenStream) -> TokenStream {
    let arguments = syn::parse_macro_input!(arguments as syn::AttributeArgs);
    item_with("SETTING_SYN", &nested_line(arguments.iter()), item)
}

/// Expands to a text with the arguments as `syn` parses them.
#[proc_macro]
pub fn settings_syn(arguments: TokenStream) -> TokenStream {
    match by_syn(arguments) {
        Ok(said) => quote!(#said).into(),
        Err(error) => error.to_compile_error().into(),
    }
}

/// Expands to a text with the arguments as `syn` parses them, or with the error.
#[proc_macro]
pub fn try_settings_syn(arguments: TokenStream) -> TokenStream {
    let said = match by_syn(arguments) {
        Ok(said) => format!("ok {said}"),
        Err(error) => format!("error {error}"),
    };
    quote!(#said).into()
}

fn show(stream: proc_macro2::TokenStream, out: &mut String) {
    use proc_macro2::{Delimiter, Spacing, TokenTree};
    for it in stream {
        match it {
            TokenTree::Group(it) => {
                let (open, close) = match it.delimiter() {
                    Delimiter::Parenthesis => ("( ", ") "),
                    Delimiter::Brace => ("{ ", "} "),
                    Delimiter::Bracket => ("[ ", "] "),
                    Delimiter::None => ("« ", "» "),
                };
                out.push_str(open);
                show(it.stream(), out);
                out.push_str(close);
            }
            TokenTree::Punct(it) if it.spacing() == Spacing::Joint => out.push(it.as_char()),
            other => {
                let _ = write!(out, "{other} ");
            }
        }
    }
}

/// Expands to the tokens as a text, with `«` and `»` around invisible groups. A joint punct has no
/// space after it.
#[proc_macro]
pub fn marked(tokens: TokenStream) -> TokenStream {
    let mut out = String::new();
    show(tokens.into(), &mut out);
    let out = out.trim_end();
    quote!(#out).into()
}

/// Adds a constant to the item, with the tokens of the attribute's arguments as `marked` prints
/// them.
#[proc_macro_attribute]
pub fn marked_attribute(arguments: TokenStream, item: TokenStream) -> TokenStream {
    let (mut said, mut tokens) = (String::new(), String::new());
    show(arguments.into(), &mut said);
    show(item.clone().into(), &mut tokens);
    item_with("MARKED", &format!("{}; {}", said.trim_end(), tokens.trim_end()), item)
}

/// Expands to a text that says whether `,` is the next, second or third token, by `syn` and by the
/// library.
#[proc_macro]
pub fn peeks(tokens: TokenStream) -> TokenStream {
    use syn::parse::{ParseStream, Parser};
    let by_syn = |input: ParseStream<'_>| -> syn::Result<String> {
        let (first, second) = (input.peek(syn::Token![,]), input.peek2(syn::Token![,]));
        let said = format!("{first} {second} {}", input.peek3(syn::Token![,]));
        input.parse::<proc_macro2::TokenStream>()?;
        Ok(said)
    };
    let by_syn = by_syn.parse(tokens.clone()).unwrap_or_else(|error| error.to_string());
    let said = match Buffer::from(tokens).run("peek 0 ,\npeek2 0 ,\npeek3 0 ,") {
        Ok(it) => {
            let answers: Vec<&str> =
                it.text.lines().take(3).filter_map(|line| line.split(' ').next()).collect();
            format!("syn {by_syn}, proved {}", answers.join(" "))
        }
        Err(error) => error.to_string(),
    };
    quote!(#said).into()
}

/// Expands to the visible tokens of a buffer with their numbers. Equal texts show that two streams
/// have the same visible tokens with the same spans.
#[proc_macro]
pub fn numbers(tokens: TokenStream) -> TokenStream {
    fn visible(tokens: syn_tokens::Cursor<'_>, out: &mut String) {
        for it in tokens {
            match it {
                Token::Group(it) if it.delimiter == syn_tokens::Delimiter::None => {
                    visible(it.tokens, out);
                }
                Token::Group(it) => {
                    let _ = write!(out, "({} ", it.open.start);
                    visible(it.tokens, out);
                    let _ = write!(out, "){} ", it.close.start);
                }
                Token::Ident(it) | Token::Literal(it) => {
                    let _ = write!(out, "{}{} ", it.text, it.span.start);
                }
                Token::Punct(it) => {
                    let _ = write!(out, "{}{} ", it.ch, it.span.start);
                }
            }
        }
    }
    let mut out = String::new();
    visible(Buffer::from(tokens).tokens(), &mut out);
    let out = out.trim_end();
    quote!(#out).into()
}

/// Reads each file that the list `CORPUS` names with the compiler's own lexer, and passes its
/// tokens to the library. Expands to a text that names each rejected file and says how many files
/// and entries were read.
#[proc_macro]
pub fn corpus(_: TokenStream) -> TokenStream {
    let list = std::env::var("CORPUS").ok().and_then(|it| std::fs::read_to_string(it).ok());
    let list = list.unwrap_or_default();
    let (mut files, mut tokens, mut said) = (0usize, 0usize, String::new());
    for (path, stream) in list.lines().filter_map(|path| Some((path, stream_of(path)?))) {
        let buffer = Buffer::from(stream);
        files += 1;
        tokens += buffer.len();
        // No command is run: it is asked whether the entries are tokens.
        if let Err(error) = buffer.run("") {
            let _ = writeln!(said, "{path}: {error}");
        }
    }
    let _ = write!(said, "{files} files, {tokens} entries");
    quote!(#said).into()
}

/// Returns the tokens of a file, or `None` if this compiler's lexer rejects the file.
fn stream_of(path: &str) -> Option<TokenStream> {
    let text = std::fs::read_to_string(path).ok()?;
    std::panic::catch_unwind(|| text.parse::<TokenStream>()).ok()?.ok()
}
