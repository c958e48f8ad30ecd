//! Tests of buffers of `proc_macro2` streams, outside a compiler.
#![cfg(feature = "proc-macro2")]
use proc_macro2::{Delimiter, Group, Ident, Span, TokenStream, TokenTree};
use syn_tokens::compiler::{Arguments, Buffer, Error, Trees, Value};

fn buffer(text: &str) -> Buffer {
    Buffer::from(text.parse::<TokenStream>().expect("proc_macro2 reads it"))
}

/// Returns the stream of a text in which `@` and parentheses stand for an invisible group.
fn marked(text: &str) -> TokenStream {
    let trees = text.parse::<TokenStream>().expect("proc_macro2 reads it").into_iter();
    let mut is_marked = false;
    trees.fold(TokenStream::new(), |mut all, tree| {
        let tree = match tree {
            TokenTree::Punct(it) if it.as_char() == '@' => {
                is_marked = true;
                return all;
            }
            TokenTree::Group(it) => {
                let delimiter = if is_marked { Delimiter::None } else { it.delimiter() };
                Group::new(delimiter, marked(&it.stream().to_string())).into()
            }
            other => other,
        };
        is_marked = false;
        all.extend([tree]);
        all
    })
}

fn line(arguments: Arguments<'_>) -> String {
    let all: Vec<String> = arguments
        .map(|it| match it.value {
            Value::Flag => it.name.text.to_string(),
            Value::Literal(literal) => format!("{} = {}", it.name.text, literal.text),
            Value::List(span, inside) => {
                format!("{}{}..{}({})", it.name.text, span.start, span.end, line(inside))
            }
        })
        .collect();
    all.join(", ")
}

#[test]
fn arguments() -> Result<(), Error> {
    let rows = [
        ("", ""),
        ("a, b = 1.5e3, c(d, e(), f = 'x'), g", "a, b = 1.5e3, c7..18(d, e11..13(), f = 'x'), g"),
        ("@() a = @(1), b(@(c, @()))", "a = 1, b5..9(c)"),
    ];
    for (text, wanted) in rows {
        let buffer = Buffer::from(marked(text));
        assert_eq!(line(buffer.arguments()?.iter()), wanted, "{text}");
    }
    Ok(())
}

#[test]
fn rejected_arguments() {
    let rows = [
        ("a b", "expected `,`"),
        ("a = @(b)", "expected literal token"),
        ("a =", "unexpected end of input, expected literal token"),
        ("fn", "expected identifier, found keyword `fn`"),
    ];
    for (text, wanted) in rows {
        let buffer = Buffer::from(marked(text));
        let error = buffer.arguments().expect_err(text);
        assert_eq!(error.to_string(), wanted, "{text}");
        assert_eq!(error.messages().count(), 1, "{text}");
    }
}

#[test]
fn no_tokens_of_the_library() {
    let nested = (0..257).fold(TokenStream::new(), |inside, _| {
        TokenTree::from(Group::new(Delimiter::Parenthesis, inside)).into()
    });
    let error = Buffer::from(nested).run("").expect_err("257 groups");
    assert_eq!(error.to_string(), "groups are nested deeper than 256");
}

#[test]
fn commands() -> Result<(), Error> {
    let rows = [
        ("a b", "parse 0 Ident\nparse 0 Ident", 0, "read a 0..1 @1\nread b 1..2 @2\naccepted\n"),
        ("a", "parse 0 Literal", 1, ""),
        ("a", "parse 0", 2, ""),
    ];
    for (text, commands, status, wanted) in rows {
        let response = buffer(text).run(commands)?;
        assert_eq!(response.status, status, "{text}");
        assert!(wanted.is_empty() || response.text == wanted, "{text}: {}", response.text);
    }
    Ok(())
}

#[test]
fn compile_errors() {
    let buffer = buffer("a b");
    let mut error = buffer.error(syn_tokens::Span { start: 0, end: 2 }, "first");
    error.combine(Error::new(Span::call_site(), "second"));
    let wanted =
        ":: core :: compile_error ! { \"first\" } :: core :: compile_error ! { \"second\" }";
    assert_eq!(error.to_compile_error().to_string(), wanted);
    let texts: Vec<String> = error.into_iter().map(|it| it.text).collect();
    assert_eq!(texts, ["first", "second"]);
}

#[test]
fn ranges_of_another_buffer() {
    let buffer = buffer("a");
    for (start, end) in [(0, 0), (0, 9), (9, 9), (usize::MAX, usize::MAX), (1, 0)] {
        let _ = buffer.ends(syn_tokens::Span { start, end });
        let _ = buffer.leaf(start);
    }
    assert_eq!(buffer.leaf(7).text, "");
}

#[test]
fn texts_of_any_identifier() -> Result<(), Error> {
    let raw = TokenStream::from(TokenTree::from(Ident::new_raw("fn", Span::call_site())));
    assert_eq!(line(Buffer::from(raw).arguments()?.iter()), "r#fn");
    Ok(())
}

#[test]
fn nested_groups() {
    let nested = (0..3000).fold(TokenStream::new(), |inside, _| {
        TokenTree::from(Group::new(Delimiter::Parenthesis, inside)).into()
    });
    let buffer = Buffer::from(nested);
    assert_eq!(buffer.tokens(), buffer.clone().tokens());
    assert_eq!(format!("{:?}", buffer.tokens()).len(), 6002);
    let mut hasher = std::collections::hash_map::DefaultHasher::new();
    std::hash::Hash::hash(&buffer.tokens(), &mut hasher);
    let stream = TokenStream::try_from(&buffer).expect("each token is one of proc_macro2");
    assert_eq!(Buffer::from(stream).len(), 6000);
    assert!(buffer.arguments().is_err());
}

/// Returns the text of a stream, with `@` and parentheses for an invisible group.
fn shown(stream: TokenStream) -> String {
    let all: Vec<String> = stream
        .into_iter()
        .map(|tree| match tree {
            TokenTree::Group(it) if it.delimiter() == Delimiter::None => {
                format!("@({})", shown(it.stream()))
            }
            TokenTree::Group(it) => format!("({})", shown(it.stream())),
            other => other.to_string(),
        })
        .collect();
    all.join(" ")
}

#[test]
fn parts() {
    let text = "a @(b c) @() (d @(@(e) f) g) h";
    let trees = Trees::from(marked(text));
    let rows = [
        (0..10, "a @(b c) (d @(@(e) f) g) h"),
        (0..3, "a @(b c)"),
        (0..2, "a b"),
        (1..3, "@(b c)"),
        (2..9, "c (d @(@(e) f) g)"),
        (3..9, "(d @(@(e) f) g)"),
        (4..8, "d @(@(e) f) g"),
        (5..6, "@(e)"),
        (6..8, "f g"),
        (3..3, ""),
        (20..30, ""),
    ];
    for (range, wanted) in rows {
        let part = trees.part(syn_tokens::Span { start: range.start, end: range.end });
        assert_eq!(shown(part), wanted, "{range:?}");
    }
}
