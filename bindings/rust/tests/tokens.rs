//! Tests of calls that no example shows: each list of rules, errors, spans, and too little room at
//! first.
use std::ops::Range;

use syn_tokens::{
    line_columns, respond, Buffer, Cursor, Delimiter, Edition, Error, LineColumn, LiteralValue,
    Response, Spacing, Token,
};

/// Lists the tokens in order, with the delimiters of each group.
fn listed(buffer: &Buffer) -> String {
    fn list(tokens: syn_tokens::Cursor<'_>, out: &mut Vec<String>) {
        for token in tokens {
            match token {
                Token::Ident(it) | Token::Literal(it) => out.push(it.text.to_string()),
                Token::Punct(it) => {
                    let joint = if it.spacing == Spacing::Joint { "+" } else { "" };
                    out.push(format!("{}{joint}", it.ch));
                }
                Token::Group(it) => {
                    let edges = match it.delimiter {
                        Delimiter::Parenthesis => ["(", ")"],
                        Delimiter::Brace => ["{", "}"],
                        Delimiter::Bracket => ["[", "]"],
                        Delimiter::None => ["«", "»"],
                    };
                    out.push(edges[0].to_string());
                    list(it.tokens, out);
                    out.push(edges[1].to_string());
                }
            }
        }
    }
    let mut out = Vec::new();
    list(buffer.tokens(), &mut out);
    out.join(" ")
}

#[test]
fn reads_by_each_list_of_rules() -> Result<(), Error> {
    assert_eq!(listed(&Buffer::lex("a(b, r#c)+= 'd'")?), "a ( b , r#c ) ++ = 'd'");
    assert_eq!(listed(&Buffer::lex_marked("a «b {}»")?), "a « b { } »");
    let source = "#!/bin/rust\n/// é\nfn f() -> f64 { 1.5 }";
    let read = "# [ doc = \" é\" ] fn f ( ) -+ > f64 { 1.5 }";
    assert_eq!(listed(&Buffer::lex_source(Edition::Edition2021, source)?), read);
    assert_eq!(listed(&Buffer::lex("")?), "");
    Ok(())
}

#[test]
fn editions_differ() {
    for (edition, text, is_read) in [
        (Edition::Edition2015, "k\"x\"", true),
        (Edition::Edition2018, "##", true),
        (Edition::Edition2021, "k\"x\"", false),
        (Edition::Edition2021, "##", true),
        (Edition::Edition2024, "##", false),
    ] {
        let read = Buffer::lex_source(edition, text);
        assert_eq!(read.is_ok(), is_read, "{edition:?} {text}");
    }
}

#[test]
fn errors_say_why_and_where() {
    for (text, wanted) in [
        ("é (a", "unclosed group (L2) at byte 3"),
        ("x = '\\q'", "malformed string or character (L6) at byte 4"),
        ("1.5", "float literal (L8) at byte 0"),
    ] {
        let error = Buffer::lex(text).map(|it| it.len());
        assert_eq!(error.map_err(|it| it.to_string()), Err(wanted.to_string()));
    }
}

#[test]
fn spans_are_ranges_of_the_text() -> Result<(), Error> {
    let text = "é (b, 'c') => d";
    let buffer = Buffer::lex(text)?;
    let texts: Vec<&str> = buffer.tokens().map(|it| &text[Range::from(it.span())]).collect();
    assert_eq!(texts, ["é", "(b, 'c')", "=", ">", "d"]);
    assert_eq!(buffer.tokens().peek().map(|it| it.span().end), Some(2));
    Ok(())
}

#[test]
fn a_second_call_has_room_for_all() -> Result<(), Error> {
    // No token stands where the first call looks for them.
    let text = (" ".repeat(16) + &"+".repeat(235)).repeat(20);
    assert_eq!(Buffer::lex(&text)?.len(), 20 * 235);
    let lines = "empty 0\n".repeat(2_000);
    let response = respond(format!("a\n---\n{lines}").as_bytes())?;
    let wanted = (Response::REJECTED, 2_001);
    assert_eq!((response.status, response.text.lines().count()), wanted);
    Ok(())
}

#[cfg(feature = "proc-macro2")]
#[test]
fn streams_print_as_proc_macro2_reads_them() -> Result<(), Error> {
    let text = "fn r#f<'a>(x: &'a [u8; 2]) -> char { 'c' += b'x' }";
    let stream = proc_macro2::TokenStream::try_from(Buffer::lex(text)?).map(|it| it.to_string());
    let read = text.parse::<proc_macro2::TokenStream>().map(|it| it.to_string());
    assert_eq!(read.ok(), stream.ok());
    Ok(())
}

#[cfg(feature = "proc-macro2")]
#[test]
fn a_token_that_proc_macro2_does_not_know_is_an_error() -> Result<(), Error> {
    for (text, unknown, start) in
        [("f(c\"\\xff\", 1)", "c\"\\xff\"", 2), ("a \u{31350}", "\u{31350}", 2)]
    {
        let buffer = Buffer::lex_source(Edition::Edition2021, text)?;
        // A newer version of proc_macro2 may know it.
        if let Err(error) = proc_macro2::TokenStream::try_from(buffer) {
            assert_eq!((error.text.as_str(), error.span.start), (unknown, start));
        }
    }
    Ok(())
}

#[test]
fn the_closing_of_a_doc_comment_is_a_character() -> Result<(), Error> {
    let text = "/// é";
    let buffer = Buffer::lex_source(Edition::Edition2021, text)?;
    let closings: Vec<&str> =
        buffer.tokens().groups().map(|it| &text[Range::from(it.close)]).collect();
    assert_eq!(closings, ["é"]);
    Ok(())
}

#[test]
fn values() -> Result<(), Error> {
    let rows = [
        (r#""a\n""#, Some(LiteralValue::Str("a\n".to_string()))),
        (r#"b"b\x41""#, Some(LiteralValue::ByteStr(b"bA".to_vec()))),
        ("'c'", Some(LiteralValue::Char('c'))),
        ("b'c'", Some(LiteralValue::Byte(b'c'))),
        ("0x1F_u8", Some(LiteralValue::Int { value: 31, suffix: "u8" })),
        ("1_0", Some(LiteralValue::Int { value: 10, suffix: "" })),
        ("1.5e3", Some(LiteralValue::Float(1500.0))),
        ("18446744073709551616", Some(LiteralValue::Float(18_446_744_073_709_551_616.0))),
        (r#"r"a""#, None),
        (r#"c"a""#, None),
        (r#""a"suffix"#, None),
        ("a", None),
    ];
    for (text, wanted) in rows {
        let buffer: Buffer = text.parse()?;
        match buffer.tokens().peek() {
            Some(Token::Ident(leaf) | Token::Literal(leaf)) => {
                assert_eq!(leaf.value()?, wanted, "{text}");
            }
            other => panic!("{text}: {other:?}"),
        }
    }
    Ok(())
}

/// Lists the tokens that a cursor finds, in order, with the delimiters of each group.
fn found(tokens: &Cursor<'_>, out: &mut Vec<String>) {
    let visible = [
        (Delimiter::Parenthesis, ["(", ")"]),
        (Delimiter::Brace, ["{", "}"]),
        (Delimiter::Bracket, ["[", "]"]),
    ];
    let mut left = tokens.clone();
    while let Some(after) = left.skip_token() {
        let rest = if let Some((it, rest)) = left.lifetime() {
            out.push(format!("'{}", it.ident.text));
            assert_eq!(it.span(), it.apostrophe.join(it.ident.span));
            rest
        } else if let Some((it, rest)) = left.ident().or_else(|| left.literal()) {
            out.push(it.text.to_string());
            rest
        } else if let Some((it, rest)) = left.punct() {
            out.push(it.ch.to_string());
            rest
        } else {
            let groups = visible.iter().filter_map(|it| Some((left.group(it.0)?, it.1)));
            let groups: Vec<_> = groups.collect();
            assert_eq!(groups.len(), 1, "{left}");
            let ((group, rest), [open, close]) = groups[0].clone();
            out.push(open.to_string());
            found(&group.tokens, out);
            out.push(close.to_string());
            rest
        };
        assert_eq!(rest, after);
        left = rest;
    }
}

#[test]
fn cursors_look_through_invisible_groups() -> Result<(), Error> {
    for (text, wanted) in [
        ("", ""),
        ("« «» »", ""),
        ("a «b» 'c' += «'d»", "a b 'c' + = 'd"),
        ("« «» » (« [«»] » {a})", "( [ ] { a } )"),
        ("«« 'a »: «b» «» c» «1 2» 3", "'a : b c 1 2 3"),
        ("f(«x» => «{ «y» }»)", "f ( x = > { y } )"),
    ] {
        let buffer = Buffer::lex_marked(text)?;
        let mut tokens = Vec::new();
        found(&buffer.tokens(), &mut tokens);
        assert_eq!(tokens.join(" "), wanted, "{text}");
    }
    Ok(())
}

/// Tests that a cursor continues after an invisible group once it has read the tokens inside the
/// group.
#[test]
fn cursors_leave_invisible_groups() -> Result<(), Error> {
    let buffer = Buffer::lex_marked("«« a b » c» d")?;
    let (_, left) = buffer.tokens().ident().unwrap();
    let texts: Vec<String> = left.clone().map(|it| it.to_string()).collect();
    assert_eq!(texts, ["b", "c", "d"]);
    assert_eq!(left.to_string(), "b c d");
    let end = left.skip_token().and_then(|it| it.skip_token()?.skip_token());
    assert_eq!(end.map(|it| (it.eof(), it.skip_token())), Some((true, None)));
    Ok(())
}

#[test]
fn invisible_groups_are_found_first_alone() -> Result<(), Error> {
    let buffer = Buffer::lex_marked("« «a» » «b»")?;
    let (outer, left) = buffer.tokens().group(Delimiter::None).unwrap();
    let (inner, end) = outer.tokens.group(Delimiter::None).unwrap();
    assert_eq!((inner.tokens.to_string(), end.eof()), ("a".to_string(), true));
    assert_eq!(left.group(Delimiter::None).map(|it| it.1.eof()), Some(true));
    let buffer = Buffer::lex_marked("a «b»")?;
    assert_eq!(buffer.tokens().group(Delimiter::None), None);
    Ok(())
}

/// Tests that the library returns the value of a long string, which takes a second call.
#[test]
fn long_strings_have_values() -> Result<(), Error> {
    for length in [0, 1, 127, 128, 129, 1000] {
        let text = "é".repeat(length / 2) + &"a".repeat(length % 2);
        let buffer: Buffer = format!("\"{text}\"").parse()?;
        let (literal, _) = buffer.tokens().literal().unwrap();
        assert_eq!(literal.value()?, Some(LiteralValue::Str(text)));
    }
    Ok(())
}

#[test]
fn lines_and_columns_count_from_1() -> Result<(), Error> {
    let text = "a\n é\r\n\nb";
    let places = line_columns(text, &[9, 0, 1, 2, 3, 4, 5, 6, 7, 8, 10, usize::MAX])?;
    let numbers: Vec<_> = places.iter().map(|it| it.map(|it| (it.line, it.column))).collect();
    let wanted = [
        Some((4, 2)),
        Some((1, 1)),
        Some((1, 2)),
        Some((2, 1)),
        Some((2, 2)),
        None,
        Some((2, 3)),
        Some((2, 4)),
        Some((3, 1)),
        Some((4, 1)),
        None,
        None,
    ];
    assert_eq!(numbers, wanted);
    assert_eq!(line_columns("", &[])?, [] as [Option<LineColumn>; 0]);
    Ok(())
}
