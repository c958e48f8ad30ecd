//! Converts buffers to token streams of `proc_macro2`.
use ::proc_macro2::{self as other, TokenStream, TokenTree};
use alloc::string::{String, ToString};
use alloc::vec::Vec;
use core::{fmt, mem};

use crate::buffer::{Buffer, Cursor, Delimiter, Leaf, Punct, Spacing, Span, Token};

/// A token that this version of `proc_macro2` does not know. The token is a kind of literal that is
/// newer than this version, or its name contains a character that is newer.
#[derive(Clone, Debug, PartialEq, Eq)]
#[non_exhaustive]
pub struct UnknownToken {
    /// The text of the token.
    pub text: String,
    /// The location of the token in the text that was read.
    pub span: Span,
}

impl fmt::Display for UnknownToken {
    fn fmt(&self, f: &mut fmt::Formatter<'_>) -> fmt::Result {
        write!(f, "proc_macro2 does not know the token `{}`", self.text)
    }
}

#[cfg(feature = "std")]
impl std::error::Error for UnknownToken {}

impl TryFrom<Buffer> for TokenStream {
    type Error = UnknownToken;

    /// Converts the tokens of the buffer. The span of each token is the call site.
    ///
    /// # Errors
    ///
    /// Returns the first token that this version of `proc_macro2` does not know, such as a C string
    /// or a name in a newer version of Unicode.
    fn try_from(buffer: Buffer) -> Result<Self, UnknownToken> {
        TokenStream::try_from(&buffer)
    }
}

impl TryFrom<&Buffer> for TokenStream {
    type Error = UnknownToken;

    fn try_from(buffer: &Buffer) -> Result<Self, UnknownToken> {
        stream(buffer.tokens(), &|_| other::Span::call_site())
    }
}

/// A function that returns the span of `proc_macro2` for a span of the library.
type Spans<'s> = &'s dyn Fn(Span) -> other::Span;

/// Converts the remaining tokens of a cursor. The call keeps the groups around these tokens on a
/// stack of its own.
pub(crate) fn stream(tokens: Cursor<'_>, spans: Spans<'_>) -> Result<TokenStream, UnknownToken> {
    let mut outer = Vec::new();
    let mut tokens = tokens;
    let mut trees: Vec<TokenTree> = Vec::new();
    loop {
        match tokens.next() {
            Some(Token::Ident(leaf)) => trees.push(word(leaf, spans(leaf.span))?.into()),
            Some(Token::Punct(it)) => trees.push(punct(&it, spans(it.span)).into()),
            Some(Token::Literal(leaf)) => trees.push(literal(leaf, spans(leaf.span))?.into()),
            Some(Token::Group(it)) => {
                let (delimiter, span) = (it.delimiter, spans(it.span()));
                let after = mem::replace(&mut tokens, it.tokens);
                outer.push((after, mem::take(&mut trees), delimiter, span));
            }
            None => match outer.pop() {
                Some((after, before, delimiter, span)) => {
                    let inside = mem::replace(&mut trees, before);
                    trees.push(group(delimiter, inside, span).into());
                    tokens = after;
                }
                None => return Ok(trees.into_iter().collect()),
            },
        }
    }
}

fn unknown(leaf: Leaf<'_>) -> UnknownToken {
    UnknownToken { text: leaf.text.to_string(), span: leaf.span }
}

fn word(leaf: Leaf<'_>, span: other::Span) -> Result<other::Ident, UnknownToken> {
    // `Ident::new` panics for a name that is none to proc_macro2, as `$crate` is. Its reader
    // doesn't.
    let is_plain = leaf.text.is_ascii() && !leaf.text.starts_with('$');
    if !is_plain && !is_one_ident(leaf.text) {
        return Err(unknown(leaf));
    }
    Ok(match leaf.text.strip_prefix("r#") {
        Some(name) => other::Ident::new_raw(name, span),
        None => other::Ident::new(leaf.text, span),
    })
}

fn is_one_ident(text: &str) -> bool {
    text.parse::<TokenStream>().map_or(false, |stream| {
        let mut trees = stream.into_iter();
        matches!((trees.next(), trees.next()), (Some(TokenTree::Ident(_)), None))
    })
}

fn literal(leaf: Leaf<'_>, span: other::Span) -> Result<other::Literal, UnknownToken> {
    let mut literal: other::Literal = leaf.text.parse().map_err(|_| unknown(leaf))?;
    literal.set_span(span);
    Ok(literal)
}

fn punct(punct: &Punct, span: other::Span) -> other::Punct {
    let spacing = match punct.spacing {
        Spacing::Alone => other::Spacing::Alone,
        Spacing::Joint => other::Spacing::Joint,
    };
    let mut punct = other::Punct::new(punct.ch, spacing);
    punct.set_span(span);
    punct
}

fn group(delimiter: Delimiter, inside: Vec<TokenTree>, span: other::Span) -> other::Group {
    let delimiter = match delimiter {
        Delimiter::Parenthesis => other::Delimiter::Parenthesis,
        Delimiter::Brace => other::Delimiter::Brace,
        Delimiter::Bracket => other::Delimiter::Bracket,
        Delimiter::None => other::Delimiter::None,
    };
    let mut group = other::Group::new(delimiter, inside.into_iter().collect());
    group.set_span(span);
    group
}
