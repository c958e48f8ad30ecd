//! Writes tokens as a text, with a space between two tokens unless the first token is a joint
//! punct.
use core::fmt::{self, Display, Formatter};

use crate::buffer::{Buffer, Cursor, Delimiter, Group, Piece, Spacing, Token};

impl Display for Buffer {
    fn fmt(&self, f: &mut Formatter<'_>) -> fmt::Result {
        self.tokens().fmt(f)
    }
}

impl Display for Cursor<'_> {
    /// Writes the remaining tokens.
    fn fmt(&self, f: &mut Formatter<'_>) -> fmt::Result {
        // The entries in order, and not group by group, so that no nesting takes more of the stack.
        let mut is_first = true;
        for piece in self.pieces() {
            let is_closing = matches!(piece, Piece::Closing(_));
            if !is_first && !is_closing {
                f.write_str(" ")?;
            }
            is_first = false;
            match piece {
                Piece::Text(text) => f.write_str(text)?,
                Piece::Punct(text, spacing) => {
                    f.write_str(text)?;
                    is_first = spacing == Spacing::Joint;
                }
                Piece::Opening(delimiter) => {
                    f.write_str(edges(delimiter).0)?;
                    is_first = true;
                }
                Piece::Closing(delimiter) => f.write_str(edges(delimiter).1)?,
            }
        }
        Ok(())
    }
}

fn edges(delimiter: Delimiter) -> (&'static str, &'static str) {
    match delimiter {
        Delimiter::Parenthesis => ("(", ")"),
        Delimiter::Brace => ("{", "}"),
        Delimiter::Bracket => ("[", "]"),
        Delimiter::None => ("", ""),
    }
}

impl Display for Token<'_> {
    fn fmt(&self, f: &mut Formatter<'_>) -> fmt::Result {
        match self {
            Token::Ident(leaf) | Token::Literal(leaf) => f.write_str(leaf.text),
            Token::Punct(punct) => punct.ch.fmt(f),
            Token::Group(group) => group.fmt(f),
        }
    }
}

impl Display for Group<'_> {
    fn fmt(&self, f: &mut Formatter<'_>) -> fmt::Result {
        let (open, close) = edges(self.delimiter);
        write!(f, "{open}{}{close}", self.tokens)
    }
}
