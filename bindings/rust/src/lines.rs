//! Lines and columns of a text.
use alloc::vec::Vec;

use crate::error::Error;
use crate::ffi;

/// A position in a text: a line, and a column in characters. Both are counted from 1.
///
/// The columns of `proc_macro2` are counted from 0.
#[derive(Clone, Copy, Debug, PartialEq, Eq, PartialOrd, Ord, Hash)]
#[non_exhaustive]
pub struct LineColumn {
    /// The line, counted from 1.
    pub line: usize,
    /// The column, counted from 1.
    pub column: usize,
}

/// Returns the line and the column of each byte offset in `bytes`, or `None` for an offset within a
/// character or after the end of the text.
///
/// The call reads the text once to find its lines, and then reads one line for each offset.
///
/// # Errors
///
/// Returns an error if an allocation fails, or if the library has another version.
///
/// ```
/// use syn_tokens::{line_columns, Buffer};
///
/// let text = "let a\n  = é + b;";
/// let buffer = Buffer::lex(text)?;
/// let starts: Vec<usize> = buffer.tokens().map(|it| it.span().start).collect();
/// let places = line_columns(text, &starts)?;
/// let last = places[5].unwrap();
/// assert_eq!((last.line, last.column), (2, 9));
/// # Ok::<(), syn_tokens::Error>(())
/// ```
pub fn line_columns(text: &str, bytes: &[usize]) -> Result<Vec<Option<LineColumn>>, Error> {
    let places = ffi::lines(text, bytes)?;
    let mut known = Vec::new();
    known.try_reserve_exact(places.len())?;
    known.extend(places.into_iter().map(|it| match it.line {
        0 => None,
        line => Some(LineColumn { line, column: it.column }),
    }));
    Ok(known)
}
