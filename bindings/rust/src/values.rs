//! The values of literals.
use alloc::string::String;
use alloc::vec::Vec;

use crate::buffer::Leaf;
use crate::error::Error;
use crate::ffi;

/// The value of a literal, as [`Leaf::value`] returns it.
#[derive(Clone, Debug, PartialEq)]
#[non_exhaustive]
pub enum LiteralValue<'b> {
    /// The text of a string, in which each escape is replaced with the character that it stands
    /// for.
    Str(String),
    /// The bytes of a byte string.
    ByteStr(Vec<u8>),
    /// The character between apostrophes.
    Char(char),
    /// The byte of a byte literal.
    Byte(u8),
    /// An integer.
    Int {
        /// The value of the integer.
        value: u64,
        /// The suffix of the integer, such as `u8`, or an empty text.
        suffix: &'b str,
    },
    /// The `f64` nearest to a float, or to a decimal integer that does not fit in a `u64`.
    Float(f64),
}

impl<'b> Leaf<'b> {
    /// Returns the value of a literal. Returns `None` for an identifier, and for a literal without
    /// a value in this library.
    ///
    /// The literals without a value are raw strings, C strings, strings with a suffix, integers of
    /// another base that do not fit in a `u64`, and literals with a sign. A macro can create a
    /// literal with a sign, such as `-3`.
    ///
    /// Digits with the suffix `f32`, as in `1f32`, are an integer with this suffix.
    ///
    /// # Errors
    ///
    /// Returns an error if an allocation fails, or if the library has another version.
    ///
    /// ```
    /// use syn_tokens::{Buffer, LiteralValue, Token};
    ///
    /// let buffer: Buffer = "\"a\\n\" 0x1F_u8".parse()?;
    /// let mut values = Vec::new();
    /// for token in &buffer {
    ///     if let Token::Literal(literal) = token {
    ///         values.push(literal.value()?);
    ///     }
    /// }
    /// assert_eq!(values[0], Some(LiteralValue::Str("a\n".to_string())));
    /// assert_eq!(values[1], Some(LiteralValue::Int { value: 31, suffix: "u8" }));
    /// # Ok::<(), syn_tokens::Error>(())
    /// ```
    pub fn value(&self) -> Result<Option<LiteralValue<'b>>, Error> {
        let (value, bytes) = ffi::value(self.text)?;
        Ok(match value.kind {
            1 => Some(LiteralValue::Str(ffi::text_of(bytes))),
            2 => Some(LiteralValue::ByteStr(bytes)),
            3 => u32::try_from(value.number).ok().and_then(char::from_u32).map(LiteralValue::Char),
            4 => u8::try_from(value.number).ok().map(LiteralValue::Byte),
            5 => {
                let start = self.text.len().saturating_sub(value.suffix);
                let suffix = self.text.get(start..).unwrap_or_default();
                Some(LiteralValue::Int { value: value.number, suffix })
            }
            6 => Some(LiteralValue::Float(value.float)),
            _ => None,
        })
    }
}
