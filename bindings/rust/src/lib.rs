//! Tokens of Rust source text, read by a proved library.
//!
//! The contracts of the library state which tokens each text has, and why the library rejects other
//! texts. This package converts the output of the library to safe types, without a proof. Its
//! modules with `unsafe` code explain why each call is sound.
//!
//! No call panics. If the library has another version, whose structs have a different layout, each
//! call that reads a text or takes tokens returns an error.
//!
//! ```
//! use syn_tokens::{Buffer, Token};
//!
//! let buffer = Buffer::lex("let x = (a + 1)..b[2];")?;
//! let mut words = Vec::new();
//! for token in &buffer {
//!     match token {
//!         Token::Ident(ident) => words.push(ident.text),
//!         Token::Group(group) => words.push(if group.tokens.eof() { "empty" } else { "filled" }),
//!         _ => {}
//!     }
//! }
//! assert_eq!(words, ["let", "x", "filled", "b", "filled"]);
//! # Ok::<(), syn_tokens::Error>(())
//! ```
#![no_std]
#![deny(unsafe_code, unsafe_op_in_unsafe_fn)]
#![warn(missing_debug_implementations, missing_docs)]

extern crate alloc;
#[cfg(feature = "proc-macro")]
extern crate proc_macro;
#[cfg(feature = "std")]
extern crate std;

/// The version of this package.
pub const VERSION: &str = env!("CARGO_PKG_VERSION");

mod buffer;
#[cfg(feature = "proc-macro2")]
pub mod compiler;
mod error;
mod ffi;
mod lines;
mod memory;
mod print;
#[cfg(feature = "proc-macro2")]
mod proc_macro2;
mod respond;
#[cfg(feature = "proc-macro2")]
mod trees;
mod values;

#[cfg(feature = "proc-macro2")]
pub use self::proc_macro2::UnknownToken;
pub use buffer::{
    Buffer, Cursor, Delimiter, Edition, Group, Groups, Leaf, Lifetime, Punct, Spacing, Span, Token,
};
pub use error::Error;
pub use lines::{line_columns, LineColumn};
pub use respond::{respond, Response};
pub use values::LiteralValue;
