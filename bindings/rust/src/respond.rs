//! Runs commands over the tokens of a text.
use alloc::string::String;

use crate::error::Error;
use crate::ffi;

/// The output of the program for an input, and the program's status.
#[derive(Clone, Debug, PartialEq, Eq)]
#[non_exhaustive]
pub struct Response {
    /// The status, which is [`Response::ACCEPTED`], [`Response::REJECTED`] or
    /// [`Response::UNREADABLE`].
    pub status: u8,
    /// The report of the commands, or one line that says why the input is unreadable.
    pub text: String,
}

impl Response {
    /// The status of a response whose verdicts all accept.
    pub const ACCEPTED: u8 = 0;
    /// The status of a response with a verdict that rejects.
    pub const REJECTED: u8 = 1;
    /// The status of a response to an unreadable input.
    pub const UNREADABLE: u8 = 2;
}

// The status if an allocation failed.
const NO_MEMORY: u8 = 3;

/// Runs the program over an input, and returns its output and its status.
///
/// The input consists of a text, a line `---`, and commands. The page `docs/PROGRAM.md` of the
/// repository describes the commands and their output.
///
/// # Errors
///
/// Returns [`Error::Memory`] if an allocation fails.
///
/// ```
/// use syn_tokens::{respond, Response};
///
/// let response = respond(b"a b\n---\nparse 0 Ident\n")?;
/// assert_eq!(response.text, "read a 0..1 @1\nrefused 2..3 unexpected token\n");
/// assert_eq!(response.status, Response::REJECTED);
/// # Ok::<(), syn_tokens::Error>(())
/// ```
pub fn respond(input: &[u8]) -> Result<Response, Error> {
    match ffi::respond(input)? {
        (NO_MEMORY, _) => Err(Error::Memory),
        (status, text) => Ok(Response { status, text }),
    }
}
