//! The tokens of a macro call, with the compiler's own spans.
//!
//! A `TokenStream` converts to a [`Buffer`]. The library parses the buffer as arguments, or with a
//! parser of your own. An error has the compiler's spans, and [`Error::to_compile_error`] converts
//! the error to tokens that a macro can return.
//!
//! In a buffer of this module, the span of a visible token is its number, `n..n + 1`. Each
//! delimiter of a visible group is a token, but the delimiters of an invisible group have no
//! number. Two streams with the same visible tokens therefore have equal spans, whatever invisible
//! groups the compiler has put around them. A range of numbers stands for the compiler's spans from
//! the first token of the range to its last token.
//!
//! ```
//! use syn_tokens::compiler::{Buffer, Value};
//!
//! let tokens: proc_macro2::TokenStream = "name = \"x\", flags(a, b)".parse().unwrap();
//! let buffer = Buffer::from(tokens);
//! let list = buffer.arguments()?;
//! for argument in &list {
//!     match argument.value {
//!         Value::Flag => println!("{}", argument.name.text),
//!         Value::Literal(literal) => println!("{} is {}", argument.name.text, literal.text),
//!         Value::List(_, inside) => println!("{} has {}", argument.name.text, inside.count()),
//!     }
//! }
//!
//! let buffer = Buffer::from("name = ,".parse::<proc_macro2::TokenStream>().unwrap());
//! let error = buffer.arguments().unwrap_err();
//! assert_eq!(error.to_string(), "expected literal token");
//! # Ok::<(), syn_tokens::compiler::Error>(())
//! ```
use ::proc_macro2 as other;
use ::proc_macro2::{Ident, Literal, TokenStream, TokenTree};
use alloc::string::{String, ToString};
use alloc::vec::{self, Vec};
use alloc::{format, vec as list};
use core::fmt::{self, Display, Write};
use core::iter::FusedIterator;
use core::slice;

use crate::buffer::{self, Cursor, Leaf, Span};
use crate::error::Error as Failure;
use crate::ffi::{self, Entry, FlatArgument, Outcome};
use crate::proc_macro2::UnknownToken;
use crate::respond::Response;

pub use crate::ffi::Export;
pub use crate::trees::Trees;

/// The structs that an exported parser takes and returns, and their layout.
pub mod layout {
    pub use crate::ffi::{Entry, Message, Outcome};
}

/// The tokens of a macro call.
#[derive(Clone, Debug, Default)]
pub struct Buffer {
    tokens: buffer::Buffer,
    // The compiler's span of each visible token, and the place of its entry.
    spans: Vec<other::Span>,
    places: Vec<usize>,
}

/// Fills a buffer from the token streams of this crate. The macro keeps the streams around a group
/// in a vector, so that deep nesting does not use up the machine's stack.
macro_rules! fill_from {
    ($fill:ident, $from:ident) => {
        fn $fill(&mut self, stream: $from::TokenStream) {
            use $from::{Delimiter, Spacing, TokenTree};
            let mut outer = Vec::new();
            let mut trees = stream.into_iter();
            loop {
                let start = self.tokens.texts.len();
                match trees.next() {
                    Some(TokenTree::Ident(it)) => {
                        // Writing into a string does not fail.
                        let _ = write!(self.tokens.texts, "{it}");
                        self.push(ffi::IDENT, 0, 0, start, it.span().into());
                    }
                    Some(TokenTree::Punct(it)) => {
                        let spacing = if it.spacing() == Spacing::Joint { 1 } else { 0 };
                        self.tokens.texts.push(it.as_char());
                        self.push(ffi::PUNCT, spacing, 0, start, it.span().into());
                    }
                    Some(TokenTree::Literal(it)) => {
                        let _ = write!(self.tokens.texts, "{it}");
                        self.push(ffi::LITERAL, 0, 0, start, it.span().into());
                    }
                    Some(TokenTree::Group(it)) => {
                        let delimiter = match it.delimiter() {
                            Delimiter::Parenthesis => 0,
                            Delimiter::Brace => 1,
                            Delimiter::Bracket => 2,
                            Delimiter::None => INVISIBLE,
                        };
                        let span = it.span_open().into();
                        let opening = self.push(ffi::OPENING, 0, delimiter, start, span);
                        let after = core::mem::replace(&mut trees, it.stream().into_iter());
                        // The group is kept, since one that is dropped while its stream is shared
                        // is taken apart at each level.
                        outer.push((after, opening, delimiter, it));
                    }
                    None => match outer.pop() {
                        Some((after, opening, delimiter, it)) => {
                            let span = it.span_close().into();
                            let closing = self.push(ffi::CLOSING, 0, delimiter, start, span);
                            self.tie(opening, closing);
                            trees = after;
                        }
                        None => return,
                    },
                }
            }
        }
    };
}

const INVISIBLE: u16 = 3;

impl Buffer {
    fill_from!(fill, other);

    #[cfg(feature = "proc-macro")]
    fill_from!(fill_from_compiler, proc_macro);

    // Appends an entry whose text begins at this byte and ends where the texts end, and returns its
    // place. Written out, since macros are mostly built without optimization.
    fn push(
        &mut self,
        kind: u32,
        spacing: u16,
        delimiter: u16,
        text_start: usize,
        span: other::Span,
    ) -> usize {
        let place = self.tokens.entries.len();
        let start = self.spans.len();
        let mut end = start;
        if delimiter != INVISIBLE {
            end += 1;
            self.spans.push(span);
            self.places.push(place);
        }
        let text_end = self.tokens.texts.len();
        let distance = 0;
        self.tokens.entries.push(Entry {
            kind,
            spacing,
            delimiter,
            start,
            end,
            text_start,
            text_end,
            distance,
        });
        place
    }

    // Ties the edges of a group together. Those of an invisible one have the spans of the first and
    // the last visible token inside.
    fn tie(&mut self, opening: usize, closing: usize) {
        let entries = &mut self.tokens.entries;
        let end = match entries.get_mut(closing) {
            Some(last) => {
                last.distance = closing - opening;
                last.end
            }
            None => return,
        };
        let is_around = match entries.get_mut(opening) {
            Some(first) => {
                first.distance = closing - opening;
                let is_around = first.delimiter == INVISIBLE && first.start < end;
                if is_around {
                    first.end = first.start + 1;
                }
                is_around
            }
            None => return,
        };
        if let (true, Some(last)) = (is_around, entries.get_mut(closing)) {
            last.start = end - 1;
        }
    }

    /// Returns a cursor at the first token. The spans of its tokens are ranges of token numbers.
    #[must_use]
    pub fn tokens(&self) -> Cursor<'_> {
        self.tokens.tokens()
    }

    /// Returns the number of leaf tokens and delimiters, including the delimiters of invisible
    /// groups.
    #[must_use]
    pub fn len(&self) -> usize {
        self.tokens.len()
    }

    /// Returns `true` if there are no tokens.
    #[must_use]
    pub fn is_empty(&self) -> bool {
        self.tokens.is_empty()
    }

    /// Returns the identifier or literal with this number. If the number belongs to no identifier
    /// or literal, the text of the returned leaf is empty.
    #[must_use]
    pub fn leaf(&self, number: usize) -> Leaf<'_> {
        let entry = self.places.get(number).and_then(|&place| self.tokens.entries.get(place));
        let text = entry.and_then(|it| self.tokens.texts.get(it.text_start..it.text_end));
        Leaf {
            text: text.unwrap_or_default(),
            span: Span { start: number, end: number.saturating_add(1) },
        }
    }

    /// Returns the compiler's spans of the first and the last token of a range. If the range is
    /// empty or not in this buffer, both spans are the call site.
    #[must_use]
    pub fn ends(&self, span: Span) -> (other::Span, other::Span) {
        match self.spans.get(span.start..span.end) {
            Some([first, .., last]) => (*first, *last),
            Some([only]) => (*only, *only),
            _ => (other::Span::call_site(), other::Span::call_site()),
        }
    }

    /// Returns the compiler's span of a range of tokens.
    ///
    /// If the compiler can join spans, the result reaches from the first token to the last token. A
    /// stable compiler can't join spans, so the result is the span of the first token.
    #[must_use]
    pub fn span(&self, span: Span) -> other::Span {
        let (first, last) = self.ends(span);
        first.join(last).unwrap_or(first)
    }

    /// Converts the remaining tokens of a cursor to a `TokenStream`. Each token has the compiler's
    /// span, and a group has the span that [`Buffer::span`] returns.
    ///
    /// # Errors
    ///
    /// Returns the first token that this version of `proc_macro2` does not know, or `$crate`, which
    /// no macro can create.
    pub fn stream(&self, tokens: Cursor<'_>) -> Result<TokenStream, UnknownToken> {
        crate::proc_macro2::stream(tokens, &|span| self.span(span))
    }

    /// Creates an error at a range of tokens.
    #[must_use]
    pub fn error(&self, span: Span, text: impl Display) -> Error {
        let (start, end) = self.ends(span);
        Error::of(text.to_string(), start, end)
    }

    /// Parses all tokens as a list of arguments with commas between them.
    ///
    /// An argument has the form `name`, `name = literal` or `name(..)`, with a list of arguments in
    /// the parentheses.
    ///
    /// # Errors
    ///
    /// Returns an error if the tokens are not arguments, or if an allocation fails.
    pub fn arguments(&self) -> Result<ArgumentList<'_>, Error> {
        let answer = ffi::arguments(&self.tokens.entries, &self.tokens.texts);
        let arguments = self.settled(answer)?.values;
        Ok(ArgumentList { buffer: self, arguments })
    }

    /// Runs commands over the tokens, with one command on each line. The page `docs/PROGRAM.md` of
    /// the repository describes the commands and their output.
    ///
    /// # Errors
    ///
    /// Returns an error if the library rejects the tokens, or if an allocation fails. A line that
    /// is not a command is no error. Instead, the response has status 2.
    ///
    /// ```
    /// use syn_tokens::compiler::Buffer;
    ///
    /// let tokens: proc_macro2::TokenStream = "a b".parse().unwrap();
    /// let response = Buffer::from(tokens).run("parse 0 Ident")?;
    /// assert_eq!(response.text, "read a 0..1 @1\nrefused 1..2 unexpected token\n");
    /// # Ok::<(), syn_tokens::compiler::Error>(())
    /// ```
    pub fn run(&self, commands: &str) -> Result<Response, Error> {
        match ffi::replay(&self.tokens.entries, &self.tokens.texts, commands) {
            Ok((outcome, text)) => match u8::try_from(outcome.status) {
                Ok(status) if status <= Response::UNREADABLE => Ok(Response { status, text }),
                _ => Err(self.stopped(outcome)),
            },
            Err(failure) => Err(Error::failed(&failure)),
        }
    }

    /// Parses all tokens with an exported parser of your own, and returns the values that the
    /// export has written.
    ///
    /// # Errors
    ///
    /// Returns an error if the parser rejects the tokens, or if an allocation fails.
    ///
    /// # Safety
    ///
    /// The export must belong to a library in Rattle, and return what `entry_outcomes::write`
    /// returns. `T` must have the same layout as the values of the export, and any bytes must be a
    /// valid `T`.
    #[allow(unsafe_code)]
    pub unsafe fn call<T: Copy>(&self, export: Export<T>) -> Result<Values<T>, Error> {
        // SAFETY: The caller vouches for the export, and for the layout of its values.
        let answer = unsafe { ffi::call(export, &self.tokens.entries, &self.tokens.texts) };
        self.settled(answer)
    }

    // Returns the values of an answer, or its error at the compiler's spans.
    fn settled<T>(&self, answer: Result<ffi::Answer<T>, Failure>) -> Result<Values<T>, Error> {
        match answer {
            Ok(it) if it.outcome.status == ffi::READ => {
                Ok(Values { values: it.values, texts: it.texts })
            }
            Ok(it) => Err(self.rejected(&it)),
            Err(failure) => Err(Error::failed(&failure)),
        }
    }

    fn rejected<T>(&self, answer: &ffi::Answer<T>) -> Error {
        let mut all = answer.messages.iter().map(|it| {
            let text = answer.texts.get(it.text_start..it.text_end).unwrap_or_default();
            self.error(Span { start: it.start, end: it.end }, text)
        });
        match all.next() {
            Some(mut error) if answer.outcome.status == ffi::REJECTED => {
                all.for_each(|another| error.combine(another));
                error
            }
            _ => self.stopped(answer.outcome),
        }
    }

    // The error of an outcome without a message.
    fn stopped(&self, outcome: Outcome) -> Error {
        match (outcome.status, self.tokens.entries.get(outcome.entry)) {
            (ffi::NO_MEMORY, _) => Error::failed(&Failure::Memory),
            (ffi::MALFORMED, Some(entry)) => {
                let span = Span { start: entry.start, end: entry.end };
                let text = self.tokens.texts.get(entry.text_start..entry.text_end);
                match outcome.refusal {
                    2 => self.error(span, format!("unknown token `{}`", text.unwrap_or_default())),
                    3 => self.error(span, "groups are nested deeper than 256"),
                    _ => self.error(span, "malformed tokens"),
                }
            }
            _ => Error::failed(&Failure::Version),
        }
    }
}

impl TryFrom<&Buffer> for TokenStream {
    type Error = UnknownToken;

    /// Converts all tokens of the buffer, as [`Buffer::stream`] does.
    fn try_from(buffer: &Buffer) -> Result<Self, UnknownToken> {
        buffer.stream(buffer.tokens())
    }
}

impl From<TokenStream> for Buffer {
    fn from(stream: TokenStream) -> Self {
        let mut buffer = Buffer::default();
        buffer.fill(stream);
        buffer
    }
}

#[cfg(feature = "proc-macro")]
impl From<proc_macro::TokenStream> for Buffer {
    /// Converts the compiler's tokens directly, without converting them to `proc_macro2` first.
    fn from(stream: proc_macro::TokenStream) -> Self {
        let mut buffer = Buffer::default();
        buffer.fill_from_compiler(stream);
        buffer
    }
}

/// The values that an export has written, and the texts that the values refer to.
#[derive(Clone, Debug, PartialEq, Eq)]
#[non_exhaustive]
pub struct Values<T> {
    /// The values, in order.
    pub values: Vec<T>,
    /// The texts that the values refer to.
    pub texts: String,
}

/// A list of arguments, which [`Buffer::arguments`] returns.
#[derive(Clone, Debug)]
pub struct ArgumentList<'b> {
    buffer: &'b Buffer,
    arguments: Vec<FlatArgument>,
}

impl ArgumentList<'_> {
    /// Returns an iterator over the arguments, in order.
    #[must_use]
    pub fn iter(&self) -> Arguments<'_> {
        Arguments { buffer: self.buffer, arguments: self.arguments.iter() }
    }
}

impl<'l> IntoIterator for &'l ArgumentList<'_> {
    type Item = Argument<'l>;
    type IntoIter = Arguments<'l>;

    fn into_iter(self) -> Arguments<'l> {
        self.iter()
    }
}

/// An argument, which consists of a name and a value, such as `name = 1`.
#[derive(Clone, Debug)]
#[non_exhaustive]
pub struct Argument<'l> {
    /// The name, which is not a keyword.
    pub name: Leaf<'l>,
    /// The value after the name.
    pub value: Value<'l>,
}

/// The value of an argument.
#[derive(Clone, Debug)]
pub enum Value<'l> {
    /// The name has no value.
    Flag,
    /// A literal after `=`.
    Literal(Leaf<'l>),
    /// Arguments in parentheses, and the span from the opening to the closing parenthesis.
    List(Span, Arguments<'l>),
}

/// An iterator over a list of arguments. The iterator does not yield the arguments inside these
/// arguments.
#[derive(Clone, Debug)]
pub struct Arguments<'l> {
    buffer: &'l Buffer,
    arguments: slice::Iter<'l, FlatArgument>,
}

impl<'l> Iterator for Arguments<'l> {
    type Item = Argument<'l>;

    fn next(&mut self) -> Option<Argument<'l>> {
        let first = self.arguments.next()?;
        let rest = self.arguments.as_slice();
        let inside = rest.get(..first.inside).unwrap_or(rest);
        self.arguments = rest.get(first.inside..).unwrap_or_default().iter();
        let value = match first.kind {
            0 => Value::Flag,
            1 => Value::Literal(self.buffer.leaf(first.value_start)),
            _ => Value::List(
                Span { start: first.value_start, end: first.value_end },
                Arguments { buffer: self.buffer, arguments: inside.iter() },
            ),
        };
        Some(Argument { name: self.buffer.leaf(first.name_start), value })
    }
}

impl FusedIterator for Arguments<'_> {}

/// A message of an error.
#[derive(Clone, Debug)]
#[non_exhaustive]
pub struct Message {
    /// The text of the message.
    pub text: String,
    /// The compiler's span of the first token that the message is about.
    pub start: other::Span,
    /// The compiler's span of the last token that the message is about.
    pub end: other::Span,
}

/// An error about a compiler's tokens, which consists of one or more messages. `Display` shows the
/// first message.
#[derive(Clone, Debug)]
pub struct Error {
    first: Message,
    more: Vec<Message>,
}

impl Error {
    /// Creates an error with one message.
    #[must_use]
    pub fn new(span: other::Span, text: impl Display) -> Self {
        Error::of(text.to_string(), span, span)
    }

    fn of(text: String, start: other::Span, end: other::Span) -> Self {
        Error { first: Message { text, start, end }, more: Vec::new() }
    }

    fn failed(failure: &Failure) -> Self {
        Error::new(other::Span::call_site(), failure)
    }

    /// Appends the messages of another error.
    pub fn combine(&mut self, another: Error) {
        self.more.push(another.first);
        self.more.extend(another.more);
    }

    /// Returns an iterator over the messages, in order.
    pub fn messages(&self) -> impl Iterator<Item = &Message> {
        core::iter::once(&self.first).chain(&self.more)
    }

    /// Returns the tokens of `::core::compile_error! { "text" }` for each message. The compiler
    /// reports a message at the tokens that the message is about, from the first to the last.
    #[must_use]
    pub fn to_compile_error(&self) -> TokenStream {
        self.messages().flat_map(Message::to_trees).collect()
    }
}

impl Message {
    fn to_trees(&self) -> Vec<TokenTree> {
        let punct = |ch, spacing| {
            let mut punct = other::Punct::new(ch, spacing);
            punct.set_span(self.start);
            TokenTree::from(punct)
        };
        let word = |text| TokenTree::from(Ident::new(text, self.start));
        let mut words = Literal::string(&self.text);
        words.set_span(self.end);
        let inside = TokenStream::from(TokenTree::from(words));
        let mut braces = other::Group::new(other::Delimiter::Brace, inside);
        braces.set_span(self.end);
        list![
            punct(':', other::Spacing::Joint),
            punct(':', other::Spacing::Alone),
            word("core"),
            punct(':', other::Spacing::Joint),
            punct(':', other::Spacing::Alone),
            word("compile_error"),
            punct('!', other::Spacing::Alone),
            braces.into(),
        ]
    }
}

impl Display for Error {
    fn fmt(&self, f: &mut fmt::Formatter<'_>) -> fmt::Result {
        f.write_str(&self.first.text)
    }
}

#[cfg(feature = "std")]
impl std::error::Error for Error {}

impl IntoIterator for Error {
    type Item = Message;
    type IntoIter = core::iter::Chain<core::iter::Once<Message>, vec::IntoIter<Message>>;

    /// Returns an iterator over the messages, in order.
    fn into_iter(self) -> Self::IntoIter {
        core::iter::once(self.first).chain(self.more)
    }
}
