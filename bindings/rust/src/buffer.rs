//! Buffers of tokens, and cursors over the tokens of a buffer.
use alloc::collections::TryReserveError;
use alloc::string::String;
use alloc::vec::Vec;
use core::fmt;
use core::hash::{Hash, Hasher};
use core::iter::FusedIterator;
use core::ops::Range;
use core::str::FromStr;

use crate::error::Error;
use crate::ffi::{self, Entry, Held, Rules, Step, Wanted};

/// An edition of Rust. The default is the newest edition.
#[derive(Clone, Copy, Debug, Default, PartialEq, Eq, PartialOrd, Ord, Hash)]
#[non_exhaustive]
pub enum Edition {
    /// Rust 2015.
    Edition2015,
    /// Rust 2018.
    Edition2018,
    /// Rust 2021.
    Edition2021,
    /// Rust 2024.
    #[default]
    Edition2024,
}

/// The delimiters of a group.
#[derive(Clone, Copy, Debug, PartialEq, Eq, Hash)]
pub enum Delimiter {
    /// `( .. )`
    Parenthesis,
    /// `{ .. }`
    Brace,
    /// `[ .. ]`
    Bracket,
    /// No visible delimiter. A group with this delimiter is invisible. Macros leave such groups
    /// around the tokens that they insert.
    None,
}

/// Whether another punct directly follows a punct and may belong to the same operator, such as
/// `+=`.
#[derive(Clone, Copy, Debug, PartialEq, Eq, Hash)]
pub enum Spacing {
    /// No punct directly follows this punct, or the next punct can't belong to the same operator.
    Alone,
    /// Another punct directly follows this punct.
    Joint,
}

/// A range of bytes in the text that was read.
#[derive(Clone, Copy, Debug, PartialEq, Eq, Hash)]
pub struct Span {
    /// The offset of the first byte.
    pub start: usize,
    /// The offset of the byte after the last byte.
    pub end: usize,
}

impl Span {
    /// Returns the part of `text` that the span covers, if `text` is the text that was read.
    ///
    /// Returns `None` if `text` is another text that does not have these bytes.
    /// [`Buffer::lex_marked`] does not count the bytes of `«` and `»`, so its spans are not ranges
    /// of its text.
    #[must_use]
    pub fn source_text(self, text: &str) -> Option<&str> {
        text.get(self.start..self.end)
    }

    /// Returns the span from the earlier start to the later end of the two spans.
    #[must_use]
    pub fn join(self, other: Span) -> Span {
        Span { start: self.start.min(other.start), end: self.end.max(other.end) }
    }
}

impl From<Span> for Range<usize> {
    fn from(span: Span) -> Self {
        span.start..span.end
    }
}

/// A buffer that holds the tokens of a text.
///
/// ```
/// use syn_tokens::{Buffer, Token};
///
/// let buffer: Buffer = "a (b)".parse()?;
/// let tokens: Vec<Token> = buffer.tokens().collect();
/// assert_eq!(tokens.len(), 2);
/// # Ok::<(), syn_tokens::Error>(())
/// ```
#[derive(Default)]
pub struct Buffer {
    // The tokens of a text, as the library holds them.
    held: Option<Held>,
    // Entries in place of those that are held, if there are any.
    pub(crate) entries: Vec<Entry>,
    // Texts, if none are held.
    pub(crate) texts: String,
}

impl Buffer {
    /// Reads a text that contains no floats, no raw strings, byte strings or C strings, and no doc
    /// comments.
    ///
    /// Such a text has the same tokens in each edition. To read a whole source, use
    /// [`Buffer::lex_source`].
    ///
    /// # Errors
    ///
    /// Returns an error if the grammar rejects the text, if an allocation fails, or if the library
    /// has another version.
    ///
    /// ```
    /// use syn_tokens::{Buffer, Error};
    ///
    /// let error = Buffer::lex("(a").unwrap_err();
    /// assert!(matches!(error, Error::Rejected { rule: 2, at: 0, .. }));
    /// ```
    pub fn lex(text: &str) -> Result<Self, Error> {
        Buffer::read(Rules::Plain, text)
    }

    /// Reads a text in which `«` opens an invisible group and `»` closes it. Spans do not count the
    /// bytes of these two characters.
    ///
    /// # Errors
    ///
    /// Returns the same errors as [`Buffer::lex`].
    pub fn lex_marked(text: &str) -> Result<Self, Error> {
        Buffer::read(Rules::Marked, text)
    }

    /// Reads a whole Rust source.
    ///
    /// The lexer reads a doc comment as an attribute, and skips a byte order mark and a shebang
    /// line.
    ///
    /// # Errors
    ///
    /// Returns the same errors as [`Buffer::lex`].
    pub fn lex_source(edition: Edition, text: &str) -> Result<Self, Error> {
        let year = match edition {
            Edition::Edition2015 => 2015,
            Edition::Edition2018 => 2018,
            Edition::Edition2021 => 2021,
            Edition::Edition2024 => 2024,
        };
        Buffer::read(Rules::Source { year }, text)
    }

    fn read(rules: Rules, text: &str) -> Result<Self, Error> {
        let (reading, held) = ffi::lex(rules, text)?;
        if reading.status != ffi::READ {
            return Err(Error::new(reading, held.texts()));
        }
        let entries = match rules {
            Rules::Source { .. } if !text.is_ascii() => {
                with_closings_at_characters(held.entries(), text)?
            }
            _ => Vec::new(),
        };
        Ok(Buffer { held: Some(held), entries, texts: String::new() })
    }

    fn entries(&self) -> &[Entry] {
        match &self.held {
            Some(held) if self.entries.is_empty() => held.entries(),
            _ => &self.entries,
        }
    }

    fn texts(&self) -> &str {
        self.held.as_ref().map_or(&self.texts, Held::texts)
    }

    /// Returns a cursor at the first token.
    #[must_use]
    pub fn tokens(&self) -> Cursor<'_> {
        Cursor { entries: self.entries(), texts: self.texts() }
    }

    /// Returns an iterator over the tokens. The iterator is the cursor that `tokens` returns.
    #[must_use]
    pub fn iter(&self) -> Cursor<'_> {
        self.tokens()
    }

    /// Returns the number of leaf tokens and delimiters, including the delimiters of invisible
    /// groups.
    #[must_use]
    pub fn len(&self) -> usize {
        self.entries().len()
    }

    /// Returns `true` if there are no tokens.
    #[must_use]
    pub fn is_empty(&self) -> bool {
        self.entries().is_empty()
    }
}

impl Clone for Buffer {
    fn clone(&self) -> Self {
        Buffer { held: None, entries: self.entries().to_vec(), texts: self.texts().into() }
    }
}

impl PartialEq for Buffer {
    fn eq(&self, other: &Self) -> bool {
        self.entries() == other.entries() && self.texts() == other.texts()
    }
}

impl Eq for Buffer {}

impl Hash for Buffer {
    fn hash<H: Hasher>(&self, state: &mut H) {
        self.entries().hash(state);
        self.texts().hash(state);
    }
}

impl fmt::Debug for Buffer {
    /// Writes the tokens as a text in quotes.
    fn fmt(&self, f: &mut fmt::Formatter<'_>) -> fmt::Result {
        self.tokens().fmt(f)
    }
}

impl FromStr for Buffer {
    type Err = Error;

    /// Reads a whole source of the newest edition, as [`Buffer::lex_source`] does.
    fn from_str(text: &str) -> Result<Self, Error> {
        Buffer::lex_source(Edition::default(), text)
    }
}

impl<'b> IntoIterator for &'b Buffer {
    type Item = Token<'b>;
    type IntoIter = Cursor<'b>;

    fn into_iter(self) -> Cursor<'b> {
        self.tokens()
    }
}

/// An identifier or a literal.
#[derive(Clone, Copy, Debug, PartialEq, Eq, Hash)]
#[non_exhaustive]
pub struct Leaf<'b> {
    /// The text of the token. An identifier may begin with `r#`.
    pub text: &'b str,
    /// The location of the token in the text that was read.
    pub span: Span,
}

/// A single punctuation character, or the apostrophe of a lifetime.
#[derive(Clone, Copy, Debug, PartialEq, Eq, Hash)]
#[non_exhaustive]
pub struct Punct {
    /// The character.
    pub ch: char,
    /// Whether another punct directly follows this punct.
    pub spacing: Spacing,
    /// The location of the character in the text that was read.
    pub span: Span,
}

/// A group of tokens with its delimiters.
#[derive(Clone, Debug, PartialEq, Eq, Hash)]
#[non_exhaustive]
pub struct Group<'b> {
    /// The delimiters around the tokens.
    pub delimiter: Delimiter,
    /// A cursor at the first token inside the group.
    pub tokens: Cursor<'b>,
    /// The span of the opening delimiter.
    pub open: Span,
    /// The span of the closing delimiter.
    pub close: Span,
}

impl Group<'_> {
    /// Returns the span from the opening delimiter to the closing delimiter.
    #[must_use]
    pub fn span(&self) -> Span {
        self.open.join(self.close)
    }
}

/// A lifetime, such as `'a`. It consists of an apostrophe and a name.
#[derive(Clone, Copy, Debug, PartialEq, Eq, Hash)]
#[non_exhaustive]
pub struct Lifetime<'b> {
    /// The span of the apostrophe.
    pub apostrophe: Span,
    /// The name after the apostrophe.
    pub ident: Leaf<'b>,
}

impl Lifetime<'_> {
    /// Returns the span from the apostrophe to the end of the name.
    #[must_use]
    pub fn span(&self) -> Span {
        self.apostrophe.join(self.ident.span)
    }
}

/// A token: an identifier, a punct, a literal, or a group of tokens.
#[derive(Clone, Debug, PartialEq, Eq, Hash)]
pub enum Token<'b> {
    /// An identifier, a keyword or `_`.
    Ident(Leaf<'b>),
    /// A single punctuation character.
    Punct(Punct),
    /// A literal.
    Literal(Leaf<'b>),
    /// A group of tokens.
    Group(Group<'b>),
}

impl Token<'_> {
    /// Returns the span of a leaf, or of a whole group.
    #[must_use]
    pub fn span(&self) -> Span {
        match self {
            Token::Ident(leaf) | Token::Literal(leaf) => leaf.span,
            Token::Punct(punct) => punct.span,
            Token::Group(group) => group.span(),
        }
    }
}

// What is printed of an entry.
pub(crate) enum Piece<'b> {
    Text(&'b str),
    Punct(&'b str, Spacing),
    Opening(Delimiter),
    Closing(Delimiter),
}

/// A position among the tokens of a group or of a whole text. A cursor is also an iterator over the
/// tokens after its position.
///
/// A clone of a cursor is at the same position.
#[derive(Clone)]
pub struct Cursor<'b> {
    entries: &'b [Entry],
    texts: &'b str,
}

impl<'b> Cursor<'b> {
    /// Returns `true` if no token is left.
    #[must_use]
    pub fn eof(&self) -> bool {
        self.entries.is_empty()
    }

    /// Returns the next token without moving past it, or `None` if no token is left.
    #[must_use]
    pub fn peek(&self) -> Option<Token<'b>> {
        self.clone().next()
    }

    /// Returns the next token and the cursor after it, if the token is an identifier, a keyword or
    /// `_`.
    ///
    /// This call and the other calls that return a cursor ignore the delimiters of invisible
    /// groups, as the cursor of `syn` does, and allocate nothing. The iterator, however, yields an
    /// invisible group as a token.
    ///
    /// ```
    /// use syn_tokens::{Buffer, Delimiter};
    ///
    /// let buffer = Buffer::lex_marked("« 'a » : « f » (1)")?;
    /// let (lifetime, rest) = buffer.tokens().lifetime().unwrap();
    /// let (colon, rest) = rest.punct().unwrap();
    /// let (name, rest) = rest.ident().unwrap();
    /// let (group, rest) = rest.group(Delimiter::Parenthesis).unwrap();
    /// let (one, end) = group.tokens.literal().unwrap();
    /// assert_eq!((lifetime.ident.text, colon.ch, name.text, one.text), ("a", ':', "f", "1"));
    /// assert!(end.eof() && rest.eof());
    /// # Ok::<(), syn_tokens::Error>(())
    /// ```
    #[must_use]
    pub fn ident(&self) -> Option<(Leaf<'b>, Cursor<'b>)> {
        self.leaf_at(self.step(Wanted::Ident)?)
    }

    /// Returns the next token and the cursor after it, if the token is a punct other than an
    /// apostrophe.
    #[must_use]
    pub fn punct(&self) -> Option<(Punct, Cursor<'b>)> {
        let step = self.step(Wanted::Punct)?;
        Some((self.punct_of(self.entries.get(step.at)?)?, self.after(step)?))
    }

    /// Returns the next token and the cursor after it, if the token is a literal.
    #[must_use]
    pub fn literal(&self) -> Option<(Leaf<'b>, Cursor<'b>)> {
        self.leaf_at(self.step(Wanted::Literal)?)
    }

    /// Returns the next lifetime and the cursor after it, or `None` if no lifetime is next.
    #[must_use]
    pub fn lifetime(&self) -> Option<(Lifetime<'b>, Cursor<'b>)> {
        let step = self.step(Wanted::Lifetime)?;
        let apostrophe = span(self.entries.get(step.at)?);
        let ident = self.leaf(self.entries.get(step.last)?);
        Some((Lifetime { apostrophe, ident }, self.after(step)?))
    }

    /// Returns the next group and the cursor after it, if the group has this delimiter.
    ///
    /// With [`Delimiter::None`], the call finds an invisible group only if it is the next token.
    #[must_use]
    pub fn group(&self, delimiter: Delimiter) -> Option<(Group<'b>, Cursor<'b>)> {
        let number = match delimiter {
            Delimiter::Parenthesis => 0,
            Delimiter::Brace => 1,
            Delimiter::Bracket => 2,
            Delimiter::None => 3,
        };
        let step = self.step(Wanted::Group(number))?;
        let inside = self.entries.get(step.at + 1..step.last)?;
        let group = Group {
            delimiter,
            tokens: Cursor { entries: inside, texts: self.texts },
            open: span(self.entries.get(step.at)?),
            close: span(self.entries.get(step.last)?),
        };
        Some((group, self.after(step)?))
    }

    /// Returns the cursor after the next token, which can be a lifetime, another leaf or a visible
    /// group. Returns `None` if no such token is left.
    #[must_use]
    pub fn skip_token(&self) -> Option<Cursor<'b>> {
        self.after(self.step(Wanted::Any)?)
    }

    fn step(&self, wanted: Wanted) -> Option<Step> {
        ffi::step(wanted, self.entries, self.texts)
    }

    fn after(&self, step: Step) -> Option<Cursor<'b>> {
        Some(Cursor { entries: self.entries.get(step.next..)?, texts: self.texts })
    }

    fn leaf_at(&self, step: Step) -> Option<(Leaf<'b>, Cursor<'b>)> {
        Some((self.leaf(self.entries.get(step.at)?), self.after(step)?))
    }

    fn punct_of(&self, entry: &Entry) -> Option<Punct> {
        Some(Punct {
            ch: self.texts.get(entry.text_start..)?.chars().next()?,
            spacing: spacing(entry),
            span: span(entry),
        })
    }

    /// Returns an iterator over the groups among the tokens. The iterator does not yield the groups
    /// inside these groups.
    ///
    /// ```
    /// use syn_tokens::{Buffer, Delimiter};
    ///
    /// let buffer = Buffer::lex("a (b {c}) [d]")?;
    /// let found: Vec<Delimiter> = buffer.tokens().groups().map(|it| it.delimiter).collect();
    /// assert_eq!(found, [Delimiter::Parenthesis, Delimiter::Bracket]);
    /// # Ok::<(), syn_tokens::Error>(())
    /// ```
    #[must_use]
    pub fn groups(self) -> Groups<'b> {
        Groups { tokens: self }
    }

    // The entries that are left, each with its own text, wherever the texts of the buffer are: so
    // cursors of two buffers are compared and hashed, however deep the groups are.
    fn flat(&self) -> impl Iterator<Item = (Entry, &'b str)> + 'b {
        let (entries, texts) = (self.entries, self.texts);
        entries.iter().map(move |it| {
            let text = texts.get(it.text_start..it.text_end).unwrap_or_default();
            (Entry { text_start: 0, text_end: 0, ..*it }, text)
        })
    }

    // The entries that are left as they are printed.
    pub(crate) fn pieces(&self) -> impl Iterator<Item = Piece<'b>> + 'b {
        self.flat().map(|(it, text)| match it.kind {
            ffi::IDENT | ffi::LITERAL => Piece::Text(text),
            ffi::PUNCT => Piece::Punct(text, spacing(&it)),
            ffi::CLOSING => Piece::Closing(delimiter(it.delimiter)),
            _ => Piece::Opening(delimiter(it.delimiter)),
        })
    }

    fn leaf(&self, entry: &Entry) -> Leaf<'b> {
        let text = self.texts.get(entry.text_start..entry.text_end);
        Leaf { text: text.unwrap_or_default(), span: span(entry) }
    }
}

impl fmt::Debug for Cursor<'_> {
    /// Writes the remaining tokens as a text in quotes.
    fn fmt(&self, f: &mut fmt::Formatter<'_>) -> fmt::Result {
        write!(f, "\"{}\"", format_args!("{self}"))
    }
}

/// Two cursors are equal if their remaining tokens are equal, including their spans. The cursors
/// may be in different buffers.
impl PartialEq for Cursor<'_> {
    fn eq(&self, other: &Self) -> bool {
        self.flat().eq(other.flat())
    }
}

impl Eq for Cursor<'_> {}

impl Hash for Cursor<'_> {
    fn hash<H: Hasher>(&self, state: &mut H) {
        self.entries.len().hash(state);
        for entry in self.flat() {
            entry.hash(state);
        }
    }
}

impl<'b> Iterator for Cursor<'b> {
    type Item = Token<'b>;

    fn next(&mut self) -> Option<Token<'b>> {
        let (entry, rest) = self.entries.split_first()?;
        let token = match entry.kind {
            ffi::IDENT => Token::Ident(self.leaf(entry)),
            ffi::LITERAL => Token::Literal(self.leaf(entry)),
            ffi::PUNCT => Token::Punct(self.punct_of(entry)?),
            // A cursor is never before a closing, so this is an opening.
            _ => {
                let size = entry.distance.checked_sub(1)?;
                let (inside, after) = (rest.get(..size)?, rest.get(size..)?);
                let (closing, after) = after.split_first()?;
                let group = Group {
                    delimiter: delimiter(entry.delimiter),
                    tokens: Cursor { entries: inside, texts: self.texts },
                    open: span(entry),
                    close: span(closing),
                };
                self.entries = left_after(after);
                return Some(Token::Group(group));
            }
        };
        self.entries = left_after(rest);
        Some(token)
    }
}

impl FusedIterator for Cursor<'_> {}

/// An iterator over the groups among the remaining tokens of a cursor.
#[derive(Clone, Debug)]
pub struct Groups<'b> {
    tokens: Cursor<'b>,
}

impl<'b> Iterator for Groups<'b> {
    type Item = Group<'b>;

    fn next(&mut self) -> Option<Group<'b>> {
        self.tokens.find_map(|it| match it {
            Token::Group(group) => Some(group),
            _ => None,
        })
    }
}

impl FusedIterator for Groups<'_> {}

// What is left after a token, past the invisible groups that end there. A cursor may be inside one
// that it has looked into.
fn left_after(mut entries: &[Entry]) -> &[Entry] {
    while let Some((closing, rest)) = entries.split_first() {
        if closing.kind != ffi::CLOSING {
            break;
        }
        entries = rest;
    }
    entries
}

// Returns the entries with each closing at the beginning of a character, or none if each is there:
// the closing bracket of a doc comment's attribute is at the last byte of the comment.
fn with_closings_at_characters(
    entries: &[Entry],
    text: &str,
) -> Result<Vec<Entry>, TryReserveError> {
    let is_inside = |it: &Entry| it.kind == ffi::CLOSING && !text.is_char_boundary(it.start);
    if !entries.iter().any(is_inside) {
        return Ok(Vec::new());
    }
    let mut changed = Vec::new();
    changed.try_reserve_exact(entries.len())?;
    changed.extend_from_slice(entries);
    for closing in changed.iter_mut().filter(|it| is_inside(it)) {
        while !text.is_char_boundary(closing.start) {
            closing.start -= 1;
        }
    }
    Ok(changed)
}

fn span(entry: &Entry) -> Span {
    Span { start: entry.start, end: entry.end }
}

fn spacing(entry: &Entry) -> Spacing {
    if entry.spacing == 0 {
        Spacing::Alone
    } else {
        Spacing::Joint
    }
}

fn delimiter(number: u16) -> Delimiter {
    match number {
        0 => Delimiter::Parenthesis,
        1 => Delimiter::Brace,
        2 => Delimiter::Bracket,
        _ => Delimiter::None,
    }
}
