//! Compares the cursor of `syn` with the cursor of this library over equal tokens.
use std::fmt::Debug;

use proc_macro2::{self as other, TokenStream};
use syn::buffer::{self, TokenBuffer};
use syn_tokens::{self as ours, Buffer, Cursor, Delimiter};

use crate::random::Random;
use crate::tally::Tally;

const DELIMITERS: [(Delimiter, other::Delimiter); 4] = [
    (Delimiter::Parenthesis, other::Delimiter::Parenthesis),
    (Delimiter::Brace, other::Delimiter::Brace),
    (Delimiter::Bracket, other::Delimiter::Bracket),
    (Delimiter::None, other::Delimiter::None),
];

/// A cursor of this library, and a cursor of `syn` at the same token.
type Both<'b, 's> = (Cursor<'b>, buffer::Cursor<'s>);

/// Returns both cursors after a token if both calls found this token, or `None` if both calls found
/// none. Otherwise, returns a text that says what each call found.
fn after<'b, 's, T: Debug + PartialEq>(
    call: &str,
    ours: Option<(T, Cursor<'b>)>,
    theirs: Option<(T, buffer::Cursor<'s>)>,
) -> Result<Option<Both<'b, 's>>, String> {
    match (ours, theirs) {
        (Some((a, x)), Some((b, y))) if a == b => Ok(Some((x, y))),
        (None, None) => Ok(None),
        (ours, theirs) => {
            let (ours, theirs) = (ours.map(|it| it.0), theirs.map(|it| it.0));
            Err(format!("{call}: {ours:?} and {theirs:?}"))
        }
    }
}

/// Compares the result of each call of both cursors. Continues after a token that the calls found,
/// until they find none.
fn compare(random: &mut Random, begun: Both<'_, '_>) -> Result<(), String> {
    let mut open = vec![begun];
    while let Some((ours, theirs)) = open.pop() {
        if ours.eof() != theirs.eof() {
            return Err(format!("eof: {} and {}", ours.eof(), theirs.eof()));
        }
        let ident = after(
            "ident",
            ours.ident().map(|(it, rest)| (it.text.to_string(), rest)),
            theirs.ident().map(|(it, rest)| (it.to_string(), rest)),
        )?;
        let punct = after(
            "punct",
            ours.punct().map(|(it, rest)| ((it.ch, it.spacing == ours::Spacing::Joint), rest)),
            theirs
                .punct()
                .map(|(it, rest)| ((it.as_char(), it.spacing() == other::Spacing::Joint), rest)),
        )?;
        let literal = after(
            "literal",
            ours.literal().map(|(it, rest)| (it.text.to_string(), rest)),
            theirs.literal().map(|(it, rest)| (it.to_string(), rest)),
        )?;
        let lifetime = after(
            "lifetime",
            ours.lifetime().map(|(it, rest)| (it.ident.text.to_string(), rest)),
            theirs.lifetime().map(|(it, rest)| (it.ident.to_string(), rest)),
        )?;
        let mut ways: Vec<Vec<Both<'_, '_>>> = Vec::new();
        ways.extend([ident, punct, literal, lifetime].into_iter().flatten().map(|it| vec![it]));
        for (ours_of, theirs_of) in DELIMITERS {
            match (ours.group(ours_of), theirs.group(theirs_of)) {
                (Some((group, x)), Some((inside, _, y))) => {
                    ways.push(vec![(x, y), (group.tokens, inside)]);
                }
                (None, None) => {}
                (a, b) => return Err(format!("group: {} and {}", a.is_some(), b.is_some())),
            }
        }
        // None finds an apostrophe alone.
        if !ways.is_empty() {
            let which = random.below(ways.len());
            open.extend(ways.swap_remove(which));
        }
    }
    Ok(())
}

/// Compares the cursor of a buffer with the cursor of the stream that was converted from the
/// buffer.
pub fn run(number: usize, text: &str, buffer: &Buffer, stream: TokenStream, tally: &mut Tally) {
    let theirs = TokenBuffer::new2(stream);
    let mut random = Random::new(number as u64);
    match compare(&mut random, (buffer.tokens(), theirs.begin())) {
        Ok(()) => tally.count("cursors: equal", text, ""),
        Err(told) => tally.count("cursors: UNLISTED: another token", text, &told),
    }
}
